/*
 * Asks the archive the cases of tests/form.py, on standard input, and prints its answers: a line for each.
 *
 *     write BASES OFFSET LEN FLAGS OFFSET LEN ROOM     the number, the bytes written, the whole buffer
 *     read FORM ROOM ROOM                              the number, the length, both whole buffers
 *     long N HEAD                                      the form of N characters made here: "fine", or the numbers of both refusals
 *
 * A buffer is 238 throughout before the call.
 */
#include "cases.h"
#include <tsivelaro.h>

static void asked_write(void)
{
    struct bytes bases = bytes();
    size_t o = number(), n = number();
    struct bytes flags = bytes();
    size_t r = number(), m = number(), written = 7;
    struct bytes out = room(number(), 238);
    uint32_t no = tsiv_form_write(bases.at, bases.size, o, n, flags.at, flags.size, r, m, out.at, out.size, &written);
    printf("%u %zu", no, written);
    print(out);
    free(bases.at), free(flags.at), free(out.at);
}

static void asked_read(void)
{
    struct bytes form = bytes();
    struct bytes bases = room(number(), 238);
    struct bytes flags = room(number(), 238);
    size_t len = 7;
    uint32_t no = tsiv_form_read(form.at, form.size, bases.at, bases.size, flags.at, flags.size, &len);
    printf("%u %zu", no, len);
    print(bases), print(flags);
    free(form.at), free(bases.at), free(flags.at);
}

/* Tracks of n characters: a C, a G and a set flag at both ends and between, zeros elsewhere. */
static void asked_long(void)
{
    size_t n = number(), b = (n + 3) / 4, f = (n + 7) / 8, written, len;
    struct bytes head = bytes(), bases = room(b + 48, 0), flags = room(f + 48, 0);
    struct bytes form = room(head.size + b + f, 238), x = room(b + 48, 238), y = room(f + 48, 238);
    bases.at[0] = 1, bases.at[b / 2] = 0x1E, bases.at[(n - 1) / 4] |= (uint8_t)(3 << (n - 1) % 4 * 2);
    flags.at[0] = 1, flags.at[f / 2] = 0xA7, flags.at[(n - 1) / 8] |= (uint8_t)(1 << (n - 1) % 8);
    uint32_t no = tsiv_form_write(bases.at, bases.size, 0, n, flags.at, flags.size, 0, n, form.at, form.size, &written);
    if (no) { /* the form that it would be */
        memcpy(form.at, head.at, head.size);
        memcpy(form.at + head.size, bases.at, b);
        memcpy(form.at + head.size + b, flags.at, f);
    }
    bool fine = !memcmp(form.at, head.at, head.size) && !memcmp(form.at + head.size, bases.at, b) &&
                !memcmp(form.at + head.size + b, flags.at, f);
    uint32_t other = tsiv_form_read(form.at, form.size, x.at, x.size, y.at, y.size, &len);
    if (no || other)
        printf("%u %u", no, other);
    else if (fine && written == form.size && len == n && !memcmp(x.at, bases.at, x.size) &&
             !memcmp(y.at, flags.at, y.size))
        printf("fine");
    else
        printf("wrong");
    free(head.at), free(bases.at), free(flags.at), free(form.at), free(x.at), free(y.at);
}

int main(void)
{
    char what[8];
    while (scanf("%7s", what) == 1) {
        if (!strcmp(what, "write"))
            asked_write();
        else if (!strcmp(what, "read"))
            asked_read();
        else if (!strcmp(what, "long"))
            asked_long();
        else
            stop("no such case");
        putchar('\n');
    }
    return 0;
}
