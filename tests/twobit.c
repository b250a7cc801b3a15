/*
 * Asks the archive the cases of tests/twobit.py, on standard input, and prints its answers: a line for each.
 *
 *     out ROOM ENTRY STOP PLACE LEFT                 a buffer to write into, 238 throughout, and the state; 0
 *     start COUNT NAMES                              the number, the state
 *     add NAME BASES OFFSET LEN FLAGS OFFSET LEN     the number, the state without its stop
 *     finish                                         the number, the size
 *     show                                           "out", the whole buffer
 *     size FLAGS OFFSET LEN                          the number, the size
 *     take SIZE; file BYTES                          what is read from now on: so much of the buffer, or these bytes; its size
 *     check                                          the number, the count
 *     first; entry NUMBER AT                         the number, the cursor, and of an entry its name's place and length and its offset
 *     info OFFSET                                    the number, the length, the N blocks, the mask blocks
 *     record OFFSET ROOM ROOM                        the number, the length, the mask blocks, both whole buffers, 238 before
 *     far                                            a file of more than 2^32 bytes made here: "fine"
 *
 * With a file's name: its sequences, a line each: name, size, number of mask blocks and letters, N where the flag is set, with tabs between;
 * or "refused" for a file that is not sound.
 */
#define _DEFAULT_SOURCE
#include "cases.h"
#include <sys/mman.h>
#include <tsivelaro.h>

static struct bytes out, file;
static size_t entry, end, place, left;

static void asked_add(void)
{
    struct bytes name = bytes(), bases = bytes();
    size_t o = number(), n = number();
    struct bytes flags = bytes();
    size_t r = number(), m = number();
    uint32_t no = tsiv_twobit_add(&entry, end, &place, &left, name.at, name.size, bases.at, bases.size, o, n, flags.at,
                                  flags.size, r, m, out.at, out.size);
    printf("%u %zu %zu %zu", no, entry, place, left);
    free(name.at), free(bases.at), free(flags.at);
}

static void asked_size(void)
{
    struct bytes flags = bytes();
    size_t r = number(), m = number(), size = 7;
    uint32_t no = tsiv_twobit_record_size(flags.at, flags.size, r, m, &size);
    printf("%u %zu", no, size);
    free(flags.at);
}

static void asked_entry(void)
{
    size_t n = number(), at = number(), name = 7, name_len = 7, offset = 7;
    uint32_t no = tsiv_twobit_entry(file.at, file.size, &n, &at, &name, &name_len, &offset);
    printf("%u %zu %zu %zu %zu %zu", no, n, at, name, name_len, offset);
}

static void asked_info(void)
{
    size_t offset = number(), len = 7, blocks = 7, masks = 7;
    uint32_t no = tsiv_twobit_record_info(file.at, file.size, offset, &len, &blocks, &masks);
    printf("%u %zu %zu %zu", no, len, blocks, masks);
}

static void asked_record(void)
{
    size_t offset = number(), len = 7, masks = 7;
    struct bytes bases = room(number(), 238);
    struct bytes flags = room(number(), 238);
    uint32_t no =
        tsiv_twobit_record(file.at, file.size, offset, bases.at, bases.size, flags.at, flags.size, &len, &masks);
    printf("%u %zu %zu", no, len, masks);
    print(bases), print(flags);
    free(bases.at), free(flags.at);
}

/* A record at the last offset of 32 bits: ACGTN. Of so many bytes only those that are touched take memory. */
static const char *far(void)
{
    static const uint8_t record[] = {5, 0, 0, 0, 1, 0, 0, 0, 4, 0, 0, 0, 1, 0, 0, 0, 0, 0, 0, 0, 0, 0, 0, 0, 0x9C, 0};
    static const uint8_t index[] = {1, 'x', 0xFF, 0xFF, 0xFF, 0xFF};
    const size_t last = 0xFFFFFFFF, size = last + sizeof record;
    uint8_t bases[50] = {0xB4, 3}, flags[49] = {16}, x[50], y[49];
    size_t at, stop_at, next, more, written, n, name, name_len, offset, len, blocks, masks;
    uint8_t *big = mmap(NULL, size, PROT_READ | PROT_WRITE, MAP_PRIVATE | MAP_ANONYMOUS | MAP_NORESERVE, -1, 0);
    if (big == MAP_FAILED)
        stop("no memory for a file of 2^32 bytes");
#define ACGTN(room)                                                                                                    \
    tsiv_twobit_add(&at, stop_at, &next, &more, (const uint8_t *)"x", 1, bases, 50, 0, 5, flags, 49, 0, 5, big, room)
    if (tsiv_twobit_start(1, 1, big, size, &at, &stop_at, &next, &more) || stop_at != 22 || next != 22)
        return "start";
    next = last;
    if (ACGTN(size - 1) != TSIV_NO_ROOM || at != 16 || next != last || more != 1 || big[last])
        return "no room";
    if (ACGTN(size) || at != 22 || next != size || more || memcmp(big + last, record, sizeof record) ||
        memcmp(big + 16, index, sizeof index))
        return "add";
    if (tsiv_twobit_finish(at, stop_at, next, more, &written) || written != size)
        return "finish";
    if (tsiv_twobit_check(big, size, &n) || n != 1)
        return "check";
    if (tsiv_twobit_check(big, size - 1, &n) != TSIV_BAD_FORM || n)
        return "check, a byte less";
    n = 0, at = 16;
    if (tsiv_twobit_entry(big, size, &n, &at, &name, &name_len, &offset) || offset != last || name_len != 1)
        return "entry";
    if (tsiv_twobit_record_info(big, size, offset, &len, &blocks, &masks) || len != 5 || blocks != 1 || masks)
        return "record_info";
    if (tsiv_twobit_record_info(big, size - 1, offset, &len, &blocks, &masks) != TSIV_BAD_FORM || len || blocks)
        return "record_info, a byte less";
    if (tsiv_twobit_record(big, size, offset, x, 50, y, 49, &len, &masks) || len != 5 || masks ||
        memcmp(x, bases, 50) || memcmp(y, flags, 49))
        return "record";
    /* one further is no offset of 32 bits */
    at = 16, next = last + 1, more = 1;
    if (ACGTN(size) != TSIV_BAD_RANGE || at != 16 || next != last + 1 || more != 1)
        return "an offset of 33 bits";
    munmap(big, size);
    return "fine";
}

static void asked(const char *what)
{
    uint32_t no;
    size_t a = 7, b = 7;
    if (!strcmp(what, "out")) {
        free(out.at);
        out = room(number(), 238);
        entry = number(), end = number(), place = number(), left = number();
        putchar('0');
    } else if (!strcmp(what, "start")) {
        a = number(), b = number();
        no = tsiv_twobit_start(a, b, out.at, out.size, &entry, &end, &place, &left);
        printf("%u %zu %zu %zu %zu", no, entry, end, place, left);
    } else if (!strcmp(what, "add")) {
        asked_add();
    } else if (!strcmp(what, "finish")) {
        no = tsiv_twobit_finish(entry, end, place, left, &a);
        printf("%u %zu", no, a);
    } else if (!strcmp(what, "show")) {
        printf("out"), print(out);
    } else if (!strcmp(what, "size")) {
        asked_size();
    } else if (!strcmp(what, "take")) {
        free(file.at);
        file = room(number(), 0);
        if (file.size > out.size)
            stop("no such file");
        memcpy(file.at, out.at, file.size);
        printf("%zu", file.size);
    } else if (!strcmp(what, "file")) {
        free(file.at);
        file = bytes();
        printf("%zu", file.size);
    } else if (!strcmp(what, "check")) {
        no = tsiv_twobit_check(file.at, file.size, &a);
        printf("%u %zu", no, a);
    } else if (!strcmp(what, "first")) {
        no = tsiv_twobit_first(file.at, file.size, &a, &b);
        printf("%u %zu %zu", no, a, b);
    } else if (!strcmp(what, "entry")) {
        asked_entry();
    } else if (!strcmp(what, "info")) {
        asked_info();
    } else if (!strcmp(what, "record")) {
        asked_record();
    } else if (!strcmp(what, "far")) {
        printf("%s", far());
    } else {
        stop("no such case");
    }
    putchar('\n');
}

static struct bytes read_file(const char *path)
{
    FILE *f = fopen(path, "rb");
    if (!f || fseek(f, 0, SEEK_END))
        stop("no such file");
    struct bytes b = room((size_t)ftell(f), 0);
    rewind(f);
    if (fread(b.at, 1, b.size, f) != b.size)
        stop("the file cannot be read");
    fclose(f);
    return b;
}

static void must(uint32_t no)
{
    if (no)
        stop(tsiv_refusal_name(no));
}

static void list(const char *path)
{
    size_t count, n, at, name, name_len, offset, len, blocks, masks;
    file = read_file(path);
    if (tsiv_twobit_check(file.at, file.size, &count)) {
        puts("refused");
        return;
    }
    must(tsiv_twobit_first(file.at, file.size, &n, &at));
    while (n < count) {
        must(tsiv_twobit_entry(file.at, file.size, &n, &at, &name, &name_len, &offset));
        must(tsiv_twobit_record_info(file.at, file.size, offset, &len, &blocks, &masks));
        struct bytes bases = room(TSIV_BASES_ROOM(len), 0), flags = room(TSIV_FLAGS_ROOM(len), 0);
        must(tsiv_twobit_record(file.at, file.size, offset, bases.at, bases.size, flags.at, flags.size, &len, &masks));
        fwrite(file.at + name, 1, name_len, stdout);
        printf("\t%zu\t%zu\t", len, masks);
        for (size_t i = 0; i < len; i++) {
            unsigned code = bases.at[i / 4] >> i % 4 * 2 & 3, flag = flags.at[i / 8] >> i % 8 & 1;
            putchar(!flag ? "ACTG"[code] : code == 3 ? 'N' : '?');
        }
        putchar('\n');
        free(bases.at), free(flags.at);
    }
}

int main(int argc, char **argv)
{
    char what[8];
    if (argc > 1)
        list(argv[1]);
    else
        while (scanf("%7s", what) == 1)
            asked(what);
    free(out.at), free(file.at);
    return 0;
}
