/* Cases on standard input: numbers, and bytes as their count and their hexadecimal digits, or "-" for none. */
#include <inttypes.h>
#include <stdio.h>
#include <stdlib.h>
#include <string.h>

struct bytes {
    uint8_t *at;
    size_t size;
};

static void stop(const char *why)
{
    fprintf(stderr, "cases: %s\n", why);
    exit(2);
}

/* So many bytes, each this one. */
static struct bytes room(size_t size, int byte)
{
    struct bytes b = {malloc(size ? size : 1), size};
    if (!b.at)
        stop("no memory");
    return memset(b.at, byte, size), b;
}

static size_t number(void)
{
    uint64_t n;
    if (scanf("%" SCNu64, &n) != 1)
        stop("no number");
    return n;
}

static uint8_t digit(int c) { return (uint8_t)(c <= '9' ? c - '0' : c - 'a' + 10); }

static struct bytes bytes(void)
{
    struct bytes b = room(number(), 0);
    getchar(); /* the space */
    if (!b.size)
        getchar(); /* the "-" */
    for (size_t i = 0; i < b.size; i++) {
        int high = getchar();
        b.at[i] = (uint8_t)(digit(high) << 4 | digit(getchar()));
    }
    return b;
}

static void print(struct bytes b)
{
    printf(" %zu ", b.size);
    for (size_t i = 0; i < b.size; i++)
        putchar("0123456789abcdef"[b.at[i] >> 4]), putchar("0123456789abcdef"[b.at[i] & 15]);
    if (!b.size)
        putchar('-');
}
