/* A .2bit file on standard input, FASTA on standard output: names, and letters in lines of 60, N where a flag is set. */
#include <stdio.h>
#include <stdlib.h>
#include <string.h>
#include <tsivelaro.h>

enum { LINE = 60 }; /* the flags of a line fit into a word of 64 bits */

static void stop(const char *why)
{
    fprintf(stderr, "twobit_to_fasta: %s\n", why);
    exit(1);
}

/* Every refusal is a mistake in the input: it ends the run with its name. */
static void must(uint32_t number)
{
    if (number != TSIV_DONE)
        stop(tsiv_refusal_name(number));
}

struct bytes {
    uint8_t *at;
    size_t size;
};

static void resize(struct bytes *bytes, size_t size)
{
    uint8_t *at = realloc(bytes->at, size ? size : 1);
    if (at == NULL)
        stop("no memory");
    bytes->at = at;
    bytes->size = size;
}

static struct bytes all_of(FILE *from)
{
    struct bytes bytes = {NULL, 0};
    size_t used = 0, got;
    do {
        if (used == bytes.size)
            resize(&bytes, 2 * used + 4096);
        got = fread(bytes.at + used, 1, bytes.size - used, from);
        used += got;
    } while (got != 0);
    if (ferror(from))
        stop("the input cannot be read");
    bytes.size = used;
    return bytes;
}

static void put(const uint8_t *at, size_t size)
{
    if (fwrite(at, 1, size, stdout) != size)
        stop("the output cannot be written");
}

/* The header line: a name may be any bytes, but a line end in it would make other lines of it. */
static void put_name(const uint8_t *name, size_t size)
{
    if (size != 0 && (memchr(name, '\n', size) != NULL || memchr(name, '\r', size) != NULL))
        stop("a name with a line end");
    put((const uint8_t *)">", 1);
    put(name, size);
    put((const uint8_t *)"\n", 1);
}

/* The letters of two stores of len characters. */
static void put_letters(struct bytes bases, struct bytes flags, size_t len)
{
    uint8_t line[LINE + 1];
    for (size_t from = 0; from < len; from += LINE) {
        size_t n = len - from < LINE ? len - from : LINE;
        uint64_t marks;
        must(tsiv_bases_unpack(bases.at, bases.size, from, n, line, sizeof line));
        must(tsiv_flags_as_u64(flags.at, flags.size, from, n, &marks));
        for (size_t i = 0; i < n; i++)
            if (marks >> i & 1)
                line[i] = 'N';
        line[n] = '\n';
        put(line, n + 1);
    }
}

int main(void)
{
    struct bytes file = all_of(stdin), bases = {NULL, 0}, flags = {NULL, 0};
    size_t count, number, at, name, name_size, offset, len, blocks, masks;

    /* The whole file is judged before a byte is written. */
    must(tsiv_twobit_check(file.at, file.size, &count));
    must(tsiv_twobit_first(file.at, file.size, &number, &at));
    while (number < count) {
        must(tsiv_twobit_entry(file.at, file.size, &number, &at, &name, &name_size, &offset));
        must(tsiv_twobit_record_info(file.at, file.size, offset, &len, &blocks, &masks));
        resize(&bases, TSIV_BASES_ROOM(len));
        resize(&flags, TSIV_FLAGS_ROOM(len));
        must(tsiv_twobit_record(file.at, file.size, offset, bases.at, bases.size, flags.at, flags.size, &len, &masks));
        put_name(file.at + name, name_size);
        put_letters(bases, flags, len);
    }
    if (fflush(stdout) != 0)
        stop("the output cannot be written");
    free(file.at), free(bases.at), free(flags.at);
    return 0;
}
