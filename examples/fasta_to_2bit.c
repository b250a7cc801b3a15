/* FASTA on standard input, a .2bit file on standard output: each sequence is packed into two stores, and added to a file in memory. */
#include <stdio.h>
#include <stdlib.h>
#include <string.h>
#include <tsivelaro.h>

static void stop(const char *why)
{
    fprintf(stderr, "fasta_to_2bit: %s\n", why);
    exit(1);
}

/* Every refusal is a mistake in the input: it ends the run with its name. */
static void must(uint32_t number)
{
    if (number != TSIV_DONE)
        stop(tsiv_refusal_name(number));
}

struct bytes {
    uint8_t *at;
    size_t size;
};

static void resize(struct bytes *bytes, size_t size)
{
    uint8_t *at = realloc(bytes->at, size ? size : 1);
    if (at == NULL)
        stop("no memory");
    bytes->at = at;
    bytes->size = size;
}

static struct bytes all_of(FILE *from)
{
    struct bytes bytes = {NULL, 0};
    size_t used = 0, got;
    do {
        if (used == bytes.size)
            resize(&bytes, 2 * used + 4096);
        got = fread(bytes.at + used, 1, bytes.size - used, from);
        used += got;
    } while (got != 0);
    if (ferror(from))
        stop("the input cannot be read");
    bytes.size = used;
    return bytes;
}

/* Takes the first line, without its end, off a text that is not empty. */
static struct bytes take_line(struct bytes *text)
{
    const uint8_t *end = memchr(text->at, '\n', text->size);
    size_t size = end != NULL ? (size_t)(end - text->at) : text->size, whole = end != NULL ? size + 1 : size;
    struct bytes line = {text->at, size};
    if (size != 0 && line.at[size - 1] == '\r')
        line.size--;
    text->at += whole;
    text->size -= whole;
    return line;
}

/* Takes the first sequence off a text: its name is the header's first word, its body the lines up to the next header. */
static bool take_sequence(struct bytes *text, struct bytes *name, struct bytes *body)
{
    struct bytes line = {NULL, 0};
    while (line.size == 0) {
        if (text->size == 0)
            return false;
        line = take_line(text);
    }
    if (line.at[0] != '>')
        stop("a sequence without a header");
    name->at = line.at + 1;
    name->size = 0;
    while (name->size < line.size - 1 && name->at[name->size] != ' ' && name->at[name->size] != '\t')
        name->size++;
    body->at = text->at;
    while (text->size != 0 && text->at[0] != '>')
        take_line(text);
    body->size = (size_t)(text->at - body->at);
    return true;
}

/* Fills two stores with the letters of a body; gives how many they are. */
static size_t pack(struct bytes body, struct bytes bases, struct bytes flags)
{
    size_t len, marks, from, to;
    must(tsiv_bases_clear(bases.at, bases.size, &len));
    must(tsiv_flags_clear(flags.at, flags.size, &marks));
    while (body.size != 0) {
        struct bytes line = take_line(&body);
        must(tsiv_bases_push_ascii(bases.at, bases.size, &len, line.at, line.size, &from, &to));
        must(tsiv_flags_push_ascii(flags.at, flags.size, &marks, line.at, line.size, &from, &to));
    }
    return len;
}

int main(void)
{
    struct bytes text = all_of(stdin), rest = text, name, body, bases = {NULL, 0}, flags = {NULL, 0}, out = {NULL, 0};
    size_t count = 0, names = 0, longest = 0, entry, end, place, left, size;

    /* The index stands before the records, so that the names come first. */
    for (; take_sequence(&rest, &name, &body); count++) {
        names += name.size;
        if (longest < body.size)
            longest = body.size;
    }
    resize(&out, TSIV_TWOBIT_INDEX_ROOM(count, names));
    must(tsiv_twobit_start(count, names, out.at, out.size, &entry, &end, &place, &left));

    /* The buffer grows by each record: between the calls it may move. */
    resize(&bases, TSIV_BASES_ROOM(longest));
    resize(&flags, TSIV_FLAGS_ROOM(longest));
    rest = text;
    while (take_sequence(&rest, &name, &body)) {
        size_t len = pack(body, bases, flags);
        must(tsiv_twobit_record_size(flags.at, flags.size, 0, len, &size));
        resize(&out, place + size);
        must(tsiv_twobit_add(&entry, end, &place, &left, name.at, name.size, bases.at, bases.size, 0, len, flags.at,
                             flags.size, 0, len, out.at, out.size));
    }
    must(tsiv_twobit_finish(entry, end, place, left, &size));
    if (fwrite(out.at, 1, size, stdout) != size || fflush(stdout) != 0)
        stop("the output cannot be written");
    free(text.at), free(bases.at), free(flags.at), free(out.at);
    return 0;
}
