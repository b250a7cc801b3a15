/*
 * Asks the archive the cases of tests/counts.py, on standard input, and prints its answers: a line for each, its numbers, the whole buffer
 * and all entries.
 *
 *     store LEN BYTES ENTRIES    what the calls behind it are asked of; entries are two bytes each, the low one first
 *     clear; ascii LETTERS; seq BYTES OFFSET LEN; over START LETTERS; cut M; count START END
 */
#include "cases.h"
#include <tsivelaro.h>

static struct bytes buffer, entries;
static size_t len, few;

/* The entries' own alignment, and the machine's order of bytes. */
static uint16_t entry[64];

static void asked_store(void)
{
    free(buffer.at), free(entries.at);
    len = number(), buffer = bytes(), entries = bytes();
    few = entries.size / 2;
    if (few > 64)
        stop("too many entries");
    for (size_t i = 0; i < few; i++)
        entry[i] = (uint16_t)(entries.at[2 * i] | entries.at[2 * i + 1] << 8);
}

static void answer(uint32_t no, uint64_t a, uint64_t b)
{
    printf("%u %" PRIu64 " %" PRIu64 " %zu", no, a, b, len);
    for (size_t i = 0; i < few; i++)
        entries.at[2 * i] = (uint8_t)entry[i], entries.at[2 * i + 1] = (uint8_t)(entry[i] >> 8);
    print(buffer), print(entries);
    putchar('\n');
}

#define STORE buffer.at, buffer.size, &len, entry, few

int main(void)
{
    char what[8];
    while (scanf("%7s", what) == 1) {
        struct bytes given = {NULL, 0};
        size_t start = 7, end = 7;
        uint64_t total = 7;
        uint32_t no;
        if (!strcmp(what, "store")) {
            asked_store();
            answer(0, 0, 0);
        } else if (!strcmp(what, "clear")) {
            no = tsiv_flags_clear_counted(STORE);
            answer(no, 0, 0);
        } else if (!strcmp(what, "ascii")) {
            given = bytes();
            no = tsiv_flags_push_ascii_counted(STORE, given.at, given.size, &start, &end);
            answer(no, start, end);
        } else if (!strcmp(what, "seq")) {
            given = bytes();
            size_t offset = number(), count = number();
            no = tsiv_flags_push_seq_counted(STORE, given.at, given.size, offset, count, &start, &end);
            answer(no, start, end);
        } else if (!strcmp(what, "over")) {
            size_t at = number();
            given = bytes();
            no = tsiv_flags_overwrite_counted(STORE, at, given.at, given.size);
            answer(no, 0, 0);
        } else if (!strcmp(what, "cut")) {
            no = tsiv_flags_cut_counted(STORE, number());
            answer(no, 0, 0);
        } else if (!strcmp(what, "count")) {
            size_t from = number(), to = number();
            no = tsiv_flags_count(buffer.at, buffer.size, len, entry, few, from, to, &total);
            answer(no, total, 0);
        } else {
            stop("no such case");
        }
        free(given.at);
    }
    return 0;
}
