/* Pack a read, look at its reverse complement, compare the two, glue them, store the tracks, read them back, count a stretch's flags. */
#include <stdio.h>
#include <stdlib.h>
#include <string.h>
#include <tsivelaro.h>

/* Every refusal is a mistake here: it ends the run with its name. */
static void must(uint32_t number)
{
    if (number != TSIV_DONE) {
        fprintf(stderr, "refused: %s\n", tsiv_refusal_name(number));
        exit(1);
    }
}

int main(void)
{
    static const uint8_t read[] = "ACGTN";
    const size_t n = sizeof read - 1;
    uint8_t bases[TSIV_BASES_ROOM(64)], flags[TSIV_FLAGS_ROOM(64)], reverse[TSIV_BASES_ROOM(64)];
    uint8_t letters[64], form[TSIV_FORM_ROOM(64)];
    uint16_t entries[TSIV_COUNTS_ROOM(64)];
    uint64_t total;
    size_t len, marks, start, end, size, same, again;
    int32_t order;

    /* Two tracks of one read: its bases, and which of its letters are ambiguous. */
    must(tsiv_bases_clear(bases, sizeof bases, &len));
    must(tsiv_flags_clear(flags, sizeof flags, &marks));
    must(tsiv_bases_push_ascii(bases, sizeof bases, &len, read, n, &start, &end));
    must(tsiv_flags_push_ascii(flags, sizeof flags, &marks, read, n, &start, &end));
    printf("packed %zu bases and %zu flags\n", len, marks);

    must(tsiv_bases_to_revcomp(bases, sizeof bases, 0, len, reverse, sizeof reverse));
    must(tsiv_bases_unpack(reverse, sizeof reverse, 0, len, letters, sizeof letters));
    printf("reverse complement %.*s\n", (int)len, (const char *)letters);

    must(tsiv_bases_compare(bases, sizeof bases, 0, len, reverse, sizeof reverse, 0, len, &order, &same));
    printf("order %d, %zu in common\n", order, same);

    /* A stored form holds both tracks. */
    must(tsiv_form_write(bases, sizeof bases, 0, len, flags, sizeof flags, 0, marks, form, sizeof form, &size));
    printf("stored");
    for (size_t i = 0; i < size; i++)
        printf(" %02X", form[i]);
    printf("\n");

    /* A view that is pushed starts in a byte of its own. */
    must(tsiv_bases_push_seq(bases, sizeof bases, &len, reverse, sizeof reverse, 0, n, &start, &end));
    printf("glued from %zu to %zu\n", start, end);

    must(tsiv_form_read(form, size, bases, sizeof bases, flags, sizeof flags, &again));
    must(tsiv_bases_unpack(bases, sizeof bases, 0, again, letters, sizeof letters));
    printf("read back %zu: %.*s\n", again, (int)again, (const char *)letters);

    /* Counts beside a track of flags tell how many a stretch has; every call on the store carries them. */
    must(tsiv_flags_clear_counted(flags, sizeof flags, &marks, entries, 1));
    must(tsiv_flags_push_ascii_counted(flags, sizeof flags, &marks, entries, 1, (const uint8_t *)"ACNNGTN", 7, &start,
                                       &end));
    must(tsiv_flags_count(flags, sizeof flags, marks, entries, 1, 1, 4, &total));
    printf("ambiguous %u in all, %llu from 1 to 4\n", entries[0], (unsigned long long)total);

    /* What is refused changes nothing. */
    len = again;
    uint32_t number = tsiv_bases_cut(bases, sizeof bases, &len, 6);
    printf("refused %u %s, length %zu\n", number, tsiv_refusal_name(number), len);
    return 0;
}
