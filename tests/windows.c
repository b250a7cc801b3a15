/*
 * Asks the archive the cases of tests/windows.py, on standard input, and prints its answers: a line for each.
 *
 *     fill BYTES OFFSET LEN CONTEXT K SKIP ROOM          the number, the steps, the padding, the whole buffer
 *     all BYTES OFFSET LEN CONTEXT K                     the number that ends the steps, how many, their answers
 *     step BYTES OFFSET LEN CONTEXT K STEP COUNT ..      the number, the next step, the answers, the next counts
 *
 * Entries are printed as their bytes, which are all the same in each; those of a buffer are 238 before the call.
 */
#include "cases.h"
#include <tsivelaro.h>

#define VIEW view.at, view.size, offset, len, context, k

int main(void)
{
    char what[8];
    while (scanf("%7s", what) == 1) {
        struct bytes view = bytes(), lent;
        size_t offset = number(), len = number(), context = number(), k = number(), step = 0;
        uint32_t counts[8] = {0}, answers[8], no;
        if (!strcmp(what, "fill")) {
            size_t skip = number(), size = number(), steps = 7, padding = 7;
            lent = room(4 * size, 238);
            no = tsiv_flags_fill_windows(VIEW, skip, (uint32_t *)(void *)lent.at, size, &steps, &padding);
            printf("%u %zu %zu", no, steps, padding);
            print(lent);
        } else if (!strcmp(what, "all")) {
            for (lent = room(0, 0); !(no = tsiv_flags_step_windows(VIEW, counts, &step, answers));) {
                uint8_t *more = realloc(lent.at, lent.size + sizeof answers);
                if (!more)
                    stop("no memory");
                memcpy(more + lent.size, answers, sizeof answers);
                lent.at = more, lent.size += sizeof answers;
            }
            printf("%u %zu", no, lent.size / sizeof answers);
            print(lent);
        } else if (!strcmp(what, "step")) {
            step = number();
            for (size_t l = 0; l < 8; l++)
                counts[l] = (uint32_t)number();
            no = tsiv_flags_step_windows(VIEW, counts, &step, answers);
            lent = room(sizeof answers, 0);
            memcpy(lent.at, answers, sizeof answers);
            printf("%u %zu", no, step);
            print(lent);
            for (size_t l = 0; l < 8; l++)
                printf(" %" PRIu32, counts[l]);
        } else
            stop("no such case");
        putchar('\n');
        free(view.at), free(lent.at);
    }
    return 0;
}
