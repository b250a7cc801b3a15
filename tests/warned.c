/* Right calls, of which no compiler warns; tests/run-header makes one at a time wrong, and a compiler that can must warn. */
#include <stdlib.h>
#include <tsivelaro.h>

uint32_t lanes(const uint8_t *bytes, size_t size);
uint32_t lanes(const uint8_t *bytes, size_t size)
{
    uint32_t out[64], at[8];
    size_t steps, padding;
    uint32_t no = tsiv_bases_fill(bytes, size, 0, 16, 1, 1, out, 64, &steps, &padding);
    no |= tsiv_bases_step(bytes, size, 0, 16, 1, 1, 0, at);
    return no | out[0] | at[0];
}

uint32_t heap(const uint8_t *bytes, size_t size);
uint32_t heap(const uint8_t *bytes, size_t size)
{
    uint32_t *all = (uint32_t *)malloc(64 * sizeof *all), no = 1;
    size_t steps, padding;
    if (all != NULL)
        no = tsiv_flags_fill_windows(bytes, size, 0, 16, 1, 1, 0, all, 64, &steps, &padding);
    free(all);
    return no;
}

uint32_t stores(const uint8_t *letters);
uint32_t stores(const uint8_t *letters)
{
    uint8_t store[TSIV_FLAGS_ROOM(300)];
    uint16_t counts[TSIV_COUNTS_ROOM(300)];
    size_t len, start, end;
    uint64_t total;
    uint32_t no = tsiv_flags_clear_counted(store, sizeof store, &len, NULL, 0);
    no |= tsiv_flags_push_ascii_counted(store, sizeof store, &len, counts, 2, letters, 300, &start, &end);
    no |= tsiv_flags_count(store, sizeof store, len, counts, 2, 0, 300, &total);
    no |= tsiv_flags_cut(store, sizeof store, &len, 7);
    return no;
}

uint32_t file(void);
uint32_t file(void)
{
    static const uint8_t whole[16] = {0x43, 0x27, 0x41, 0x1A};
    size_t count, number, at;
    uint32_t no = tsiv_twobit_check(whole, sizeof whole, &count);
    return no | tsiv_twobit_first(whole, 16, &number, &at);
}
