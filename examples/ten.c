#include <stdio.h>
#include <tsivelaro.h>

int main(void)
{
    uint8_t track[TSIV_BASES_ROOM(32)];
    size_t len, start, end;
    uint64_t word;
    uint32_t no = tsiv_bases_clear(track, sizeof track, &len);
    if (!no)
        no = tsiv_bases_push_ascii(track, sizeof track, &len, (const uint8_t *)"GATTACA", 7, &start, &end);
    if (!no)
        no = tsiv_bases_revcomp_as_u64(track, sizeof track, 0, len, &word);
    if (!no)
        printf("%zu bases; the reverse complement's word is %llu\n", len, (unsigned long long)word);
    return (int)no;
}
