/* instructions JOB SIZE CALLS: so many calls of one kind, each of so many letters or bases, for an emulator that counts instructions. */
#include <stdlib.h>
#include <string.h>
#include <tsivelaro.h>

enum { LETTERS = 20000 };
static uint8_t text[LETTERS], track[LETTERS], store[20 * LETTERS], out[2 * LETTERS];
static uint32_t lanes[20 * LETTERS];

int main(int count, char **words)
{
    if (count != 4)
        return 2;
    static const char *const jobs[] = {"bases", "flags", "seq", "overwrite", "unpack", "revcomp", "find", "fill"};
    int kind = 0;
    while (kind < 8 && strcmp(words[1], jobs[kind]))
        kind++;
    size_t size = strtoul(words[2], 0, 10), calls = strtoul(words[3], 0, 10);
    uint64_t state = 1;
    for (size_t i = 0; i < LETTERS; i++) {
        state = state * 6364136223846793005u + 1442695040888963407u;
        text[i] = (uint8_t) "ACGT"[state >> 33 & 3];
    }
    size_t all, len, start, end;
    bool there;
    uint32_t no = tsiv_bases_clear(track, sizeof track, &all);
    no |= tsiv_bases_push_ascii(track, sizeof track, &all, text, LETTERS, &start, &end);
    no |= tsiv_bases_clear(store, sizeof store, &len);
    size_t used = TSIV_BASES_ROOM(LETTERS);
    for (size_t i = 0; i < calls; i++)
        switch (kind) {
        case 0: no |= tsiv_bases_push_ascii(store, sizeof store, &len, text + i * 7 % 1000, size, &start, &end); break;
        case 1: no |= tsiv_flags_push_ascii(store, sizeof store, &len, text + i * 7 % 1000, size, &start, &end); break;
        case 2:
            no |=
                tsiv_bases_push_seq(store, sizeof store, &len, track, used, (size + 1) * i % 8000, size, &start, &end);
            break;
        case 3: no |= tsiv_bases_overwrite(track, sizeof track, &all, 1 + size * i % 8000, text + i % 100, size); break;
        case 4: no |= tsiv_bases_unpack(track, used, i % 40, size, out, sizeof out); break;
        case 5: no |= tsiv_bases_to_revcomp(track, used, i % 40, size, out, sizeof out); break;
        case 6: no |= tsiv_bases_find(track, used, 0, size, track, used, LETTERS - 100, 16, &there, &start); break;
        case 7:
            no |= tsiv_bases_fill(track, used, 0, size, 1, 1, lanes, sizeof lanes / sizeof *lanes, &start, &end);
            break;
        default: return 2;
        }
    return (int)no;
}
