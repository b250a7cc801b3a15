/* What embedders ask first of the C face: NULL with size 0, room, version, names, zeros beside a refusal, the rules' own examples. */
#include <stdio.h>
#include <stdlib.h>
#include <string.h>
#include <tsivelaro.h>

static unsigned passed, failed;

static void hold(int holds, const char *what, int line)
{
    if (holds) {
        passed++;
    } else {
        failed++;
        printf("face.c:%d: %s\n", line, what);
    }
}
#define HOLD(x) hold((x) != 0, #x, __LINE__)

static void versions_and_names(void)
{
    HOLD(tsiv_version() == TSIV_VERSION);
    HOLD(TSIV_VERSION == 0x00040000);
#if TSIV_VERSION < 0x00040000 || TSIV_VERSION >= 0x00050000
#error "the version does not serve in #if"
#endif
    static const char *names[] = {"DONE",       "TOO_LONG", "BAD_STORE",  "BAD_VIEW", "BAD_RANGE", "BAD_WORD",
                                  "BAD_LETTER", "BAD_FORM", "BAD_STREAM", "NO_ROOM",  "PARTIAL"};
    for (uint32_t i = 0; i < 11; i++)
        HOLD(strcmp(tsiv_refusal_name(i), names[i]) == 0);
    HOLD(TSIV_PARTIAL == 10 && strcmp(tsiv_refusal_name(11), "?") == 0);
}

static void rooms(void)
{
    static const size_t edges[] = {0,       1,       2,         3,         4,         5,        7,
                                   8,       9,       127,       128,       129,       16383,    16384,
                                   2097151, 2097152, 268435455, 268435456, 536870911, 536870912};
    int right = 1;
    for (size_t i = 0; i < sizeof edges / sizeof *edges; i++) {
        size_t n = edges[i];
        right &= tsiv_bases_room(n) == TSIV_BASES_ROOM(n) && tsiv_flags_room(n) == TSIV_FLAGS_ROOM(n);
        right &= tsiv_form_room(n) == TSIV_FORM_ROOM(n) && tsiv_lanes_room(n) == TSIV_LANES_ROOM(n);
        right &= tsiv_bases_room(n) == (n + 3) / 4 + 48 && tsiv_flags_room(n) == (n + 7) / 8 + 48;
        right &= tsiv_counts_room(n) == TSIV_COUNTS_ROOM(n) && tsiv_counts_room(n) == (n + 255) / 256;
    }
    HOLD(right);
    HOLD(tsiv_bases_room(SIZE_MAX) == SIZE_MAX / 4 + 1 + 48);
    HOLD(tsiv_counts_room(256) == 1 && tsiv_counts_room(257) == 2 && tsiv_counts_room(SIZE_MAX) == SIZE_MAX / 256 + 1);
    for (size_t n = SIZE_MAX / 8 - 1; n < SIZE_MAX / 8 + 3; n++)
        HOLD(tsiv_lanes_room(n) == TSIV_LANES_ROOM(n));
    HOLD(tsiv_lanes_room(SIZE_MAX) == SIZE_MAX && TSIV_LANES_ROOM(SIZE_MAX) == SIZE_MAX);
    HOLD(TSIV_TWOBIT_INDEX_ROOM(0, 0) == 16 && TSIV_TWOBIT_INDEX_ROOM(3, 7) == 38);
    HOLD(TSIV_TWOBIT_INDEX_ROOM(0xFFFFFFFFu, 1u) == (size_t)0xFFFFFFFF * 5 + 17);
}

/* The examples of the rules, each side of the line. */
static void worked(void)
{
    uint64_t word, low, high;
    uint8_t code;
    bool flag;
    size_t a, b, c, d, len;
    int32_t order;
    uint8_t bytes[64] = {0};
    HOLD(tsiv_pack_kmer_lossy((const uint8_t *)"ACTG", 4, &word) == 0 && word == 228);
    HOLD(tsiv_pack_kmer_lossy((const uint8_t *)"ACGT", 4, &word) == 0 && word == 180);
    HOLD(tsiv_revcomp_u64(4, 2, &word) == 0 && word == 11);
    word = 7;
    HOLD(tsiv_revcomp_u64(4, 0, &word) == TSIV_BAD_WORD && word == 0);
    word = 7;
    HOLD(tsiv_revcomp_u64(4, 33, &word) == TSIV_BAD_WORD && word == 0);
    HOLD(tsiv_rev_u64(1, 3, &word) == 0 && word == 4);
    low = high = 7;
    HOLD(tsiv_rev_u128(1, 0, 129, &low, &high) == TSIV_BAD_WORD && low == 0 && high == 0);
    HOLD(tsiv_rev_u128(1, 0, 128, &low, &high) == 0 && low == 0 && high == (uint64_t)1 << 63);
    HOLD(tsiv_pack_char_lossy('N') == 3 && tsiv_char_is_ambiguous('N') == 1 && tsiv_char_is_ambiguous('t') == 0);
    code = 7;
    HOLD(tsiv_pack_char('N', &code) == TSIV_BAD_LETTER && code == 0);
    HOLD(tsiv_complement_char('A', &code) == 0 && code == 'T');
    HOLD(tsiv_bases_view(bytes, 49, 1, 3, &a, &b, &c, &d) == 0 && a == 0 && b == 49 && c == 1 && d == 3);
    a = b = c = d = 7;
    HOLD(tsiv_bases_view(bytes, 49, 2, 3, &a, &b, &c, &d) == TSIV_BAD_VIEW && a + b + c + d == 0);
    HOLD(tsiv_bases_normalise(bytes, 60, 9, 3, &a, &b, &c, &d) == 0 && a == 2 && b == 49 && c == 1 && d == 3);
    /* AC against ACT: bytes 4 and 36 */
    uint8_t ac[49] = {4}, act[49] = {36};
    HOLD(tsiv_bases_compare(ac, 49, 0, 2, act, 49, 0, 3, &order, &a) == 0 && order == -1 && a == 2);
    HOLD(tsiv_bases_compare(act, 49, 0, 3, ac, 49, 0, 2, &order, &a) == 0 && order == 1 && a == 2);
    HOLD(tsiv_bases_compare(ac, 49, 0, 2, act, 49, 0, 2, &order, &a) == 0 && order == 0 && a == 2);
    /* the T of ACT against G, byte 3; empty against empty */
    uint8_t g[49] = {3};
    HOLD(tsiv_bases_compare(act, 49, 2, 1, g, 49, 0, 1, &order, &a) == 0 && order == -1 && a == 0);
    HOLD(tsiv_bases_compare(ac, 49, 1, 0, act, 49, 4, 0, &order, &a) == 0 && order == 0 && a == 0);
    HOLD(tsiv_flags_compare(ac, 49, 0, 8, act, 49, 0, 8, &order, &a) == 0 && order == -1 && a == 5);
    order = 7, a = 7;
    HOLD(tsiv_bases_compare(ac, 49, 0, 4, act, 49, 0, 5, &order, &a) == TSIV_BAD_VIEW && order == 0 && a == 0);
    HOLD(tsiv_bases_least(act, 49, 0, 3, ac, 49, 0, 2, &flag, &a, &b, &c, &d) == 0 && flag && d == 2);
    HOLD(tsiv_bases_find(act, 49, 0, 3, ac, 49, 1, 1, &flag, &a) == 0 && flag && a == 1);
    /* length 3, a view at in-byte offset 1 of length 2: 5 to 7 at width 2, 9 to 11 at width 1 */
    len = 3;
    HOLD(tsiv_bases_push_seq(bytes, 64, &len, ac, 49, 1, 2, &a, &b) == 0 && a == 5 && b == 7 && len == 7);
    memset(bytes, 0, sizeof bytes);
    len = 3;
    HOLD(tsiv_flags_push_seq(bytes, 64, &len, ac, 49, 1, 2, &a, &b) == 0 && a == 9 && b == 11 && len == 11);
    len = 3;
    HOLD(tsiv_bases_cut(bytes, 64, &len, 4) == TSIV_BAD_RANGE && len == 3);
    len = 99;
    HOLD(tsiv_bases_clear(bytes, 47, &len) == TSIV_NO_ROOM && len == 0);
    HOLD(tsiv_bases_shape(10, 3, 1, &a, &b, &c) == 0 && a == 4 && b == 6 && c == 24);
    HOLD(tsiv_flags_shape(10, 3, 1, &a, &b, &c) == 0 && a == 8 && b == 10 && c == 56);
    a = b = c = 7;
    HOLD(tsiv_bases_shape(10, 0, 1, &a, &b, &c) == TSIV_BAD_STREAM && a + b + c == 0);
}

/* U and u count as T, at each place of a byte. T is what is unpacked, and U has no complement. */
static void rna(void)
{
    uint8_t code, track[64], letters[5];
    size_t a, b, len;
    uint32_t lanes[8 * 12];
    HOLD(tsiv_char_is_ambiguous('U') == 0 && tsiv_char_is_ambiguous('u') == 0);
    HOLD(tsiv_pack_char('U', &code) == 0 && code == 2);
    HOLD(tsiv_pack_char('u', &code) == 0 && code == 2);
    HOLD(tsiv_pack_char_lossy('U') == 2 && tsiv_pack_char_lossy('u') == 2);
    code = 7;
    HOLD(tsiv_complement_char('U', &code) == TSIV_BAD_LETTER && code == 0);
    code = 7;
    HOLD(tsiv_complement_char('u', &code) == TSIV_BAD_LETTER && code == 0);
#define AS_T(W, U, T)                                                                                                  \
    do {                                                                                                               \
        int alike = 1;                                                                                                 \
        for (size_t i = 0; i < 4 * 16; i++) {                                                                          \
            uint8_t of_u[64], of_t[64], text_u[16], text_t[16];                                                        \
            size_t place = i % 16, from = i / 16 % 2 ? place : 0, n = i / 16 % 2 ? 1 : 16, len_u = 16, len_t = 16;     \
            memset(text_u, i < 32 ? 'N' : 'A', 16);                                                                    \
            memcpy(text_t, text_u, 16);                                                                                \
            text_u[place] = U, text_t[place] = T;                                                                      \
            memset(of_u, 0xEE, 64), memset(of_t, 0xEE, 64);                                                            \
            alike &= tsiv_##W##_overwrite(of_u, 64, &len_u, from, text_u + from, n) == 0;                              \
            alike &= tsiv_##W##_overwrite(of_t, 64, &len_t, from, text_t + from, n) == 0;                              \
            alike &= memcmp(of_u, of_t, 64) == 0;                                                                      \
            len_u = len_t = from;                                                                                      \
            alike &= tsiv_##W##_push_ascii(of_u, 64, &len_u, text_u + from, n, &a, &b) == 0;                           \
            alike &= tsiv_##W##_push_ascii(of_t, 64, &len_t, text_t + from, n, &a, &b) == 0;                           \
            alike &= memcmp(of_u, of_t, 64) == 0;                                                                      \
        }                                                                                                              \
        HOLD(alike);                                                                                                   \
    } while (0)
    AS_T(bases, 'U', 'T');
    AS_T(bases, 'u', 't');
    AS_T(flags, 'U', 'T');
    AS_T(flags, 'u', 't');
    HOLD(tsiv_bases_clear(track, 64, &len) == 0);
    HOLD(tsiv_bases_push_ascii(track, 64, &len, (const uint8_t *)"ACGUu", 5, &a, &b) == 0 && len == 5);
    HOLD(tsiv_bases_unpack(track, 64, 0, len, letters, 5) == 0 && memcmp(letters, "ACGTT", 5) == 0);
    /* windows of two flags: only those with the N are set */
    HOLD(tsiv_flags_clear(track, 64, &len) == 0);
    HOLD(tsiv_flags_push_ascii(track, 64, &len, (const uint8_t *)"UuNUu", 5, &a, &b) == 0 && track[0] == 4);
    HOLD(tsiv_flags_fill_windows(track, 64, 0, len, 2, 2, 1, lanes, 8 * 12, &a, &b) == 0 && a == 8);
    HOLD(lanes[0] == 0 && lanes[8] == UINT32_MAX && lanes[16] == UINT32_MAX && lanes[24] == 0 && lanes[32] == 0);
}

/* A buffer of size 0 may be NULL, in every call that takes one. */
static void nulls(void)
{
    uint64_t word, low, high;
    uint8_t code, one[1] = {5}, bytes[64] = {0};
    bool flag;
    size_t a, b, c, d, len;
    int32_t order;
    uint32_t lanes[8], lanes1[8], lanes2[8], counts[8] = {0};
    HOLD(tsiv_pack_kmer_lossy(NULL, 0, &word) == 0 && word == 0);
    HOLD(tsiv_pack_kmer_u128_lossy(NULL, 0, &low, &high) == 0 && low == 0 && high == 0);
    HOLD(tsiv_unpack_kmer(1, 0, NULL, 0) == 0 && tsiv_unpack_kmer(1, 1, NULL, 0) == TSIV_NO_ROOM);
    HOLD(tsiv_unpack_kmer_u128(1, 1, 0, NULL, 0) == 0 && tsiv_unpack_kmer_u128(1, 1, 1, NULL, 0) == TSIV_NO_ROOM);
#define ONE_VIEW(W)                                                                                                    \
    HOLD(tsiv_##W##_get(NULL, 0, 0, 0, 0, &code) == TSIV_BAD_VIEW);                                                    \
    HOLD(tsiv_##W##_get_sliced(NULL, 0, 0, 0, 0, 0, 0, &code) == TSIV_BAD_VIEW);                                       \
    HOLD(tsiv_##W##_view(NULL, 0, 0, 0, &a, &b, &c, &d) == TSIV_BAD_VIEW);                                             \
    HOLD(tsiv_##W##_slice(NULL, 0, 0, 0, 0, 0, &a, &b, &c, &d) == TSIV_BAD_VIEW);                                      \
    HOLD(tsiv_##W##_normalise(NULL, 0, 0, 0, &a, &b, &c, &d) == TSIV_BAD_VIEW);                                        \
    HOLD(tsiv_##W##_as_u64(NULL, 0, 0, 0, &word) == TSIV_BAD_VIEW);                                                    \
    HOLD(tsiv_##W##_as_u128(NULL, 0, 0, 0, &low, &high) == TSIV_BAD_VIEW);                                             \
    HOLD(tsiv_##W##_revcomp_as_u64(NULL, 0, 0, 0, &word) == TSIV_BAD_VIEW);                                            \
    HOLD(tsiv_##W##_revcomp_as_u128(NULL, 0, 0, 0, &low, &high) == TSIV_BAD_VIEW);                                     \
    HOLD(tsiv_##W##_to_revcomp(bytes, 64, 0, 0, NULL, 0) == TSIV_NO_ROOM);                                             \
    HOLD(tsiv_##W##_to_revcomp(NULL, 0, 0, 0, NULL, 0) == TSIV_BAD_VIEW);                                              \
    HOLD(tsiv_##W##_compare(NULL, 0, 0, 0, NULL, 0, 0, 0, &order, &a) == TSIV_BAD_VIEW);                               \
    HOLD(tsiv_##W##_compare(bytes, 64, 0, 0, NULL, 0, 0, 0, &order, &a) == TSIV_BAD_VIEW);                             \
    HOLD(tsiv_##W##_compare(NULL, 0, 0, 0, bytes, 64, 0, 0, &order, &a) == TSIV_BAD_VIEW);                             \
    HOLD(tsiv_##W##_find(NULL, 0, 0, 0, NULL, 0, 0, 0, &flag, &a) == TSIV_BAD_VIEW);                                   \
    HOLD(tsiv_##W##_least(NULL, 0, 0, 0, NULL, 0, 0, 0, &flag, &a, &b, &c, &d) == TSIV_BAD_VIEW);                      \
    HOLD(tsiv_##W##_clear(NULL, 0, &len) == TSIV_NO_ROOM);                                                             \
    len = 0;                                                                                                           \
    HOLD(tsiv_##W##_push_ascii(NULL, 0, &len, NULL, 0, &a, &b) == TSIV_BAD_STORE);                                     \
    HOLD(tsiv_##W##_push_ascii(bytes, 64, &len, NULL, 0, &a, &b) == 0 && a == 0 && b == 0);                            \
    HOLD(tsiv_##W##_push_seq(bytes, 64, &len, NULL, 0, 0, 0, &a, &b) == TSIV_BAD_VIEW);                                \
    HOLD(tsiv_##W##_overwrite(bytes, 64, &len, 0, NULL, 0) == 0);                                                      \
    HOLD(tsiv_##W##_cut(NULL, 0, &len, 0) == TSIV_BAD_STORE);                                                          \
    HOLD(tsiv_##W##_fill(bytes, 64, 0, 0, 1, 1, NULL, 0, &a, &b) == 0 && a == 0);                                      \
    HOLD(tsiv_##W##_fill(NULL, 0, 0, 0, 1, 1, NULL, 0, &a, &b) == TSIV_BAD_VIEW);                                      \
    HOLD(tsiv_##W##_fill_delayed(bytes, 64, 0, 0, 1, 1, 0, NULL, 0, NULL, 0, &a, &b) == 0);                            \
    HOLD(tsiv_##W##_fill_delayed_2(bytes, 64, 0, 0, 1, 1, 0, 0, NULL, 0, NULL, 0, NULL, 0, &a, &b) == 0);              \
    HOLD(tsiv_##W##_step(NULL, 0, 0, 0, 1, 1, 0, lanes) == TSIV_BAD_VIEW && lanes[0] == 0);                            \
    HOLD(tsiv_##W##_step_delayed(NULL, 0, 0, 0, 1, 1, 0, 0, lanes, lanes1) == TSIV_BAD_VIEW);                          \
    HOLD(tsiv_##W##_step_delayed_2(NULL, 0, 0, 0, 1, 1, 0, 0, 0, lanes, lanes1, lanes2) == TSIV_BAD_VIEW)
    ONE_VIEW(bases);
    ONE_VIEW(flags);
    HOLD(tsiv_bases_unpack(bytes, 64, 0, 0, NULL, 0) == 0 && tsiv_bases_unpack(NULL, 0, 0, 0, one, 1) == TSIV_BAD_VIEW);
    HOLD(tsiv_flags_fill_windows(bytes, 64, 0, 0, 1, 1, 0, NULL, 0, &a, &b) == 0 && a == 0);
    a = 0;
    HOLD(tsiv_flags_step_windows(NULL, 0, 0, 0, 1, 1, counts, &a, lanes) == TSIV_BAD_VIEW && a == 0);
    len = 0;
    HOLD(tsiv_flags_clear_counted(NULL, 0, &len, NULL, 0) == TSIV_NO_ROOM);
    HOLD(tsiv_flags_clear_counted(bytes, 64, &len, NULL, 0) == 0 && len == 0);
    HOLD(tsiv_flags_push_ascii_counted(bytes, 64, &len, NULL, 0, NULL, 0, &a, &b) == 0 && a + b == 0);
    HOLD(tsiv_flags_push_seq_counted(bytes, 64, &len, NULL, 0, NULL, 0, 0, 0, &a, &b) == TSIV_BAD_VIEW);
    HOLD(tsiv_flags_overwrite_counted(bytes, 64, &len, NULL, 0, 0, NULL, 0) == 0);
    HOLD(tsiv_flags_cut_counted(NULL, 0, &len, NULL, 0, 0) == TSIV_BAD_STORE);
    HOLD(tsiv_flags_count(bytes, 64, 0, NULL, 0, 0, 0, &word) == 0 && word == 0);
    HOLD(tsiv_flags_count(NULL, 0, 0, NULL, 0, 0, 0, &word) == TSIV_BAD_STORE);
    HOLD(tsiv_form_write(bytes, 64, 0, 0, bytes, 64, 0, 0, NULL, 0, &a) == TSIV_NO_ROOM);
    HOLD(tsiv_form_read(NULL, 0, NULL, 0, NULL, 0, &len) == TSIV_BAD_FORM && len == 0);
    HOLD(one[0] == 5);
    a = b = c = d = 7;
    HOLD(tsiv_twobit_start(0, 0, NULL, 0, &a, &b, &c, &d) == TSIV_NO_ROOM && (a | b | c | d) == 0);
    HOLD(tsiv_twobit_record_size(NULL, 0, 0, 0, &a) == TSIV_BAD_VIEW && a == 0);
    a = 16, c = 21, d = 1;
    HOLD(tsiv_twobit_add(&a, 21, &c, &d, NULL, 0, NULL, 0, 0, 0, bytes, 64, 0, 0, NULL, 0) == TSIV_BAD_VIEW);
    HOLD(tsiv_twobit_add(&a, 21, &c, &d, NULL, 0, bytes, 64, 0, 0, NULL, 0, 0, 0, NULL, 0) == TSIV_BAD_VIEW);
    HOLD(tsiv_twobit_add(&a, 21, &c, &d, NULL, 0, bytes, 64, 0, 0, bytes, 64, 0, 0, NULL, 0) == TSIV_NO_ROOM);
    HOLD(a == 16 && c == 21 && d == 1);
    HOLD(tsiv_twobit_check(NULL, 0, &a) == TSIV_BAD_FORM && a == 0);
    HOLD(tsiv_twobit_first(NULL, 0, &a, &b) == TSIV_BAD_FORM && (a | b) == 0);
    HOLD(tsiv_twobit_entry(NULL, 0, &a, &b, &c, &d, &len) == TSIV_BAD_FORM && (a | b | c | d | len) == 0);
    HOLD(tsiv_twobit_record_info(NULL, 0, 0, &a, &b, &c) == TSIV_BAD_FORM && (a | b | c) == 0);
    HOLD(tsiv_twobit_record(NULL, 0, 0, NULL, 0, NULL, 0, &a, &b) == TSIV_BAD_FORM && (a | b) == 0);
}

/* A window of one flag: the flag that enters is the one that leaves, so that a count of 0 is enough; a count above k - 1 is refused. */
static void windows(void)
{
    uint8_t bytes[64] = {1};
    uint32_t counts[8] = {0}, answers[8];
    size_t step = 0;
    HOLD(tsiv_flags_step_windows(bytes, 64, 0, 8, 1, 1, counts, &step, answers) == 0 && step == 1);
    HOLD(answers[0] == 0xFFFFFFFF && answers[1] == 0 && counts[0] == 0);
    counts[3] = 1;
    HOLD(tsiv_flags_step_windows(bytes, 64, 0, 8, 1, 1, counts, &step, answers) == TSIV_BAD_STREAM);
    HOLD(step == 0 && counts[3] == 0 && answers[0] == 0);
}

/* A skip below k - 1 and a context below k are refused: after BAD_STREAM, before NO_ROOM, and only where there are steps. */
static void partial(void)
{
    uint8_t bytes[64] = {0x80, 0x01};
    uint32_t out[72], counts[8] = {0}, answers[8];
    size_t steps = 7, padding = 7, step = 0;
    memset(out, 0x5A, sizeof out);
#define FILL(len, context, k, skip, room)                                                                              \
    tsiv_flags_fill_windows(bytes, 64, 0, len, context, k, skip, out, room, &steps, &padding)
    /* length 16, context 2: lanes of 8 flags, so 9 steps */
    HOLD(FILL(16, 2, 2, 0, 72) == TSIV_PARTIAL && steps + padding == 0);
    HOLD(FILL(16, 2, 3, 2, 72) == TSIV_PARTIAL && FILL(16, 2, 3, 9, 72) == TSIV_PARTIAL);
    HOLD(FILL(16, 2, 3, 10, 72) == TSIV_BAD_STREAM && FILL(16, 2, 2, 10, 72) == TSIV_BAD_STREAM);
    HOLD(FILL(16, 2, 2, 0, 0) == TSIV_PARTIAL && FILL(16, 2, 2, 1, 63) == TSIV_NO_ROOM);
    HOLD(out[0] == 0x5A5A5A5A && out[71] == out[0]);
    HOLD(FILL(16, 2, 2, 1, 64) == TSIV_DONE && steps == 8 && padding == 49);
    HOLD(out[0] == 0 && out[1] == 0xFFFFFFFF && out[48] == 0xFFFFFFFF && out[56] == 0xFFFFFFFF);
    /* no steps: nothing can be partial */
    HOLD(FILL(1, 2, 96, 0, 0) == TSIV_DONE && steps == 0 && padding == 0);
    HOLD(FILL(1, 2, 96, 1, 0) == TSIV_BAD_STREAM);
#undef FILL
    /* stepping takes them, with a context below k too */
    for (size_t j = 0; j < 8; j++)
        HOLD(tsiv_flags_step_windows(bytes, 64, 0, 16, 1, 3, counts, &step, answers) == TSIV_DONE && step == j + 1);
    HOLD(answers[0] == 0xFFFFFFFF && answers[1] == 0 && counts[0] == 1);
}

/* Entries beside a store of flags: what touches a block counts it, and nothing else mends a wrong entry. */
static void counts(void)
{
    uint8_t store[TSIV_FLAGS_ROOM(600)], letters[300];
    const uint8_t one[TSIV_FLAGS_ROOM(1)] = {1};
    uint16_t entries[4] = {9, 9, 9, 9};
    size_t len = 7, start, end;
    uint64_t total;
    memset(letters, 'N', sizeof letters);
    HOLD(tsiv_flags_clear_counted(store, sizeof store, &len, entries, 4) == 0 && len == 0 && entries[0] == 9);
    HOLD(tsiv_flags_push_ascii_counted(store, sizeof store, &len, entries, 4, letters, 300, &start, &end) == 0);
    HOLD(len == 300 && entries[0] == 256 && entries[1] == 44 && entries[2] == 9);
    /* one more flag, in a byte of its own: four gap flags before it, which are set */
    HOLD(tsiv_flags_push_seq_counted(store, sizeof store, &len, entries, 4, one, sizeof one, 0, 1, &start, &end) == 0);
    HOLD(start == 304 && len == 305 && entries[1] == 49 && entries[0] == 256);
    HOLD(tsiv_flags_count(store, sizeof store, len, entries, 4, 0, 305, &total) == 0 && total == 305);
    HOLD(tsiv_flags_count(store, sizeof store, len, entries, 4, 1, 305, &total) == 0 && total == 304);
    /* a wrong entry: a query goes by it where its block lies in the range whole, and a call that touches another block leaves it */
    entries[0] = 1000, entries[1] = 1000;
    HOLD(tsiv_flags_count(store, sizeof store, len, entries, 4, 0, 305, &total) == 0 && total == 1049);
    HOLD(tsiv_flags_overwrite_counted(store, sizeof store, &len, entries, 4, 256, (const uint8_t *)"A", 1) == 0);
    HOLD(entries[0] == 1000 && entries[1] == 48);
    /* a cut to 256 leaves one block: one entry is enough, and none is counted */
    total = 7;
    HOLD(tsiv_flags_count(store, sizeof store, len, entries, 1, 0, 305, &total) == TSIV_NO_ROOM && total == 0);
    HOLD(tsiv_flags_cut_counted(store, sizeof store, &len, entries, 0, 256) == TSIV_NO_ROOM && len == 305);
    HOLD(tsiv_flags_cut_counted(store, sizeof store, &len, entries, 1, 256) == 0 && len == 256);
    HOLD(entries[0] == 1000 && entries[1] == 48);
    /* a push of nothing is judged, and mends nothing */
    HOLD(tsiv_flags_push_ascii_counted(store, sizeof store, &len, entries, 0, NULL, 0, &start, &end) == TSIV_NO_ROOM);
    HOLD(tsiv_flags_push_ascii_counted(store, sizeof store, &len, entries, 1, NULL, 0, &start, &end) == 0);
    HOLD(entries[0] == 1000 && start == 256 && end == 256);
    total = 7;
    HOLD(tsiv_flags_count(store, sizeof store, len, entries, 4, 5, 4, &total) == TSIV_BAD_RANGE && total == 0);
    HOLD(tsiv_flags_count(store, sizeof store, len, entries, 4, 0, 257, &total) == TSIV_BAD_RANGE);
    HOLD(tsiv_flags_count(store, sizeof store, len, entries, 4, 4, 4, &total) == 0 && total == 0);
    HOLD(tsiv_flags_clear_counted(store, sizeof store, &len, entries, 0) == 0 && len == 0 && entries[0] == 1000);
}

/* A file of two sequences, the first without a name: to the byte, and read back; what is refused changes nothing. */
static void twobit(void)
{
    static const uint8_t whole[] = {0x43, 0x27, 0x41, 0x1A, 0, 0, 0, 0, 2,    0, 0, 0, 0, 0, 0, 0,  /* header */
                                    0,    27,   0,    0,    0,                                      /* "" at 27 */
                                    1,    'b',  53,   0,    0, 0,                                   /* "b" at 53 */
                                    5,    0,    0,    0,    1, 0, 0, 0, 4,    0, 0, 0, 1, 0, 0, 0,  /* ACGTN */
                                    0,    0,    0,    0,    0, 0, 0, 0, 0x9C, 0,                    /* its bases */
                                    0,    0,    0,    0,    0, 0, 0, 0, 0,    0, 0, 0, 0, 0, 0, 0}; /* nothing */
    const uint8_t bases[50] = {0xB4, 3}, flags[49] = {16}, b = 'b';
    uint8_t out[70], x[51], y[50], long_name[256] = {0};
    size_t entry = 7, stop = 7, place = 7, left = 7, size = 7, at, name, name_len, offset, len, blocks, masks;
    memset(out, 0x5A, sizeof out);
    HOLD(sizeof whole == 69);
    HOLD(tsiv_twobit_start(2, 1, out, 26, &entry, &stop, &place, &left) == TSIV_NO_ROOM && entry + stop + left == 0);
    HOLD(tsiv_twobit_start((size_t)1 << 32, 1, out, 70, &entry, &stop, &place, &left) == TSIV_BAD_RANGE);
    HOLD(out[0] == 0x5A);
    HOLD(tsiv_twobit_start(2, 1, out, 70, &entry, &stop, &place, &left) == 0);
    HOLD(entry == 16 && stop == TSIV_TWOBIT_INDEX_ROOM(2, 1) && place == stop && left == 2 && out[16] == 0x5A);
    HOLD(tsiv_twobit_finish(entry, stop, place, left, &size) == TSIV_BAD_RANGE && size == 0);
    HOLD(tsiv_twobit_record_size(flags, 49, 0, 5, &size) == 0 && size == 26);
#define ADD(n, m, name, name_size, room)                                                                               \
    tsiv_twobit_add(&entry, stop, &place, &left, name, name_size, bases, 50, 0, n, flags, 49, 0, m, out, room)
    HOLD(ADD(5, 4, NULL, 0, 70) == TSIV_BAD_RANGE);
    HOLD(ADD(5, 5, long_name, 256, 70) == TSIV_BAD_RANGE);
    HOLD(ADD(5, 9, NULL, 0, 70) == TSIV_BAD_VIEW);
    HOLD(ADD(5, 5, NULL, 0, 52) == TSIV_NO_ROOM);
    HOLD(entry == 16 && place == 27 && left == 2 && out[16] == 0x5A && out[27] == 0x5A);
    HOLD(ADD(5, 5, NULL, 0, 53) == 0 && entry == 21 && place == 53 && left == 1 && out[53] == 0x5A);
    HOLD(ADD(0, 0, &b, 1, 69) == 0 && entry == 27 && place == 69 && left == 0);
    HOLD(ADD(0, 0, NULL, 0, 70) == TSIV_BAD_RANGE && entry == 27 && place == 69);
    HOLD(tsiv_twobit_finish(entry, stop, place, left, &size) == 0 && size == 69);
    /* no state whose index ends within the header is one: what a refused start leaves, and each side of the line */
    HOLD(tsiv_twobit_finish(0, 0, 0, 0, &size) == TSIV_BAD_RANGE && size == 0);
    HOLD(tsiv_twobit_finish(5, 5, 9, 0, &size) == TSIV_BAD_RANGE && size == 0);
    HOLD(tsiv_twobit_finish(15, 15, 16, 0, &size) == TSIV_BAD_RANGE && size == 0);
    HOLD(tsiv_twobit_finish(16, 16, 16, 0, &size) == 0 && size == 16);
    HOLD(memcmp(out, whole, 69) == 0 && out[69] == 0x5A);
    /* reading */
    memset(x, 0x5A, sizeof x), memset(y, 0x5A, sizeof y);
    HOLD(tsiv_twobit_check(whole, 69, &size) == 0 && size == 2);
    HOLD(tsiv_twobit_check(whole, 68, &size) == TSIV_BAD_FORM && size == 0);
    HOLD(tsiv_twobit_first(whole, 16, &size, &at) == 0 && size == 0 && at == 16);
    HOLD(tsiv_twobit_entry(whole, 69, &size, &at, &name, &name_len, &offset) == 0 && size == 1 && at == 21);
    HOLD(name == 17 && name_len == 0 && offset == 27);
    HOLD(tsiv_twobit_record_info(whole, 69, offset, &len, &blocks, &masks) == 0 && len == 5);
    HOLD(blocks == 1 && masks == 0 && TSIV_BASES_ROOM(len) == 50 && TSIV_FLAGS_ROOM(len) == 49);
    HOLD(tsiv_twobit_record(whole, 69, offset, x, 50, y, 48, &len, &masks) == TSIV_NO_ROOM && len + masks == 0);
    HOLD(tsiv_twobit_record(whole, 69, 69, x, 50, y, 49, &len, &masks) == TSIV_BAD_FORM && len + masks == 0);
    len = blocks = masks = 7;
    HOLD(tsiv_twobit_record_info(whole, 69, 69, &len, &blocks, &masks) == TSIV_BAD_FORM && len + blocks + masks == 0);
    HOLD(tsiv_twobit_record_info(whole, 15, offset, &len, &blocks, &masks) == TSIV_BAD_FORM);
    HOLD(tsiv_twobit_record_info(whole, 52, offset, &len, &blocks, &masks) == TSIV_BAD_FORM);
    HOLD(tsiv_twobit_record_info(whole, 53, offset, &len, &blocks, &masks) == 0 && len == 5);
    HOLD(x[0] == 0x5A && y[0] == 0x5A);
    HOLD(tsiv_twobit_record(whole, 69, offset, x, 51, y, 50, &len, &masks) == 0 && len == 5 && masks == 0);
    HOLD(memcmp(x, bases, 50) == 0 && memcmp(y, flags, 49) == 0 && x[50] == 0x5A && y[49] == 0x5A);
    HOLD(tsiv_twobit_entry(whole, 69, &size, &at, &name, &name_len, &offset) == 0 && size == 2 && at == 27);
    HOLD(whole[name] == 'b' && name_len == 1 && offset == 53);
    HOLD(tsiv_twobit_record(whole, 69, offset, x, 51, y, 50, &len, &masks) == 0 && len == 0 && x[0] == 0);
    HOLD(tsiv_twobit_entry(whole, 69, &size, &at, &name, &name_len, &offset) == TSIV_BAD_RANGE);
    HOLD(size + at + name + name_len + offset == 0);
    /* the same record with two N blocks and a mask block, in the other order of bytes; then with blocks that share a place */
    static const uint8_t other[] = {0x1A, 0x41, 0x27, 0x43, 0, 0, 0, 0, 0, 0, 0, 0, 0, 0, 0, 0, /* header */
                                    0,    0,    0,    5,    0, 0, 0, 2, 0, 0, 0, 4, 0, 0, 0, 1, /* N at 4 and 1 .. */
                                    0,    0,    0,    1,    0, 0, 0, 2,                         /* .. 1 and 2 of them */
                                    0,    0,    0,    1,    0, 0, 0, 0, 0, 0, 0, 5,             /* all masked */
                                    0,    0,    0,    0,    0, 0};
    HOLD(tsiv_twobit_record_info(other, sizeof other, 16, &len, &blocks, &masks) == 0 && len == 5);
    HOLD(blocks == 2 && masks == 1);
    memcpy(out, other, sizeof other);
    out[39] = 4;
    HOLD(tsiv_twobit_record_info(out, sizeof other, 16, &len, &blocks, &masks) == TSIV_BAD_FORM);
    HOLD(len + blocks + masks == 0);
    memcpy(out, whole, sizeof whole);
    out[4] = 1;
    HOLD(tsiv_twobit_record_info(out, 69, 27, &len, &blocks, &masks) == TSIV_BAD_FORM);
    HOLD(tsiv_twobit_first(out, 69, &size, &at) == TSIV_BAD_FORM && tsiv_twobit_check(out, 69, &size) == TSIV_BAD_FORM);
}

/* 2^28 bytes are taken, and one more is refused, in every call that has the limit. */
static void too_long(void)
{
    const size_t most = (size_t)1 << 28, more = most + 1;
    uint8_t *big = (uint8_t *)calloc(more, 1), out[64] = {0}, code;
    uint64_t word, low, high;
    bool flag;
    size_t a, b, c, d, len = 0;
    int32_t order;
    uint32_t lanes[8], lanes1[8], lanes2[8], counts[8] = {0};
    HOLD(big != NULL);
    if (big == NULL)
        return;
#define LARGE(W)                                                                                                       \
    HOLD(tsiv_##W##_get(big, most, 0, 1, 0, &code) == 0 && code == 0);                                                 \
    HOLD(tsiv_##W##_get(big, more, 0, 1, 0, &code) == TSIV_TOO_LONG);                                                  \
    HOLD(tsiv_##W##_get_sliced(big, more, 0, 1, 0, 1, 0, &code) == TSIV_TOO_LONG);                                     \
    HOLD(tsiv_##W##_view(big, more, 0, 1, &a, &b, &c, &d) == TSIV_TOO_LONG && b == 0);                                 \
    HOLD(tsiv_##W##_slice(big, more, 0, 1, 0, 1, &a, &b, &c, &d) == TSIV_TOO_LONG);                                    \
    HOLD(tsiv_##W##_normalise(big, more, 0, 1, &a, &b, &c, &d) == TSIV_TOO_LONG);                                      \
    HOLD(tsiv_##W##_as_u64(big, more, 0, 1, &word) == TSIV_TOO_LONG);                                                  \
    HOLD(tsiv_##W##_as_u128(big, more, 0, 1, &low, &high) == TSIV_TOO_LONG);                                           \
    HOLD(tsiv_##W##_revcomp_as_u64(big, more, 0, 1, &word) == TSIV_TOO_LONG);                                          \
    HOLD(tsiv_##W##_revcomp_as_u128(big, more, 0, 1, &low, &high) == TSIV_TOO_LONG);                                   \
    HOLD(tsiv_##W##_to_revcomp(big, more, 0, 1, out, 64) == TSIV_TOO_LONG);                                            \
    HOLD(tsiv_##W##_compare(out, 64, 0, 1, big, more, 0, 1, &order, &a) == TSIV_TOO_LONG);                             \
    HOLD(tsiv_##W##_compare(big, more, 0, 1, out, 64, 0, 1, &order, &a) == TSIV_TOO_LONG);                             \
    HOLD(tsiv_##W##_find(big, more, 0, 1, out, 64, 0, 1, &flag, &a) == TSIV_TOO_LONG);                                 \
    HOLD(tsiv_##W##_least(out, 64, 0, 1, big, more, 0, 1, &flag, &a, &b, &c, &d) == TSIV_TOO_LONG);                    \
    HOLD(tsiv_##W##_clear(big, more, &len) == TSIV_TOO_LONG && len == 0);                                              \
    HOLD(tsiv_##W##_push_ascii(big, more, &len, out, 1, &a, &b) == TSIV_TOO_LONG);                                     \
    HOLD(tsiv_##W##_push_seq(big, more, &len, out, 64, 0, 1, &a, &b) == TSIV_TOO_LONG);                                \
    HOLD(tsiv_##W##_push_seq(out, 64, &len, big, more, 0, 1, &a, &b) == TSIV_TOO_LONG);                                \
    HOLD(tsiv_##W##_overwrite(big, more, &len, 0, out, 0) == TSIV_TOO_LONG);                                           \
    HOLD(tsiv_##W##_cut(big, more, &len, 0) == TSIV_TOO_LONG);                                                         \
    HOLD(tsiv_##W##_fill(big, more, 0, 1, 1, 1, NULL, 0, &a, &b) == TSIV_TOO_LONG);                                    \
    HOLD(tsiv_##W##_fill_delayed(big, more, 0, 1, 1, 1, 0, NULL, 0, NULL, 0, &a, &b) == TSIV_TOO_LONG);                \
    HOLD(tsiv_##W##_fill_delayed_2(big, more, 0, 1, 1, 1, 0, 0, NULL, 0, NULL, 0, NULL, 0, &a, &b) == TSIV_TOO_LONG);  \
    HOLD(tsiv_##W##_step(big, more, 0, 1, 1, 1, 0, lanes) == TSIV_TOO_LONG);                                           \
    HOLD(tsiv_##W##_step_delayed(big, more, 0, 1, 1, 1, 0, 0, lanes, lanes1) == TSIV_TOO_LONG);                        \
    HOLD(tsiv_##W##_step_delayed_2(big, more, 0, 1, 1, 1, 0, 0, 0, lanes, lanes1, lanes2) == TSIV_TOO_LONG)
    LARGE(bases);
    LARGE(flags);
    HOLD(tsiv_bases_unpack(big, more, 0, 1, out, 64) == TSIV_TOO_LONG);
    HOLD(tsiv_flags_fill_windows(big, more, 0, 1, 1, 1, 0, NULL, 0, &a, &b) == TSIV_TOO_LONG);
    a = 0;
    HOLD(tsiv_flags_step_windows(big, more, 0, 1, 1, 1, counts, &a, lanes) == TSIV_TOO_LONG && a == 0);
    HOLD(tsiv_flags_clear_counted(big, more, &len, NULL, 0) == TSIV_TOO_LONG && len == 0);
    HOLD(tsiv_flags_push_ascii_counted(big, more, &len, NULL, 0, out, 1, &a, &b) == TSIV_TOO_LONG);
    HOLD(tsiv_flags_push_seq_counted(big, more, &len, NULL, 0, out, 64, 0, 1, &a, &b) == TSIV_TOO_LONG);
    HOLD(tsiv_flags_push_seq_counted(out, 64, &len, NULL, 0, big, more, 0, 1, &a, &b) == TSIV_TOO_LONG);
    HOLD(tsiv_flags_overwrite_counted(big, more, &len, NULL, 0, 0, out, 0) == TSIV_TOO_LONG);
    HOLD(tsiv_flags_cut_counted(big, more, &len, NULL, 0, 0) == TSIV_TOO_LONG);
    HOLD(tsiv_flags_count(big, more, 0, NULL, 0, 0, 0, &word) == TSIV_TOO_LONG);
    HOLD(tsiv_form_write(big, more, 0, 1, out, 50, 0, 1, out + 50, 14, &a) == TSIV_TOO_LONG);
    HOLD(tsiv_form_write(out, 50, 0, 1, big, more, 0, 1, out + 50, 14, &a) == TSIV_TOO_LONG && a == 0);
    HOLD(tsiv_form_read(big, more, out, 64, NULL, 0, &len) == TSIV_TOO_LONG);
    HOLD(tsiv_form_read(out, 64, big, more, NULL, 0, &len) == TSIV_TOO_LONG);
    HOLD(tsiv_form_read(out, 64, NULL, 0, big, more, &len) == TSIV_TOO_LONG && len == 0);
    a = c = 16, d = 1;
    HOLD(tsiv_twobit_record_size(big, more, 0, 1, &b) == TSIV_TOO_LONG && b == 0);
    HOLD(tsiv_twobit_record_size(big, most, 0, 1, &b) == 0 && b == 17);
    HOLD(tsiv_twobit_add(&a, 21, &c, &d, NULL, 0, big, more, 0, 1, out, 64, 0, 1, NULL, 0) == TSIV_TOO_LONG);
    HOLD(tsiv_twobit_add(&a, 21, &c, &d, NULL, 0, out, 0, 0, 1, big, more, 0, 1, NULL, 0) == TSIV_TOO_LONG);
    HOLD(tsiv_twobit_record(out, 64, 16, big, more, NULL, 0, &a, &b) == TSIV_TOO_LONG);
    HOLD(tsiv_twobit_record(out, 64, 16, NULL, 0, big, more, &a, &b) == TSIV_TOO_LONG && a + b == 0);
    /* a file may be longer: one without sequences, and a record of zeros */
    HOLD(tsiv_twobit_check(big, more, &a) == TSIV_BAD_FORM);
    HOLD(tsiv_twobit_start(0, 0, big, more, &a, &b, &c, &d) == 0 && b == 16);
    HOLD(tsiv_twobit_check(big, more, &a) == 0 && a == 0);
    HOLD(tsiv_twobit_record_info(big, more, more - 16, &a, &b, &c) == 0 && (a | b | c) == 0);
    HOLD(tsiv_twobit_record_info(big, more, more - 15, &a, &b, &c) == TSIV_BAD_FORM);
    HOLD(tsiv_twobit_record(big, more, more - 16, out, 48, NULL, 0, &a, &b) == TSIV_NO_ROOM);
    HOLD(tsiv_twobit_record(big, more, more - 15, out, 48, NULL, 0, &a, &b) == TSIV_BAD_FORM);
    /* the longest store of flags, and all entries wrong: the largest sum */
    const size_t flags = (most - 48) * 8, blocks = TSIV_COUNTS_ROOM(flags);
    uint16_t *entries = (uint16_t *)malloc(blocks * sizeof *entries);
    HOLD(entries != NULL);
    if (entries != NULL) {
        memset(big, 0xFF, most - 48);
        memset(entries, 0xFF, blocks * sizeof *entries);
        HOLD(tsiv_flags_count(big, most, flags, entries, blocks, 0, flags, &word) == 0 && word == 549747294338);
        HOLD(tsiv_flags_count(big, most, flags, entries, blocks - 1, 0, flags, &word) == TSIV_NO_ROOM && word == 0);
        free(entries);
    }
    free(big);
}

/* A stream's buffers that lack one entry are refused, and not one entry is written. */
static void no_room(void)
{
    uint8_t bytes[64] = {0x1B, 0x1B};
    uint32_t x[48], y[48], z[48];
    size_t steps = 7, padding = 7;
    memset(x, 0x5A, sizeof x), memset(y, 0x5A, sizeof y), memset(z, 0x5A, sizeof z);
    /* length 8, context 1: lanes of 4 bases or 8 flags, so 32 or 64 entries */
    HOLD(tsiv_bases_fill(bytes, 64, 0, 8, 1, 1, x, 31, &steps, &padding) == TSIV_NO_ROOM && steps + padding == 0);
    HOLD(tsiv_bases_fill_delayed(bytes, 64, 0, 8, 1, 1, 1, x, 32, y, 31, &steps, &padding) == TSIV_NO_ROOM);
    HOLD(tsiv_bases_fill_delayed_2(bytes, 64, 0, 8, 1, 1, 0, 1, x, 32, y, 32, z, 31, &steps, &padding) == TSIV_NO_ROOM);
    HOLD(tsiv_flags_fill(bytes, 64, 0, 8, 1, 1, x, 47, &steps, &padding) == TSIV_NO_ROOM);
    HOLD(tsiv_flags_fill_windows(bytes, 64, 0, 8, 1, 1, 3, x, 39, &steps, &padding) == TSIV_NO_ROOM);
    HOLD(x[0] == 0x5A5A5A5A && x[47] == x[0] && y[0] == x[0] && z[0] == x[0]);
    HOLD(tsiv_bases_fill(bytes, 64, 0, 8, 1, 1, x, 32, &steps, &padding) == 0 && steps == 4 && padding == 24);
    HOLD(x[32] == 0x5A5A5A5A && x[0] == 3 && x[1] == 3 && x[8] == 2);
    HOLD(tsiv_flags_fill_windows(bytes, 64, 0, 8, 1, 1, 3, y, 40, &steps, &padding) == 0 && steps == 5);
}

int main(void)
{
    versions_and_names();
    rooms();
    worked();
    rna();
    nulls();
    windows();
    partial();
    counts();
    twobit();
    too_long();
    no_room();
    printf("face: %u passed, %u failed\n", passed, failed);
    return failed != 0;
}
