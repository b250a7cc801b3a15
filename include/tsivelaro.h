/*
 * Tsivelaro: packed DNA tracks. Two-bit bases, one-bit ambiguity flags, words, comparison, reverse complement, stores,
 * counts of flags, lane streams, a stored form, .2bit files. Every function is proved to meet its contract, to be safe
 * and to end, on any bytes and numbers (crates/abi; docs/PROMISES.md says what is promised and what is trusted).
 *
 * CONVENTIONS, for every call below
 *
 *   Units       NAME_size counts the bytes of the buffer NAME, NAME_entries its entries: a buffer of uint16_t or
 *               uint32_t has no size, and `sizeof` is too much for it. A part's `at` and `size` count bytes, and so
 *               does all that says where something stands in a .2bit file: entry, stop, place, at, name, offset. All
 *               other offsets, lengths, indices and places count characters: two bits each for `tsiv_bases_..`, one bit
 *               each for `tsiv_flags_..`.
 *   Characters  Character i stands in byte i / C8, at bit width * (i mod C8), low bits first; C8 is 4 for bases and 8
 *               for flags. Bases are A 0, C 1, T 2, G 3; flags are 0 clear, 1 ambiguous. Letters are taken capital or
 *               small; U counts as T, and capitals with T are what is unpacked. The bytes are the same on every
 *               machine.
 *   Views       Bytes, an offset and a length. 48 bytes must be lent behind the last character, because the calls may
 *               read them: they read many characters at a time. Neither these bytes nor any other bit outside the view
 *               matter to any number, character or written byte.
 *   Stores      A buffer and a length in characters. The buffer has the same 48 bytes behind the last character, which
 *               are no part of the length: TSIV_BASES_ROOM(n), TSIV_FLAGS_ROOM(n) bytes for n characters.
 *   Answer      The refusal number: 0 where the call is done, else the lowest of the numbers named whose condition
 *               holds, never another. Two calls have another order: tsiv_flags_fill_windows gives PARTIAL, 10, before
 *               NO_ROOM, 9, and tsiv_twobit_entry judges the header, BAD_FORM, 7, before the cursor, BAD_RANGE, 4.
 *   Refused     Every number behind a pointer is 0, and not one byte of a buffer changes. Only a store's length (but in
 *               a clear) and the state that tsiv_twobit_add was given stay what they were. Numbers are what a call
 *               gives through a pointer without a size, the eight entries of an array [8] among them; buffers are what
 *               comes with a size or a count of entries.
 *   Pointers    Read or written during the call alone. Buffers of bytes have any alignment, all else its type's own. No
 *               two of a call's pointers may overlap, unless both are only read. A buffer of size 0, or of no entries,
 *               may be NULL; no other pointer may, not of a number that you do not want either.
 *   Threads     No global state, no allocation, no system call, and of the C library memset alone. Any number of
 *               threads may read the same bytes at once; while one writes a buffer no other may use it.
 *
 * LIMITS      a view's bytes, a store's buffer, a stored form to be read      2^28 bytes (268,435,456)
 *             characters of a stored form                                     2^29
 *             a word of 64 bits: bases, flags                                 32, 64
 *             a word of 128 bits, as a low and a high half: bases, flags      64, 128
 *             a stream's context                                              1 to 2^31
 *             a stream's delays                                               0 to 2^31
 *             a window of flags                                               1 to 96
 *             a .2bit file to be written: sequences, a name, an offset        below 2^32, up to 255 bytes, below 2^32
 *             a .2bit file itself, and the buffer for one                     none
 */
#ifndef TSIVELARO_H
#define TSIVELARO_H

#include <stdbool.h>
#include <stddef.h>
#include <stdint.h>

#ifdef __cplusplus
extern "C" {
#endif

/*
 * What a compiler that can is asked to warn of, and nothing elsewhere: an answer that is not looked at; NULL for one of
 * a call's numbers; more bytes or entries than the buffer has, where its size is known. The numbers in brackets are
 * places of parameters: of the numbers, or of a buffer that is read, written or both, and of its size.
 */
#if defined(__GNUC__) || defined(__clang__)
#define TSIV_USE __attribute__((warn_unused_result))
#define TSIV_GIVES(...) __attribute__((nonnull(__VA_ARGS__)))
#if defined(__has_attribute)
#if __has_attribute(access)
#define TSIV_READS(buffer, size) __attribute__((access(read_only, buffer, size)))
#define TSIV_WRITES(buffer, size) __attribute__((access(write_only, buffer, size)))
#define TSIV_CHANGES(buffer, size) __attribute__((access(read_write, buffer, size)))
#endif
#endif
#else
#define TSIV_USE
#define TSIV_GIVES(...)
#endif
#ifndef TSIV_READS
#define TSIV_READS(buffer, size)
#define TSIV_WRITES(buffer, size)
#define TSIV_CHANGES(buffer, size)
#endif

/* ---- Version: major, minor, patch in 16, 8 and 8 bits, for #if too; of this header, and of the linked archive. */

#define TSIV_VERSION_MAJOR 4
#define TSIV_VERSION_MINOR 0
#define TSIV_VERSION_PATCH 0
#define TSIV_VERSION (TSIV_VERSION_MAJOR * 65536u + TSIV_VERSION_MINOR * 256u + TSIV_VERSION_PATCH)

uint32_t tsiv_version(void);

/* ---- Refusals */

enum {
    TSIV_DONE = 0,
    TSIV_TOO_LONG = 1,   /* a view's bytes, a store's buffer or a stored form to be read exceeds 2^28 bytes */
    TSIV_BAD_STORE = 2,  /* the bytes of a store's length and 48 more exceed its buffer */
    TSIV_BAD_VIEW = 3,   /* a view's offset, length and 48 bytes behind exceed its bytes, in exact arithmetic */
    TSIV_BAD_RANGE = 4,  /* an index not below the length; an end beyond it; a start after its end; tracks of unequal
                            lengths, or too long for a form; what a .2bit file cannot hold, or its state does not
                            allow; a cursor past the last entry */
    TSIV_BAD_WORD = 5,   /* a word's length outside its range */
    TSIV_BAD_LETTER = 6, /* a byte that is no such letter; a code above 3 */
    TSIV_BAD_FORM = 7,   /* bytes that are no stored form, or no .2bit file */
    TSIV_BAD_STREAM = 8, /* stream numbers outside their ranges */
    TSIV_NO_ROOM = 9,    /* an output buffer is shorter than the answer needs; fewer entries than a store has blocks */
    TSIV_PARTIAL = 10    /* windows of k flags with a skip below k - 1 or a context below k; given before NO_ROOM */
};

/* A refusal's name, as above without the prefix; "?" for a number that is none. */
static inline const char *tsiv_refusal_name(uint32_t number)
{
    switch (number) {
    case TSIV_DONE: return "DONE";
    case TSIV_TOO_LONG: return "TOO_LONG";
    case TSIV_BAD_STORE: return "BAD_STORE";
    case TSIV_BAD_VIEW: return "BAD_VIEW";
    case TSIV_BAD_RANGE: return "BAD_RANGE";
    case TSIV_BAD_WORD: return "BAD_WORD";
    case TSIV_BAD_LETTER: return "BAD_LETTER";
    case TSIV_BAD_FORM: return "BAD_FORM";
    case TSIV_BAD_STREAM: return "BAD_STREAM";
    case TSIV_NO_ROOM: return "NO_ROOM";
    case TSIV_PARTIAL: return "PARTIAL";
    default: return "?";
    }
}

/* ---- Room: as a macro for constants, and as a function. Letters take a byte each. */

/* The bytes of a store, or of what tsiv_.._to_revcomp writes, of n bases or n flags. */
#define TSIV_BASES_ROOM(n) ((size_t)(n) / 4 + ((size_t)(n) % 4 != 0) + 48)
#define TSIV_FLAGS_ROOM(n) ((size_t)(n) / 8 + ((size_t)(n) % 8 != 0) + 48)
size_t tsiv_bases_room(size_t n);
size_t tsiv_flags_room(size_t n);

/* The entries of the counts beside a store of n flags: one for each block of 256. */
#define TSIV_COUNTS_ROOM(n) ((size_t)(n) / 256 + ((size_t)(n) % 256 != 0))
size_t tsiv_counts_room(size_t n);

/* The bytes of the stored form of n characters, n up to 2^29. */
#define TSIV_FORM_ROOM(n)                                                                                              \
    ((size_t)1 +                                                                                                       \
     ((size_t)(n) < 1 << 7    ? 1                                                                                      \
      : (size_t)(n) < 1 << 14 ? 2                                                                                      \
      : (size_t)(n) < 1 << 21 ? 3                                                                                      \
      : (size_t)(n) < 1 << 28 ? 4                                                                                      \
                              : 5) +                                                                                   \
     ((size_t)(n) + 3) / 4 + ((size_t)(n) + 7) / 8)
size_t tsiv_form_room(size_t n);

/* The entries of so many steps of a stream or of windows; the largest size_t where that is more. */
#define TSIV_LANES_ROOM(steps) ((size_t)(steps) > SIZE_MAX / 8 ? SIZE_MAX : (size_t)8 * (size_t)(steps))
size_t tsiv_lanes_room(size_t steps);

/* ---- Letters and codes */

/* *code: the code of one of ACGTUacgtu, where U has that of T. BAD_LETTER for any other byte. */
TSIV_USE uint32_t tsiv_pack_char(uint8_t byte, uint8_t *code) TSIV_GIVES(2);
/* The code that packing gives any byte, (byte / 2) mod 4: N gives 3. */
TSIV_USE uint8_t tsiv_pack_char_lossy(uint8_t byte);
/* 0 for one of ACGTUacgtu, 1 for every other byte. */
TSIV_USE uint8_t tsiv_char_is_ambiguous(uint8_t byte);
/* *byte: the capital letter of a code. BAD_LETTER for a code above 3. */
TSIV_USE uint32_t tsiv_unpack_base(uint8_t code, uint8_t *byte) TSIV_GIVES(2);
/* *pair: the capital letter that pairs with A, C, G or T. BAD_LETTER for any other byte, U among them. */
TSIV_USE uint32_t tsiv_complement_char(uint8_t byte, uint8_t *pair) TSIV_GIVES(2);
/* *pair: the code of the base that pairs with a base, code xor 2. BAD_LETTER for a code above 3. */
TSIV_USE uint32_t tsiv_complement_base(uint8_t code, uint8_t *pair) TSIV_GIVES(2);

/* ---- Words: character i at bit width * i. Bits above the length are ignored; those of a result are 0. */

/* *to, or *low and *high: the word of the letters' codes, any bytes. BAD_WORD for more than 32, or 64, letters. */
TSIV_USE uint32_t tsiv_pack_kmer_lossy(const uint8_t *letters, size_t letters_size, uint64_t *to) TSIV_GIVES(3)
    TSIV_READS(1, 2);
TSIV_USE uint32_t tsiv_pack_kmer_u128_lossy(const uint8_t *letters, size_t letters_size, uint64_t *low, uint64_t *high)
    TSIV_GIVES(3, 4) TSIV_READS(1, 2);

/*
 * Writes the k low bases of a word as capital letters to the front of out; later bytes stay. BAD_WORD for k above 32,
 * or 64; NO_ROOM for fewer bytes than k.
 */
TSIV_USE uint32_t tsiv_unpack_kmer(uint64_t word, size_t k, uint8_t *out, size_t out_size) TSIV_WRITES(3, 4);
TSIV_USE uint32_t tsiv_unpack_kmer_u128(uint64_t low, uint64_t high, size_t k, uint8_t *out, size_t out_size)
    TSIV_WRITES(4, 5);

/* The reverse complement of the len low bases of a word. BAD_WORD for len 0 or above 32, or 64. */
TSIV_USE uint32_t tsiv_revcomp_u64(uint64_t word, size_t len, uint64_t *to) TSIV_GIVES(3);
TSIV_USE uint32_t tsiv_revcomp_u128(uint64_t low, uint64_t high, size_t len, uint64_t *to_low, uint64_t *to_high)
    TSIV_GIVES(4, 5);

/* The len low flags of a word in reverse. BAD_WORD for len 0 or above 64, or 128. */
TSIV_USE uint32_t tsiv_rev_u64(uint64_t word, size_t len, uint64_t *to) TSIV_GIVES(3);
TSIV_USE uint32_t tsiv_rev_u128(uint64_t low, uint64_t high, size_t len, uint64_t *to_low, uint64_t *to_high)
    TSIV_GIVES(4, 5);

/* ---- One view: every call gives TOO_LONG, then BAD_VIEW, before what it names. */

/* *code: character i. BAD_RANGE for i not below len. */
TSIV_USE uint32_t tsiv_bases_get(const uint8_t *bytes, size_t bytes_size, size_t offset, size_t len, size_t i,
                                 uint8_t *code) TSIV_GIVES(6) TSIV_READS(1, 2);
TSIV_USE uint32_t tsiv_flags_get(const uint8_t *bytes, size_t bytes_size, size_t offset, size_t len, size_t i,
                                 uint8_t *code) TSIV_GIVES(6) TSIV_READS(1, 2);

/*
 * *code: character i of the characters from start up to end. BAD_RANGE where tsiv_.._slice gives it, and for i not
 * below end - start.
 */
TSIV_USE uint32_t tsiv_bases_get_sliced(const uint8_t *bytes, size_t bytes_size, size_t offset, size_t len,
                                        size_t start, size_t end, size_t i, uint8_t *code) TSIV_GIVES(8)
    TSIV_READS(1, 2);
TSIV_USE uint32_t tsiv_flags_get_sliced(const uint8_t *bytes, size_t bytes_size, size_t offset, size_t len,
                                        size_t start, size_t end, size_t i, uint8_t *code) TSIV_GIVES(8)
    TSIV_READS(1, 2);

/*
 * Views made from a view. The part is the *size bytes from bytes[*at] on, with the offset *part_offset and the length
 * *part_len, in characters. tsiv_.._view checks: it gives the view itself. tsiv_.._slice keeps the bytes: the
 * characters from start up to end; BAD_RANGE for end above len, or start above end. tsiv_.._normalise gives the fewest
 * bytes, those 48 behind among them, with an offset below C8.
 */
TSIV_USE uint32_t tsiv_bases_view(const uint8_t *bytes, size_t bytes_size, size_t offset, size_t len, size_t *at,
                                  size_t *size, size_t *part_offset, size_t *part_len) TSIV_GIVES(5, 6, 7, 8)
    TSIV_READS(1, 2);
TSIV_USE uint32_t tsiv_flags_view(const uint8_t *bytes, size_t bytes_size, size_t offset, size_t len, size_t *at,
                                  size_t *size, size_t *part_offset, size_t *part_len) TSIV_GIVES(5, 6, 7, 8)
    TSIV_READS(1, 2);
TSIV_USE uint32_t tsiv_bases_slice(const uint8_t *bytes, size_t bytes_size, size_t offset, size_t len, size_t start,
                                   size_t end, size_t *at, size_t *size, size_t *part_offset, size_t *part_len)
    TSIV_GIVES(7, 8, 9, 10) TSIV_READS(1, 2);
TSIV_USE uint32_t tsiv_flags_slice(const uint8_t *bytes, size_t bytes_size, size_t offset, size_t len, size_t start,
                                   size_t end, size_t *at, size_t *size, size_t *part_offset, size_t *part_len)
    TSIV_GIVES(7, 8, 9, 10) TSIV_READS(1, 2);
TSIV_USE uint32_t tsiv_bases_normalise(const uint8_t *bytes, size_t bytes_size, size_t offset, size_t len, size_t *at,
                                       size_t *size, size_t *part_offset, size_t *part_len) TSIV_GIVES(5, 6, 7, 8)
    TSIV_READS(1, 2);
TSIV_USE uint32_t tsiv_flags_normalise(const uint8_t *bytes, size_t bytes_size, size_t offset, size_t len, size_t *at,
                                       size_t *size, size_t *part_offset, size_t *part_len) TSIV_GIVES(5, 6, 7, 8)
    TSIV_READS(1, 2);

/* The word of a view. BAD_WORD for more than 32 bases or 64 flags; in two halves, more than 64 bases or 128 flags. */
TSIV_USE uint32_t tsiv_bases_as_u64(const uint8_t *bytes, size_t bytes_size, size_t offset, size_t len, uint64_t *word)
    TSIV_GIVES(5) TSIV_READS(1, 2);
TSIV_USE uint32_t tsiv_flags_as_u64(const uint8_t *bytes, size_t bytes_size, size_t offset, size_t len, uint64_t *word)
    TSIV_GIVES(5) TSIV_READS(1, 2);
TSIV_USE uint32_t tsiv_bases_as_u128(const uint8_t *bytes, size_t bytes_size, size_t offset, size_t len, uint64_t *low,
                                     uint64_t *high) TSIV_GIVES(5, 6) TSIV_READS(1, 2);
TSIV_USE uint32_t tsiv_flags_as_u128(const uint8_t *bytes, size_t bytes_size, size_t offset, size_t len, uint64_t *low,
                                     uint64_t *high) TSIV_GIVES(5, 6) TSIV_READS(1, 2);

/* The word of the reverse complement of a view, flags reversed only. BAD_WORD also for an empty view. */
TSIV_USE uint32_t tsiv_bases_revcomp_as_u64(const uint8_t *bytes, size_t bytes_size, size_t offset, size_t len,
                                            uint64_t *word) TSIV_GIVES(5) TSIV_READS(1, 2);
TSIV_USE uint32_t tsiv_flags_revcomp_as_u64(const uint8_t *bytes, size_t bytes_size, size_t offset, size_t len,
                                            uint64_t *word) TSIV_GIVES(5) TSIV_READS(1, 2);
TSIV_USE uint32_t tsiv_bases_revcomp_as_u128(const uint8_t *bytes, size_t bytes_size, size_t offset, size_t len,
                                             uint64_t *low, uint64_t *high) TSIV_GIVES(5, 6) TSIV_READS(1, 2);
TSIV_USE uint32_t tsiv_flags_revcomp_as_u128(const uint8_t *bytes, size_t bytes_size, size_t offset, size_t len,
                                             uint64_t *low, uint64_t *high) TSIV_GIVES(5, 6) TSIV_READS(1, 2);

/* Writes the view's len capital letters to the front of out; later bytes stay. NO_ROOM for fewer bytes than len. */
TSIV_USE uint32_t tsiv_bases_unpack(const uint8_t *bytes, size_t bytes_size, size_t offset, size_t len, uint8_t *out,
                                    size_t out_size) TSIV_READS(1, 2) TSIV_WRITES(5, 6);

/*
 * Writes the reverse complement, flags reversed only, to the front of out: its bytes, unused bits 0, then 48 zeros, so
 * that it is a view at offset 0 and a store. NO_ROOM for fewer bytes than TSIV_.._ROOM(len); later bytes stay.
 */
TSIV_USE uint32_t tsiv_bases_to_revcomp(const uint8_t *bytes, size_t bytes_size, size_t offset, size_t len,
                                        uint8_t *out, size_t out_size) TSIV_READS(1, 2) TSIV_WRITES(5, 6);
TSIV_USE uint32_t tsiv_flags_to_revcomp(const uint8_t *bytes, size_t bytes_size, size_t offset, size_t len,
                                        uint8_t *out, size_t out_size) TSIV_READS(1, 2) TSIV_WRITES(5, 6);

/* ---- Two views, a and b: every call gives TOO_LONG, then BAD_VIEW, of either. Both may lie in the same bytes. */

/*
 * *order: -1, 0 or 1. The first differing character decides, by code, so A < C < T < G; else the shorter is first.
 * *common: how many leading characters are equal. Where the call is done, *order is 0 exactly if a and b have the same
 * characters.
 */
TSIV_USE uint32_t tsiv_bases_compare(const uint8_t *a, size_t a_size, size_t a_offset, size_t a_len, const uint8_t *b,
                                     size_t b_size, size_t b_offset, size_t b_len, int32_t *order, size_t *common)
    TSIV_GIVES(9, 10) TSIV_READS(1, 2) TSIV_READS(5, 6);
TSIV_USE uint32_t tsiv_flags_compare(const uint8_t *a, size_t a_size, size_t a_offset, size_t a_len, const uint8_t *b,
                                     size_t b_size, size_t b_offset, size_t b_len, int32_t *order, size_t *common)
    TSIV_GIVES(9, 10) TSIV_READS(1, 2) TSIV_READS(5, 6);

/*
 * *there: whether the pattern stands in the text; *place: the least place, in characters of the text, where it does, 0
 * where it does not. The empty pattern stands in every text, at 0.
 */
TSIV_USE uint32_t tsiv_bases_find(const uint8_t *text, size_t text_size, size_t text_offset, size_t text_len,
                                  const uint8_t *pattern, size_t pattern_size, size_t pattern_offset,
                                  size_t pattern_len, bool *there, size_t *place) TSIV_GIVES(9, 10) TSIV_READS(1, 2)
    TSIV_READS(5, 6);
TSIV_USE uint32_t tsiv_flags_find(const uint8_t *text, size_t text_size, size_t text_offset, size_t text_len,
                                  const uint8_t *pattern, size_t pattern_size, size_t pattern_offset,
                                  size_t pattern_len, bool *there, size_t *place) TSIV_GIVES(9, 10) TSIV_READS(1, 2)
    TSIV_READS(5, 6);

/*
 * *second: whether b comes first, not at a tie. The part, as tsiv_.._normalise gives it, lies in b's bytes if so, else
 * in a's.
 */
TSIV_USE uint32_t tsiv_bases_least(const uint8_t *a, size_t a_size, size_t a_offset, size_t a_len, const uint8_t *b,
                                   size_t b_size, size_t b_offset, size_t b_len, bool *second, size_t *at, size_t *size,
                                   size_t *part_offset, size_t *part_len) TSIV_GIVES(9, 10, 11, 12, 13) TSIV_READS(1, 2)
    TSIV_READS(5, 6);
TSIV_USE uint32_t tsiv_flags_least(const uint8_t *a, size_t a_size, size_t a_offset, size_t a_len, const uint8_t *b,
                                   size_t b_size, size_t b_offset, size_t b_len, bool *second, size_t *at, size_t *size,
                                   size_t *part_offset, size_t *part_len) TSIV_GIVES(9, 10, 11, 12, 13) TSIV_READS(1, 2)
    TSIV_READS(5, 6);

/*
 * ---- Stores: a buffer, and its length in *len, which a call that is done brings up to date. Every call gives
 * TOO_LONG, then (but for clear) BAD_STORE, before what it names. A store's characters are a view at offset 0.
 *
 * Letters may be ANY bytes: of bases (byte / 2) mod 4 is put there, so that N becomes G, and a line feed C. Lend the
 * same letters to a store of flags beside it, which marks all but ACGTUacgtu, and take line ends off before.
 *
 * A push, but one of no letters, writes the bytes from the one that the old length stands in, old length / C8, up to
 * the 48 zeros behind the new length; a cut those from the one that m stands in up to the 48 zeros behind it. The
 * characters below stay, unused bits of the last byte become 0, and bytes outside the run stay.
 */

/* Writes 48 zeros; *len becomes 0, refused or not, and may hold anything before. NO_ROOM for under 48 bytes. */
TSIV_USE uint32_t tsiv_bases_clear(uint8_t *buffer, size_t buffer_size, size_t *len) TSIV_GIVES(3) TSIV_WRITES(1, 2);
TSIV_USE uint32_t tsiv_flags_clear(uint8_t *buffer, size_t buffer_size, size_t *len) TSIV_GIVES(3) TSIV_WRITES(1, 2);

/*
 * Puts the letters' codes, or flags, at the end: *start is the old length, *end the new one. No letters write nothing.
 * NO_ROOM for a buffer under TSIV_.._ROOM(*len + letters_size).
 */
TSIV_USE uint32_t tsiv_bases_push_ascii(uint8_t *buffer, size_t buffer_size, size_t *len, const uint8_t *letters,
                                        size_t letters_size, size_t *start, size_t *end) TSIV_GIVES(3, 6, 7)
    TSIV_CHANGES(1, 2) TSIV_READS(4, 5);
TSIV_USE uint32_t tsiv_flags_push_ascii(uint8_t *buffer, size_t buffer_size, size_t *len, const uint8_t *letters,
                                        size_t letters_size, size_t *start, size_t *end) TSIV_GIVES(3, 6, 7)
    TSIV_CHANGES(1, 2) TSIV_READS(4, 5);

/*
 * Puts a view behind the store: *start is the next multiple of C8 at or above the length, plus offset mod C8; *end is
 * count later. The gap is filled with A, or with set flags; an empty view makes its gap too. TOO_LONG also for the
 * view's bytes; BAD_VIEW; NO_ROOM for a buffer under TSIV_.._ROOM of that end.
 */
TSIV_USE uint32_t tsiv_bases_push_seq(uint8_t *buffer, size_t buffer_size, size_t *len, const uint8_t *bytes,
                                      size_t bytes_size, size_t offset, size_t count, size_t *start, size_t *end)
    TSIV_GIVES(3, 8, 9) TSIV_CHANGES(1, 2) TSIV_READS(4, 5);
TSIV_USE uint32_t tsiv_flags_push_seq(uint8_t *buffer, size_t buffer_size, size_t *len, const uint8_t *bytes,
                                      size_t bytes_size, size_t offset, size_t count, size_t *start, size_t *end)
    TSIV_GIVES(3, 8, 9) TSIV_CHANGES(1, 2) TSIV_READS(4, 5);

/*
 * Puts the letters' codes, or flags, over the characters from start on; every other bit stays. BAD_RANGE where they end
 * beyond *len.
 */
TSIV_USE uint32_t tsiv_bases_overwrite(uint8_t *buffer, size_t buffer_size, size_t *len, size_t start,
                                       const uint8_t *letters, size_t letters_size) TSIV_GIVES(3) TSIV_CHANGES(1, 2)
    TSIV_READS(5, 6);
TSIV_USE uint32_t tsiv_flags_overwrite(uint8_t *buffer, size_t buffer_size, size_t *len, size_t start,
                                       const uint8_t *letters, size_t letters_size) TSIV_GIVES(3) TSIV_CHANGES(1, 2)
    TSIV_READS(5, 6);

/* Leaves the first m characters, with zeros behind. BAD_RANGE for m above *len. */
TSIV_USE uint32_t tsiv_bases_cut(uint8_t *buffer, size_t buffer_size, size_t *len, size_t m) TSIV_GIVES(3)
    TSIV_CHANGES(1, 2);
TSIV_USE uint32_t tsiv_flags_cut(uint8_t *buffer, size_t buffer_size, size_t *len, size_t m) TSIV_GIVES(3)
    TSIV_CHANGES(1, 2);

/*
 * ---- Stores of flags with their counts. Beside the store you lend counts: entry b is how many flags of block b are
 * set, the characters from 256 b up to 256 b + 256, the last block partial. The five calls are those above, refusals,
 * answers and buffer the same, and carry the counts: of the blocks of the new length those that have a character which
 * the call writes, cuts or makes a gap of are counted afresh; all other entries keep their numbers, right or wrong. So
 * a call that touches no character (a push that adds nothing, an overwrite of nothing, a cut to the length itself)
 * mends no entry. It is judged all the same: NO_ROOM also for fewer entries than TSIV_COUNTS_ROOM of the new length;
 * more are fine. Refused, every entry stays. After tsiv_flags_clear_counted, and as long as every call on the store is
 * one of these with the same counts, which nothing else changes, all entries up to the last block are right, whatever
 * they held before.
 */

/* No entry is looked at or changed, and none is needed. */
TSIV_USE uint32_t tsiv_flags_clear_counted(uint8_t *buffer, size_t buffer_size, size_t *len, uint16_t *counts,
                                           size_t counts_entries) TSIV_GIVES(3) TSIV_WRITES(1, 2) TSIV_WRITES(4, 5);
TSIV_USE uint32_t tsiv_flags_push_ascii_counted(uint8_t *buffer, size_t buffer_size, size_t *len, uint16_t *counts,
                                                size_t counts_entries, const uint8_t *letters, size_t letters_size,
                                                size_t *start, size_t *end) TSIV_GIVES(3, 8, 9) TSIV_CHANGES(1, 2)
    TSIV_WRITES(4, 5) TSIV_READS(6, 7);
TSIV_USE uint32_t tsiv_flags_push_seq_counted(uint8_t *buffer, size_t buffer_size, size_t *len, uint16_t *counts,
                                              size_t counts_entries, const uint8_t *bytes, size_t bytes_size,
                                              size_t offset, size_t count, size_t *start, size_t *end)
    TSIV_GIVES(3, 10, 11) TSIV_CHANGES(1, 2) TSIV_WRITES(4, 5) TSIV_READS(6, 7);
TSIV_USE uint32_t tsiv_flags_overwrite_counted(uint8_t *buffer, size_t buffer_size, size_t *len, uint16_t *counts,
                                               size_t counts_entries, size_t start, const uint8_t *letters,
                                               size_t letters_size) TSIV_GIVES(3) TSIV_CHANGES(1, 2) TSIV_WRITES(4, 5)
    TSIV_READS(7, 8);
TSIV_USE uint32_t tsiv_flags_cut_counted(uint8_t *buffer, size_t buffer_size, size_t *len, uint16_t *counts,
                                         size_t counts_entries, size_t m) TSIV_GIVES(3) TSIV_CHANGES(1, 2)
    TSIV_WRITES(4, 5);

/*
 * *total: how many flags are set from character start up to character end of a store of len characters: the sum of the
 * entries of the blocks of 256 that lie in the range whole, and the plain count of its ends; with right entries, the
 * plain count of the range. TOO_LONG, BAD_STORE; BAD_RANGE for an end beyond len or a start after its end; NO_ROOM for
 * fewer entries than TSIV_COUNTS_ROOM(len).
 */
TSIV_USE uint32_t tsiv_flags_count(const uint8_t *buffer, size_t buffer_size, size_t len, const uint16_t *counts,
                                   size_t counts_entries, size_t start, size_t end, uint64_t *total) TSIV_GIVES(8)
    TSIV_READS(1, 2) TSIV_READS(4, 5);

/*
 * ---- Lane streams: eight lanes side by side over a view. With s = len - context + 1 (0 where len < context), a lane
 * has n characters, the least multiple of factor * C8 at or above s / 8; padding = 8 n - s; there are n + context - 1
 * steps, none where len < context. Step j gives lane l the character at l n + j, 0 from the view's end on; a delay d
 * gives the one at l n + j - d, 0 where j < d.
 *
 *   context     the characters of the windows, k-mers say, that you want of a stream: each of the s windows begins
 *               among the n characters of one lane, and ends within that lane's steps
 *   delay       gives, beside the character that enters a window, the one that leaves it: k for a window of k; two
 *               delays serve windows of two lengths at once
 *   factor      2 over bases gives the lanes that 1 gives over flags, so that both tracks of a read go in step; else 1
 *
 * BAD_STREAM for a context outside 1 to 2^31, a factor other than 1 and 2, a delay above 2^31, a first delay above the
 * second.
 */

/* *lane: n; *steps; *padding. It takes no view, and tells what room a stream needs. BAD_STREAM. */
TSIV_USE uint32_t tsiv_bases_shape(size_t len, size_t context, size_t factor, size_t *lane, size_t *steps,
                                   size_t *padding) TSIV_GIVES(4, 5, 6);
TSIV_USE uint32_t tsiv_flags_shape(size_t len, size_t context, size_t factor, size_t *lane, size_t *steps,
                                   size_t *padding) TSIV_GIVES(4, 5, 6);

/*
 * Writes step j, lane l to entry 8 j + l of out, for all steps, and of a buffer more for each delay; later entries
 * stay. *steps: the steps written; *padding. TOO_LONG, BAD_VIEW, BAD_STREAM; NO_ROOM where any buffer has fewer entries
 * than TSIV_LANES_ROOM of the steps that tsiv_.._shape tells.
 */
TSIV_USE uint32_t tsiv_bases_fill(const uint8_t *bytes, size_t bytes_size, size_t offset, size_t len, size_t context,
                                  size_t factor, uint32_t *out, size_t out_entries, size_t *steps, size_t *padding)
    TSIV_GIVES(9, 10) TSIV_READS(1, 2) TSIV_WRITES(7, 8);
TSIV_USE uint32_t tsiv_flags_fill(const uint8_t *bytes, size_t bytes_size, size_t offset, size_t len, size_t context,
                                  size_t factor, uint32_t *out, size_t out_entries, size_t *steps, size_t *padding)
    TSIV_GIVES(9, 10) TSIV_READS(1, 2) TSIV_WRITES(7, 8);
TSIV_USE uint32_t tsiv_bases_fill_delayed(const uint8_t *bytes, size_t bytes_size, size_t offset, size_t len,
                                          size_t context, size_t factor, size_t delay, uint32_t *out,
                                          size_t out_entries, uint32_t *delayed, size_t delayed_entries, size_t *steps,
                                          size_t *padding) TSIV_GIVES(12, 13) TSIV_READS(1, 2) TSIV_WRITES(8, 9)
    TSIV_WRITES(10, 11);
TSIV_USE uint32_t tsiv_flags_fill_delayed(const uint8_t *bytes, size_t bytes_size, size_t offset, size_t len,
                                          size_t context, size_t factor, size_t delay, uint32_t *out,
                                          size_t out_entries, uint32_t *delayed, size_t delayed_entries, size_t *steps,
                                          size_t *padding) TSIV_GIVES(12, 13) TSIV_READS(1, 2) TSIV_WRITES(8, 9)
    TSIV_WRITES(10, 11);
TSIV_USE uint32_t tsiv_bases_fill_delayed_2(const uint8_t *bytes, size_t bytes_size, size_t offset, size_t len,
                                            size_t context, size_t factor, size_t first, size_t second, uint32_t *out,
                                            size_t out_entries, uint32_t *out1, size_t out1_entries, uint32_t *out2,
                                            size_t out2_entries, size_t *steps, size_t *padding) TSIV_GIVES(15, 16)
    TSIV_READS(1, 2) TSIV_WRITES(9, 10) TSIV_WRITES(11, 12) TSIV_WRITES(13, 14);
TSIV_USE uint32_t tsiv_flags_fill_delayed_2(const uint8_t *bytes, size_t bytes_size, size_t offset, size_t len,
                                            size_t context, size_t factor, size_t first, size_t second, uint32_t *out,
                                            size_t out_entries, uint32_t *out1, size_t out1_entries, uint32_t *out2,
                                            size_t out2_entries, size_t *steps, size_t *padding) TSIV_GIVES(15, 16)
    TSIV_READS(1, 2) TSIV_WRITES(9, 10) TSIV_WRITES(11, 12) TSIV_WRITES(13, 14);

/*
 * The eight lanes of step j, and of each delay; zeros where it is refused. TOO_LONG, BAD_VIEW; BAD_STREAM also for j at
 * or past the steps.
 */
TSIV_USE uint32_t tsiv_bases_step(const uint8_t *bytes, size_t bytes_size, size_t offset, size_t len, size_t context,
                                  size_t factor, size_t j, uint32_t lanes[8]) TSIV_GIVES(8) TSIV_READS(1, 2);
TSIV_USE uint32_t tsiv_flags_step(const uint8_t *bytes, size_t bytes_size, size_t offset, size_t len, size_t context,
                                  size_t factor, size_t j, uint32_t lanes[8]) TSIV_GIVES(8) TSIV_READS(1, 2);
TSIV_USE uint32_t tsiv_bases_step_delayed(const uint8_t *bytes, size_t bytes_size, size_t offset, size_t len,
                                          size_t context, size_t factor, size_t delay, size_t j, uint32_t lanes[8],
                                          uint32_t lanes1[8]) TSIV_GIVES(9, 10) TSIV_READS(1, 2);
TSIV_USE uint32_t tsiv_flags_step_delayed(const uint8_t *bytes, size_t bytes_size, size_t offset, size_t len,
                                          size_t context, size_t factor, size_t delay, size_t j, uint32_t lanes[8],
                                          uint32_t lanes1[8]) TSIV_GIVES(9, 10) TSIV_READS(1, 2);
TSIV_USE uint32_t tsiv_bases_step_delayed_2(const uint8_t *bytes, size_t bytes_size, size_t offset, size_t len,
                                            size_t context, size_t factor, size_t first, size_t second, size_t j,
                                            uint32_t lanes[8], uint32_t lanes1[8], uint32_t lanes2[8])
    TSIV_GIVES(10, 11, 12) TSIV_READS(1, 2);
TSIV_USE uint32_t tsiv_flags_step_delayed_2(const uint8_t *bytes, size_t bytes_size, size_t offset, size_t len,
                                            size_t context, size_t factor, size_t first, size_t second, size_t j,
                                            uint32_t lanes[8], uint32_t lanes1[8], uint32_t lanes2[8])
    TSIV_GIVES(10, 11, 12) TSIV_READS(1, 2);

/*
 * Windows of k flags, factor 1: step j gives lane l 0xFFFFFFFF where a flag is set at one of the k positions that end
 * with l n + j, those past the view being clear, else 0. From step skip on they are written, step j to the entries from
 * 8 (j - skip) on; *steps: how many steps. TOO_LONG, BAD_VIEW; BAD_STREAM also for k outside 1 to 96 or skip above the
 * steps; then PARTIAL, if there are steps, for skip below k - 1 or context below k; then NO_ROOM for fewer entries than
 * TSIV_LANES_ROOM of the steps that tsiv_flags_shape tells, less skip.
 *
 * Context k and skip k - 1 give every window of k: entry 8 i + l is the one of the k positions from l n + i on, for
 * each i below n. A read of fewer than k flags then has no window and no steps: skip 0 is done, with *steps 0, and any
 * other skip is BAD_STREAM. So pass skip k - 1 where the read has k flags, else 0; or leave short reads out.
 */
TSIV_USE uint32_t tsiv_flags_fill_windows(const uint8_t *bytes, size_t bytes_size, size_t offset, size_t len,
                                          size_t context, size_t k, size_t skip, uint32_t *out, size_t out_entries,
                                          size_t *steps, size_t *padding) TSIV_GIVES(10, 11) TSIV_READS(1, 2)
    TSIV_WRITES(8, 9);

/*
 * The windows of one step. The state is eight lane counts and the step, all 0 at the start: it goes in, and the next
 * one comes out, through counts and *step. Each lane's entering flag is added to its count; the answer is whether that
 * sum is above 0; the flag k - 1 positions back is taken off. So step j below k - 1 answers for the positions from l n
 * to l n + j; any context is taken. TOO_LONG, BAD_VIEW; BAD_STREAM also for k outside 1 to 96, a step at or past the
 * steps, a count above k - 1, or a sum below the flag to take off. Refused, answers, counts and *step are all 0.
 */
TSIV_USE uint32_t tsiv_flags_step_windows(const uint8_t *bytes, size_t bytes_size, size_t offset, size_t len,
                                          size_t context, size_t k, uint32_t counts[8], size_t *step,
                                          uint32_t answers[8]) TSIV_GIVES(7, 8, 9) TSIV_READS(1, 2);

/*
 * ---- The stored form, edition 1: byte 1; the length n in groups of seven bits, low group first, the top bit set on
 * all but the last byte, shortest form; the base bytes; the flag bytes; nothing more; unused bits 0.
 */

/*
 * Writes the form of a view of bases and a view of flags to the front of out; later bytes stay. *written: its bytes.
 * TOO_LONG, BAD_VIEW; BAD_RANGE for unequal lengths, or more than 2^29; NO_ROOM under TSIV_FORM_ROOM(base_len).
 */
TSIV_USE uint32_t tsiv_form_write(const uint8_t *bases, size_t bases_size, size_t base_offset, size_t base_len,
                                  const uint8_t *flags, size_t flags_size, size_t flag_offset, size_t flag_len,
                                  uint8_t *out, size_t out_size, size_t *written) TSIV_GIVES(11) TSIV_READS(1, 2)
    TSIV_READS(5, 6) TSIV_WRITES(9, 10);

/*
 * Fills two buffers as stores of *len characters; later bytes stay. TOO_LONG for the form or a buffer; BAD_FORM;
 * NO_ROOM for buffers under TSIV_BASES_ROOM and TSIV_FLAGS_ROOM of that length, which stands in the form: where it is
 * not known before, form_size + 48 bytes for each always suffice.
 */
TSIV_USE uint32_t tsiv_form_read(const uint8_t *form, size_t form_size, uint8_t *bases, size_t bases_size,
                                 uint8_t *flags, size_t flags_size, size_t *len) TSIV_GIVES(7) TSIV_READS(1, 2)
    TSIV_WRITES(3, 4) TSIV_WRITES(5, 6);

/*
 * ---- .2bit files, version 0. 16 bytes of header: the signature 0x1A412743, the version 0, the number of sequences, a
 * reserved word. An index entry for each sequence: a byte with the length of its name, the name, the offset of its
 * record in the file. The records, each: the size in characters; the number of N blocks, their starts, their sizes; the
 * number of mask blocks, their starts, their sizes; a reserved word; the bases, four a byte, T 0, C 1, A 2, G 3, the
 * first in the highest bits. All numbers but the length of a name take four bytes.
 *
 * A file is written into one buffer, from its front: tsiv_twobit_start, tsiv_twobit_add for each sequence,
 * tsiv_twobit_finish. The state between these calls, bytes of the file but for the last, is *entry and stop, where the
 * next index entry stands and where the index ends; *place, where the next record stands; *left, how many sequences are
 * still to be added. The bytes are little-endian, without mask blocks, with an N block for each maximal run of set
 * flags, in rising order, and T under it; reserved words and spare bits are 0. A flag says no more than that a letter
 * is ambiguous: R, Y and the like become N in the file.
 *
 * A file is read in either order of bytes. Sound is one whose header is right (16 bytes, the signature, the version),
 * whose entries end within the file, and whose records are sound: a record ends within the file, no N or mask block
 * ends beyond the record's characters, and no two N blocks share a character; they may touch, be empty and stand in any
 * order. Reserved words and spare bits may be anything, and records may lie anywhere.
 */

/* The bytes of the header and the index of count sequences, whose names have so many bytes in all. */
#define TSIV_TWOBIT_INDEX_ROOM(count, names) ((size_t)16 + (size_t)5 * (size_t)(count) + (size_t)(names))

/*
 * Begins a file of count sequences, whose names have so many bytes in all: writes the header, 16 bytes. *entry is 16,
 * *stop and *place TSIV_TWOBIT_INDEX_ROOM(count, names), *left count. BAD_RANGE for a count of 2^32 or more; NO_ROOM
 * for a buffer under TSIV_TWOBIT_INDEX_ROOM(count, names), in exact arithmetic. Refused, the state is 0 throughout.
 */
TSIV_USE uint32_t tsiv_twobit_start(size_t count, size_t names, uint8_t *out, size_t out_size, size_t *entry,
                                    size_t *stop, size_t *place, size_t *left) TSIV_GIVES(5, 6, 7, 8) TSIV_WRITES(3, 4);

/*
 * *size: the bytes of the record of a sequence with these flags: 16, 8 for each maximal run of set flags, and a byte
 * for every four characters begun. TOO_LONG; BAD_VIEW.
 */
TSIV_USE uint32_t tsiv_twobit_record_size(const uint8_t *flags, size_t flags_size, size_t flag_offset, size_t flag_len,
                                          size_t *size) TSIV_GIVES(5) TSIV_READS(1, 2);

/*
 * Adds a sequence, a view of bases and a view of flags: writes its entry at *entry, its record at *place, and brings
 * the state up to date; every other byte stays. TOO_LONG, BAD_VIEW; BAD_RANGE for unequal lengths, a name over 255
 * bytes, no sequence left, an entry that would end beyond stop, stop above *place, or *place of 2^32 or more; NO_ROOM
 * for a buffer under *place and the bytes that tsiv_twobit_record_size tells. Refused, the state stays what it was.
 */
TSIV_USE uint32_t tsiv_twobit_add(size_t *entry, size_t stop, size_t *place, size_t *left, const uint8_t *name,
                                  size_t name_size, const uint8_t *bases, size_t bases_size, size_t base_offset,
                                  size_t base_len, const uint8_t *flags, size_t flags_size, size_t flag_offset,
                                  size_t flag_len, uint8_t *out, size_t out_size) TSIV_GIVES(1, 3, 4) TSIV_READS(5, 6)
    TSIV_READS(7, 8) TSIV_READS(11, 12) TSIV_WRITES(15, 16);

/*
 * *size: the bytes of the file, place. BAD_RANGE where sequences are left, entry is not stop, stop is below 16, or stop
 * is above place: no file is finished from the state of a refused start.
 */
TSIV_USE uint32_t tsiv_twobit_finish(size_t entry, size_t stop, size_t place, size_t left, size_t *size) TSIV_GIVES(5);

/*
 * *count: the number of sequences. BAD_FORM for a file that is not sound. The n N blocks of a record take one pass
 * where they rise, or fall; in no order they take up to n (n - 1) / 2 comparisons, for each entry that names the record
 * and does not follow one that does: bound the size of files that come from strangers.
 */
TSIV_USE uint32_t tsiv_twobit_check(const uint8_t *file, size_t file_size, size_t *count) TSIV_GIVES(3)
    TSIV_READS(1, 2);

/*
 * The cursor of the first entry: *number 0, *at 16. BAD_FORM for a header that is not right; of the rest nothing is
 * looked at.
 */
TSIV_USE uint32_t tsiv_twobit_first(const uint8_t *file, size_t file_size, size_t *number, size_t *at) TSIV_GIVES(3, 4)
    TSIV_READS(1, 2);

/*
 * The entry at a cursor, the number of the entry and the byte where it stands: its name is the *name_size bytes from
 * file[*name] on, its record stands at *offset; and the cursor of the next entry. BAD_FORM for a header that is not
 * right; then BAD_RANGE for a number not below that of the sequences; then BAD_FORM for an entry that does not end
 * within the file, or an offset not below file_size. Refused, the cursor is 0 too.
 */
TSIV_USE uint32_t tsiv_twobit_entry(const uint8_t *file, size_t file_size, size_t *number, size_t *at, size_t *name,
                                    size_t *name_size, size_t *offset) TSIV_GIVES(3, 4, 5, 6, 7) TSIV_READS(1, 2);

/*
 * What the record at an offset says of itself, so that room can be made for it: *len, its characters; *blocks and
 * *masks, the numbers of its N blocks and of its mask blocks. BAD_FORM for a header that is not right or a record that
 * is not sound. N blocks are compared as in tsiv_twobit_check, once.
 */
TSIV_USE uint32_t tsiv_twobit_record_info(const uint8_t *file, size_t file_size, size_t offset, size_t *len,
                                          size_t *blocks, size_t *masks) TSIV_GIVES(4, 5, 6) TSIV_READS(1, 2);

/*
 * The record at an offset: fills two buffers as stores of *len characters, code 3 and a set flag for a character of an
 * N block, else its base and a clear flag; later bytes stay. *masks: the number of mask blocks. TOO_LONG for a buffer;
 * BAD_FORM for a header that is not right or a record that is not sound; NO_ROOM for buffers under TSIV_BASES_ROOM and
 * TSIV_FLAGS_ROOM of the length that tsiv_twobit_record_info tells. N blocks are compared as there.
 */
TSIV_USE uint32_t tsiv_twobit_record(const uint8_t *file, size_t file_size, size_t offset, uint8_t *bases,
                                     size_t bases_size, uint8_t *flags, size_t flags_size, size_t *len, size_t *masks)
    TSIV_GIVES(8, 9) TSIV_READS(1, 2) TSIV_WRITES(4, 5) TSIV_WRITES(6, 7);

#ifdef __cplusplus
}
#endif

#endif
