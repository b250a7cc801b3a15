/*
 * Calls that are wrong on purpose, each over the right one (the linker's --wrap): tests/run-fuzz, tests/run-form, tests/run-counts,
 * tests/run-twobit and tests/run-windows link one at a time, and must find it.
 */
#include <tsivelaro.h>

#define REAL(name) __real_tsiv_##name
#define WRONG(name) __wrap_tsiv_##name
#define OVER(name, ...)                                                                                                \
    uint32_t REAL(name)(__VA_ARGS__);                                                                                  \
    uint32_t WRONG(name)(__VA_ARGS__);                                                                                 \
    uint32_t WRONG(name)(__VA_ARGS__)

static volatile uint8_t seen;

#if defined READS_BEHIND
OVER(bases_as_u64, const uint8_t *bytes, size_t size, size_t offset, size_t len, uint64_t *word)
{
    seen = bytes[size];
    return REAL(bases_as_u64)(bytes, size, offset, len, word);
}
#elif defined READS_BEFORE
OVER(bases_as_u64, const uint8_t *bytes, size_t size, size_t offset, size_t len, uint64_t *word)
{
    seen = bytes[-1];
    return REAL(bases_as_u64)(bytes, size, offset, len, word);
}
#elif defined WRITES_BEHIND
OVER(bases_to_revcomp, const uint8_t *bytes, size_t size, size_t offset, size_t len, uint8_t *out, size_t out_size)
{
    seen = bytes[0];
    out[out_size] = seen;
    return REAL(bases_to_revcomp)(bytes, size, offset, len, out, out_size);
}
#elif defined WRITES_INPUT
/* The same byte again: only a page that cannot be written tells. */
OVER(flags_compare, const uint8_t *a, size_t a_size, size_t ao, size_t al, const uint8_t *b, size_t b_size, size_t bo,
     size_t bl, int32_t *order, size_t *common)
{
    if (b_size) {
        seen = b[0];
        *(volatile uint8_t *)b = seen;
    }
    return REAL(flags_compare)(a, a_size, ao, al, b, b_size, bo, bl, order, common);
}
#elif defined EQUAL_WHERE_ONE_ENDS
OVER(bases_compare, const uint8_t *a, size_t a_size, size_t ao, size_t al, const uint8_t *b, size_t b_size, size_t bo,
     size_t bl, int32_t *order, size_t *common)
{
    uint32_t no = REAL(bases_compare)(a, a_size, ao, al, b, b_size, bo, bl, order, common);
    if (no == 0 && (*common == al || *common == bl))
        *order = 0;
    return no;
}
#elif defined WIDE_NUMBER
/* Two bytes where one is lent. */
OVER(flags_get, const uint8_t *bytes, size_t size, size_t offset, size_t len, size_t i, uint8_t *code)
{
    uint32_t no = REAL(flags_get)(bytes, size, offset, len, i, code);
    code[1] = 0;
    return no;
}
#elif defined WRITES_OUTSIDE_THE_RUN
OVER(bases_cut, uint8_t *buffer, size_t size, size_t *len, size_t m)
{
    uint32_t no = REAL(bases_cut)(buffer, size, len, m);
    if (no && size)
        buffer[size - 1] ^= 1;
    return no;
}
#elif defined READS_BACK_OTHERWISE
OVER(form_read, const uint8_t *form, size_t size, uint8_t *bases, size_t bases_size, uint8_t *flags, size_t flags_size,
     size_t *len)
{
    uint32_t no = REAL(form_read)(form, size, bases, bases_size, flags, flags_size, len);
    if (!no && *len)
        flags[0] ^= 1;
    return no;
}
#elif defined READS_SHORTER
OVER(form_read, const uint8_t *form, size_t size, uint8_t *bases, size_t bases_size, uint8_t *flags, size_t flags_size,
     size_t *len)
{
    uint32_t no = REAL(form_read)(form, size, bases, bases_size, flags, flags_size, len);
    if (!no && *len)
        --*len;
    return no;
}
#elif defined TAKES_ANY_FORM
OVER(form_read, const uint8_t *form, size_t size, uint8_t *bases, size_t bases_size, uint8_t *flags, size_t flags_size,
     size_t *len)
{
    uint32_t no = REAL(form_read)(form, size, bases, bases_size, flags, flags_size, len);
    return no == TSIV_BAD_FORM ? 0 : no;
}
#elif defined WRITES_OTHERWISE
OVER(form_write, const uint8_t *bases, size_t bases_size, size_t base_offset, size_t base_len, const uint8_t *flags,
     size_t flags_size, size_t flag_offset, size_t flag_len, uint8_t *out, size_t out_size, size_t *written)
{
    uint32_t no = REAL(form_write)(bases, bases_size, base_offset, base_len, flags, flags_size, flag_offset, flag_len,
                                   out, out_size, written);
    if (!no && base_len)
        out[*written - 1] ^= 1;
    return no;
}
#elif defined KEEPS_THE_OLD_BLOCK
/* The block in which the old length ends is not counted again. */
OVER(flags_push_ascii_counted, uint8_t *buffer, size_t size, size_t *len, uint16_t *entries, size_t entries_size,
     const uint8_t *letters, size_t letters_size, size_t *start, size_t *end)
{
    size_t b = *len / 256, kept = *len % 256 && b < entries_size ? entries[b] : 65536;
    uint32_t no =
        REAL(flags_push_ascii_counted)(buffer, size, len, entries, entries_size, letters, letters_size, start, end);
    if (kept < 65536)
        entries[b] = (uint16_t)kept;
    return no;
}
#elif defined FLAGS_U
/* U is ambiguous. */
OVER(flags_push_ascii_counted, uint8_t *buffer, size_t size, size_t *len, uint16_t *entries, size_t entries_size,
     const uint8_t *letters, size_t letters_size, size_t *start, size_t *end)
{
    static uint8_t other[2048];
    const uint8_t *given = letters_size <= sizeof other ? other : letters;
    for (size_t i = 0; given == other && i < letters_size; i++)
        other[i] = letters[i] == 'U' ? 'N' : letters[i];
    return REAL(flags_push_ascii_counted)(buffer, size, len, entries, entries_size, given, letters_size, start, end);
}
#elif defined WANTS_ONE_MORE
OVER(flags_push_ascii_counted, uint8_t *buffer, size_t size, size_t *len, uint16_t *entries, size_t entries_size,
     const uint8_t *letters, size_t letters_size, size_t *start, size_t *end)
{
    size_t few =
        entries_size && entries_size == TSIV_COUNTS_ROOM(*len + letters_size) ? entries_size - 1 : entries_size;
    return REAL(flags_push_ascii_counted)(buffer, size, len, entries, few, letters, letters_size, start, end);
}
#elif defined COUNTS_REFUSED
OVER(flags_overwrite_counted, uint8_t *buffer, size_t size, size_t *len, uint16_t *entries, size_t entries_size,
     size_t start, const uint8_t *letters, size_t letters_size)
{
    uint32_t no = REAL(flags_overwrite_counted)(buffer, size, len, entries, entries_size, start, letters, letters_size);
    if (no && entries_size)
        entries[0] = 0;
    return no;
}
#elif defined ZEROES_BEHIND
OVER(flags_cut_counted, uint8_t *buffer, size_t size, size_t *len, uint16_t *entries, size_t entries_size, size_t m)
{
    uint32_t no = REAL(flags_cut_counted)(buffer, size, len, entries, entries_size, m);
    for (size_t b = TSIV_COUNTS_ROOM(*len); !no && b < entries_size; b++)
        entries[b] = 0;
    return no;
}
#elif defined MENDS_UNTOUCHED || defined TRUSTS_THE_LAST
/* The set flags of the partial block in which a length ends. */
static uint64_t partial(const uint8_t *buffer, size_t len)
{
    uint64_t total = 0;
    for (size_t i = len / 256 * 256; i < len; i++)
        total += buffer[i / 8] >> i % 8 & 1;
    return total;
}
#if defined MENDS_UNTOUCHED
/* A cut to the length itself counts its last block. */
OVER(flags_cut_counted, uint8_t *buffer, size_t size, size_t *len, uint16_t *entries, size_t entries_size, size_t m)
{
    uint32_t no = REAL(flags_cut_counted)(buffer, size, len, entries, entries_size, m);
    if (!no && m % 256)
        entries[m / 256] = (uint16_t)partial(buffer, m);
    return no;
}
#else
/* The entry of the partial last block counts where a range reaches the end. */
OVER(flags_count, const uint8_t *buffer, size_t size, size_t len, const uint16_t *entries, size_t entries_size,
     size_t start, size_t end, uint64_t *total)
{
    uint32_t no = REAL(flags_count)(buffer, size, len, entries, entries_size, start, end, total);
    if (!no && end == len && len % 256 && start <= len / 256 * 256)
        *total += entries[len / 256] - partial(buffer, len);
    return no;
}
#endif
#elif defined TAKES_A_CONTEXT_BELOW_K || defined WANTS_A_SKIP_OF_K || defined PARTIAL_WITH_NO_STEPS ||                 \
    defined PARTIAL_BEFORE_BAD_STREAM || defined NO_ROOM_BEFORE_PARTIAL
OVER(flags_fill_windows, const uint8_t *bytes, size_t size, size_t offset, size_t len, size_t context, size_t k,
     size_t skip, uint32_t *out, size_t out_size, size_t *steps, size_t *padding)
{
    size_t lane, all, behind;
    uint32_t no = REAL(flags_fill_windows)(bytes, size, offset, len, context, k, skip, out, out_size, steps, padding);
    if (no == TSIV_BAD_VIEW || k < 1 || k > 96 || tsiv_flags_shape(len, context, 1, &lane, &all, &behind) != TSIV_DONE)
        return no;
#if defined TAKES_A_CONTEXT_BELOW_K
    return no == TSIV_PARTIAL && skip >= k - 1 ? TSIV_DONE : no;
#elif defined WANTS_A_SKIP_OF_K
    return no == TSIV_DONE && all && skip < k ? TSIV_PARTIAL : no;
#elif defined PARTIAL_WITH_NO_STEPS
    return no == TSIV_DONE && !all && skip < k - 1 ? TSIV_PARTIAL : no;
#elif defined PARTIAL_BEFORE_BAD_STREAM
    return no == TSIV_BAD_STREAM && all && context < k ? TSIV_PARTIAL : no;
#else
    return no == TSIV_PARTIAL && out_size < TSIV_LANES_ROOM(all - skip) ? TSIV_NO_ROOM : no;
#endif
}
#elif defined SPLITS_AT_A_BYTE
/* A run of set flags ends with each byte of characters. */
OVER(twobit_record_size, const uint8_t *flags, size_t flags_size, size_t flag_offset, size_t flag_len, size_t *size)
{
    uint32_t no = REAL(twobit_record_size)(flags, flags_size, flag_offset, flag_len, size);
    for (size_t i = flag_offset + 8; !no && i < flag_offset + flag_len; i += 8)
        if (flags[(i - 1) / 8] >> (i - 1) % 8 & flags[i / 8] >> i % 8 & 1)
            *size += 8;
    return no;
}
#elif defined LOWEST_BITS_FIRST || defined SETS_SPARE_BITS || defined LOSES_THE_STATE || defined WRITES_A_UNDER_N
OVER(twobit_add, size_t *entry, size_t stop, size_t *place, size_t *left, const uint8_t *name, size_t name_size,
     const uint8_t *bases, size_t bases_size, size_t base_offset, size_t base_len, const uint8_t *flags,
     size_t flags_size, size_t flag_offset, size_t flag_len, uint8_t *out, size_t out_size)
{
    uint32_t no = REAL(twobit_add)(entry, stop, place, left, name, name_size, bases, bases_size, base_offset, base_len,
                                   flags, flags_size, flag_offset, flag_len, out, out_size);
    size_t packed = base_len / 4 + (base_len % 4 != 0);
#if defined LOWEST_BITS_FIRST
    for (size_t i = *place - packed; !no && i < *place; i++)
        out[i] = (uint8_t)(out[i] << 6 | (out[i] << 2 & 0x30) | (out[i] >> 2 & 0x0C) | out[i] >> 6);
#elif defined SETS_SPARE_BITS
    if (!no && base_len % 4)
        out[*place - 1] |= 1;
    seen = (uint8_t)packed;
#elif defined LOSES_THE_STATE
    if (no)
        *left = 0;
    seen = (uint8_t)packed;
#else
    /* A where a flag is set. */
    for (size_t i = 0; !no && i < base_len; i++)
        if (flags[(flag_offset + i) / 8] >> (flag_offset + i) % 8 & 1)
            out[*place - packed + i / 4] |= (uint8_t)(0x80 >> i % 4 * 2);
#endif
    return no;
}
#elif defined TAKES_ANY_FILE
OVER(twobit_check, const uint8_t *file, size_t file_size, size_t *count)
{
    uint32_t no = REAL(twobit_check)(file, file_size, count);
    return no && file_size >= 16 && (file[0] == 0x43 || file[3] == 0x43) ? 0 : no;
}
#elif defined OFFSETS_ALWAYS_LITTLE || defined OFFSET_AT_THE_END
OVER(twobit_entry, const uint8_t *file, size_t file_size, size_t *number, size_t *at, size_t *name, size_t *name_len,
     size_t *offset)
{
    size_t n = *number, from = *at;
    uint32_t no = REAL(twobit_entry)(file, file_size, number, at, name, name_len, offset);
    size_t end = no ? from + 1 : *name + *name_len;
    if (no == TSIV_BAD_FORM && file_size > from)
        end += file[from];
    if (no == TSIV_BAD_RANGE || end < from || end > file_size || file_size - end < 4 || file[0] == (no ? 0x1A : 0x43))
        return no;
    size_t little = file[end] | (size_t)file[end + 1] << 8 | (size_t)file[end + 2] << 16 | (size_t)file[end + 3] << 24;
#if defined OFFSETS_ALWAYS_LITTLE
    if (!no)
        *offset = little;
    seen = (uint8_t)n;
#else
    if (no && little == file_size) {
        *number = n + 1, *at = end + 4, *name = from + 1, *name_len = file[from], *offset = little;
        return 0;
    }
#endif
    return no;
}
#elif defined FINISHES_WITHIN_THE_HEADER
OVER(twobit_finish, size_t entry, size_t stop, size_t place, size_t left, size_t *size)
{
    uint32_t no = REAL(twobit_finish)(entry, stop, place, left, size);
    if (left || entry != stop || stop > place)
        return no;
    *size = place;
    return 0;
}
#elif defined EXCHANGES_THE_TABLES || defined TELLS_OF_ANY_RECORD || defined TELLS_OF_ANY_VERSION
OVER(twobit_record_info, const uint8_t *file, size_t file_size, size_t offset, size_t *len, size_t *blocks,
     size_t *masks)
{
    uint32_t no = REAL(twobit_record_info)(file, file_size, offset, len, blocks, masks);
#if defined EXCHANGES_THE_TABLES
    /* The number of N blocks for that of mask blocks. */
    size_t n = *blocks;
    *blocks = *masks, *masks = n;
    return no;
#elif defined TELLS_OF_ANY_RECORD
    return file_size >= 16 && offset < file_size && file[0] == 0x43 && file[4] == 0 ? 0 : no;
#else
    static uint8_t other[1024];
    if (!no || offset < 16 || file_size > sizeof other)
        return no;
    for (size_t i = 0; i < file_size; i++)
        other[i] = 4 <= i && i < 8 ? 0 : file[i];
    return REAL(twobit_record_info)(other, file_size, offset, len, blocks, masks);
#endif
}
#elif defined NO_ZEROS_BEHIND || defined COUNTS_NO_MASKS || defined READS_T_UNDER_N || defined READS_OTHER_FLAGS
OVER(twobit_record, const uint8_t *file, size_t file_size, size_t offset, uint8_t *bases, size_t bases_size,
     uint8_t *flags, size_t flags_size, size_t *len, size_t *masks)
{
#if defined NO_ZEROS_BEHIND
    /* The byte behind the last flag stays what it was. */
    uint8_t kept[4096];
    for (size_t i = 0; i < flags_size && i < sizeof kept; i++)
        kept[i] = flags[i];
#endif
    uint32_t no = REAL(twobit_record)(file, file_size, offset, bases, bases_size, flags, flags_size, len, masks);
#if defined NO_ZEROS_BEHIND
    if (!no && *len / 8 + 1 < sizeof kept)
        flags[(*len + 7) / 8] = kept[(*len + 7) / 8];
#elif defined COUNTS_NO_MASKS
    *masks = 0;
#elif defined READS_OTHER_FLAGS
    if (!no && *len)
        flags[0] ^= 1;
#else
    for (size_t i = 0; !no && i < *len; i++)
        if (flags[i / 8] >> i % 8 & 1)
            bases[i / 4] = (uint8_t)(bases[i / 4] ^ 1 << i % 4 * 2);
#endif
    return no;
}
#endif
