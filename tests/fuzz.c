/*
 * Random numbers and buffers for every call of the C face. All that a call is lent, numbers behind pointers too, lies in a page of its own
 * between two pages that cannot be touched, at the page's start or at its end by chance, so that a byte read or written outside is a
 * fault; what is only read lies in a page that can only be read. After each turn every byte around is as it was; a buffer that is
 * written changed only in the run of bytes that the rules name; a refused call changed no byte and gave zeros, and a store its old
 * length. A stored form that was written is read back and compared, and one that was read is written again. A .2bit file that was written is
 * read back, in either order of bytes, as it is or damaged.
 *
 * With the word `exact` all that is lent is allocated to the byte instead, for a checker that watches allocations.
 *
 *     fuzz TURNS SEED [exact]
 *
 * Ends with 0 where all is well, with 1 where a check failed, with 3 at a fault.
 */
#define _DEFAULT_SOURCE
#include <signal.h>
#include <stdio.h>
#include <stdlib.h>
#include <string.h>
#include <sys/mman.h>
#include <tsivelaro.h>
#include <unistd.h>

static uint64_t state;
static bool exact;

static uint64_t dice(void)
{
    state ^= state << 13;
    state ^= state >> 7;
    state ^= state << 17;
    return state;
}

/* 0 where n is 0. */
static size_t below(size_t n) { return n ? (size_t)(dice() >> 11) % n : 0; }

/* Small numbers mostly, then those around a size, then the largest ones. */
static size_t number(size_t near)
{
    switch (below(16)) {
    case 0: return 0;
    case 1: return near;
    case 2: return near + 1;
    case 3: return near ? near - 1 : 0;
    case 4: return SIZE_MAX - below(9);
    case 5: return ((size_t)1 << (28 + below(8))) - 4 + below(9);
    case 6: return (size_t)dice();
    default: return below(near + 2);
    }
}

static const char *asked = "nothing";
static unsigned long failures, turn;

static void fail(const char *what)
{
    if (failures++ < 20)
        printf("fuzz: turn %lu, %s: %s\n", turn, asked, what);
}

static void fault(int number)
{
    printf("fuzz: turn %lu, %s: signal %d: a byte was touched that was not lent, or only to be read\n", turn, asked,
           number);
    fflush(stdout);
    _exit(3);
}

/* What is lent in a turn. Its bytes from `from` up to `to` may change. */
#define MOST 32
static struct buffer {
    uint8_t *page, *before, *bytes;
    size_t size, from, to;
    bool only_read;
} lent[MOST];
static size_t page, taken, ready;

static void pages(void)
{
    page = (size_t)sysconf(_SC_PAGESIZE);
    for (size_t i = 0; i < MOST; i++) {
        uint8_t *at = mmap(NULL, 3 * page, PROT_NONE, MAP_PRIVATE | MAP_ANONYMOUS, -1, 0);
        lent[i].before = malloc(page);
        if (at == MAP_FAILED || mprotect(at + page, page, PROT_READ | PROT_WRITE) || !lent[i].before)
            abort();
        lent[i].page = at + page;
    }
}

static struct buffer *place(size_t size)
{
    struct buffer *b = &lent[taken];
    if (taken++ == MOST || size > page)
        abort();
    b->bytes = exact ? malloc(size) : below(2) ? b->page : b->page + (page - size);
    b->size = size;
    b->from = b->to = 0;
    b->only_read = false;
    return b;
}

/* A buffer of any bytes, not one of which may change unless it is said after the call. */
static struct buffer *make(size_t size)
{
    struct buffer *b = place(size);
    for (size_t i = 0; i < size; i++)
        b->bytes[i] = below(3) ? (uint8_t)dice() : "ACGTUNacgtun>\n"[below(14)];
    return b;
}

/* One that can only be read from the next call on. */
static struct buffer *input(size_t size)
{
    struct buffer *b = make(size);
    b->only_read = true;
    return b;
}

/* Numbers for a call to write: sevens before. */
static void *cell(size_t size)
{
    struct buffer *b = place(size);
    memset(b->bytes, 7, size);
    b->to = size;
    return b->bytes;
}
#define CELL(type) ((type *)cell(sizeof(type)))

static uint8_t *whole(struct buffer *b) { return exact ? b->bytes : b->page; }
static size_t whole_size(struct buffer *b) { return exact ? b->size : page; }

/* Before a call: what was made since the last one is kept in mind. */
static void lend(void)
{
    for (; ready < taken; ready++) {
        struct buffer *b = &lent[ready];
        memcpy(b->before, whole(b), whole_size(b));
        if (!exact && b->only_read && mprotect(b->page, page, PROT_READ))
            abort();
    }
}

/* The bytes of a buffer that the calls of this turn may have changed. */
static void changed(struct buffer *b, size_t from, size_t to)
{
    b->from = from < to ? from : to;
    b->to = to;
}

/* After the last call of a turn: all else is as it was. */
static void settle(void)
{
    for (size_t i = 0; i < taken; i++) {
        struct buffer *b = &lent[i];
        uint8_t *now = whole(b);
        size_t at = (size_t)(b->bytes - now), from = at + b->from, to = at + b->to;
        if (b->to > b->size)
            fail("a run beyond its buffer");
        else if (memcmp(now, b->before, from) || memcmp(now + to, b->before + to, whole_size(b) - to))
            fail("a byte changed that had to stay");
        if (exact)
            free(b->bytes);
        else if (b->only_read && mprotect(b->page, page, PROT_READ | PROT_WRITE))
            abort();
    }
    taken = ready = 0;
}

#define CALLS 96
static struct {
    const char *name;
    unsigned long done, refused;
} counted[CALLS];

static uint32_t count(uint32_t no)
{
    int i = 0;
    if (no > TSIV_PARTIAL || (no == TSIV_PARTIAL && strcmp(asked, "flags_fill_windows")))
        fail("no such number");
    while (counted[i].name && strcmp(counted[i].name, asked))
        i++;
    counted[i].name = asked;
    if (no)
        counted[i].refused++;
    else
        counted[i].done++;
    return no;
}

static void zero(uint32_t no, uint64_t sum)
{
    if (no && sum)
        fail("a number beside a refusal is not 0");
}

/* Asks a call, whose answer goes to `no`; and holds that beside a refusal a sum of its numbers is 0. */
#define ZERO(call, sum) ((void)(call), zero(no, sum))
#define ASK(name, ...) (asked = #name, lend(), no = tsiv_##name(__VA_ARGS__), count(no))
#define BOTH(name, ...) (w == 2 ? ASK(bases_##name, __VA_ARGS__) : ASK(flags_##name, __VA_ARGS__))

/* ceil(n / C8) */
static size_t up(size_t w, size_t n)
{
    size_t c = 8 / w;
    return n / c + (n % c != 0);
}

static unsigned character(size_t w, const uint8_t *bytes, size_t i)
{
    return (unsigned)(bytes[i * w / 8] >> i * w % 8) & ((1u << w) - 1);
}

/* Whether a store of n characters ends as it must: zeros in the last byte, then 48 bytes of them. */
static bool ended(size_t w, const uint8_t *store, size_t n)
{
    for (size_t i = n; i < (up(w, n) + 48) * (8 / w); i++)
        if (character(w, store, i))
            return false;
    return true;
}

static void letters_and_words(void)
{
    uint8_t *x = CELL(uint8_t), byte = (uint8_t)dice();
    uint64_t *low = CELL(uint64_t), *high = CELL(uint64_t), a = dice(), b = dice();
    uint32_t no;
    size_t k = number(64);
    struct buffer *l = input(below(70)), *out = make(below(70));
    switch (below(12)) {
    case 0: ZERO(ASK(pack_char, byte, x), *x); break;
    case 1: ZERO(ASK(unpack_base, byte % 8, x), *x); break;
    case 2: ZERO(ASK(complement_char, byte, x), *x); break;
    case 3: ZERO(ASK(complement_base, byte % 8, x), *x); break;
    case 4: ZERO(ASK(pack_kmer_lossy, l->bytes, l->size, low), *low); break;
    case 5: ZERO(ASK(pack_kmer_u128_lossy, l->bytes, l->size, low, high), *low | *high); break;
    case 6:
        ASK(unpack_kmer, a, k, out->bytes, out->size);
        changed(out, 0, no ? 0 : k);
        break;
    case 7:
        ASK(unpack_kmer_u128, a, b, k, out->bytes, out->size);
        changed(out, 0, no ? 0 : k);
        break;
    case 8: ZERO(ASK(revcomp_u64, a, k, low), *low); break;
    case 9: ZERO(ASK(revcomp_u128, a, b, k, low, high), *low | *high); break;
    case 10: ZERO(ASK(rev_u64, a, k, low), *low); break;
    default: ZERO(ASK(rev_u128, a, b, k, low, high), *low | *high); break;
    }
}

/* A view that is accepted, more often than not. */
static void view(size_t w, size_t size, size_t *offset, size_t *len)
{
    size_t room = size < 48 ? 0 : (size - 48) * (8 / w);
    *offset = below(3) ? below(room + 1) : number(room);
    *len = below(3) && *offset <= room ? below(room - *offset + 1) : number(room);
    if (below(4) == 0 && *offset <= room && room - *offset > 33)
        *len = below(34);
}

static void one_view(size_t w)
{
    struct buffer *v = input(below(180)), *out = make(below(180));
    size_t o, n, *a = CELL(size_t), *b = CELL(size_t), *c = CELL(size_t), *d = CELL(size_t);
    uint8_t *x = CELL(uint8_t);
    uint64_t *low = CELL(uint64_t), *high = CELL(uint64_t);
    uint32_t no;
    view(w, v->size, &o, &n);
    size_t e = below(3) ? below(n + 1) : number(n), s = below(3) ? below(e + 1) : number(n);
    size_t i = below(3) ? below(e - s) : number(n);
#define VIEW v->bytes, v->size, o, n
    switch (below(11)) {
    case 0: ZERO(BOTH(get, VIEW, i, x), *x); break;
    case 1: ZERO(BOTH(get_sliced, VIEW, s, e, i, x), *x); break;
    case 2: ZERO(BOTH(view, VIEW, a, b, c, d), *a | *b | *c | *d); break;
    case 3: ZERO(BOTH(slice, VIEW, s, e, a, b, c, d), *a | *b | *c | *d); break;
    case 4:
        ZERO(BOTH(normalise, VIEW, a, b, c, d), *a | *b | *c | *d);
        if (*a > v->size || *b > v->size - *a)
            fail("a part outside the bytes");
        break;
    case 5: ZERO(BOTH(as_u64, VIEW, low), *low); break;
    case 6: ZERO(BOTH(as_u128, VIEW, low, high), *low | *high); break;
    case 7: ZERO(BOTH(revcomp_as_u64, VIEW, low), *low); break;
    case 8: ZERO(BOTH(revcomp_as_u128, VIEW, low, high), *low | *high); break;
    case 9:
        if (BOTH(to_revcomp, VIEW, out->bytes, out->size) == 0) {
            changed(out, 0, up(w, n) + 48);
            if (!ended(w, out->bytes, n))
                fail("the 48 zeros");
        }
        break;
    default:
        if (ASK(bases_unpack, VIEW, out->bytes, out->size) == 0)
            changed(out, 0, n);
    }
}

static void two_views(size_t w)
{
    struct buffer *p = input(below(120)), *q = below(4) ? input(below(2) ? p->size : below(120)) : p;
    size_t o, n, r, m, *a = CELL(size_t), *b = CELL(size_t), *c = CELL(size_t), *d = CELL(size_t);
    bool *flag = CELL(bool);
    int32_t *order = CELL(int32_t);
    uint32_t no;
    if (q != p && q->size == p->size && below(2))
        memcpy(q->bytes, p->bytes, p->size);
    view(w, p->size, &o, &n);
    view(w, q->size, &r, &m);
    if (below(3) == 0)
        n = below(4);
#define PAIR p->bytes, p->size, o, n, q->bytes, q->size, r, m
    switch (below(3)) {
    case 0:
        ZERO(BOTH(compare, PAIR, order, a), (uint64_t)*order | *a);
        if (no == 0 && (*order == 0) != (*a == n && *a == m))
            fail("order 0 is not the same characters");
        break;
    case 1: ZERO(BOTH(find, PAIR, flag, a), *flag | *a); break;
    default: ZERO(BOTH(least, PAIR, flag, a, b, c, d), *flag | *a | *b | *c | *d);
    }
    if (*order < -1 || (*order > 1 && *order != 0x07070707))
        fail("no such order");
}

static void stores(size_t w)
{
    struct buffer *s = make(below(160)), *v = input(below(120));
    size_t room = s->size < 48 ? 0 : (s->size - 48) * (8 / w), c8 = 8 / w;
    size_t *len = CELL(size_t), *a = CELL(size_t), *b = CELL(size_t), o, n, from = 0, to = 0;
    *len = below(4) ? below(room + 1) : number(room);
    uint32_t no;
    bool ends = true;
    view(w, v->size, &o, &n);
    size_t old = *len, m = number(old);
#define STORE s->bytes, s->size, len
    switch (below(5)) {
    case 0:
        BOTH(clear, STORE);
        if (*len)
            fail("a cleared store has a length");
        to = no ? 0 : 48;
        old = 0;
        break;
    case 1:
        ZERO(BOTH(push_ascii, STORE, v->bytes, v->size % 40, a, b), *a | *b);
        if (!no && (*a != old || *b != *len || *len != old + v->size % 40))
            fail("the span of a push");
        from = old / c8;
        to = no || v->size % 40 == 0 ? 0 : up(w, *len) + 48;
        break;
    case 2:
        ZERO(BOTH(push_seq, STORE, VIEW, a, b), *a | *b);
        if (!no && (*a != up(w, old) * c8 + o % c8 || *b != *a + n || *len != *b))
            fail("the span of a push");
        from = old / c8;
        to = no ? 0 : up(w, *len) + 48;
        break;
    case 3:
        BOTH(overwrite, STORE, m, v->bytes, v->size % 20);
        from = m / c8;
        to = no || v->size % 20 == 0 ? 0 : up(w, m + v->size % 20);
        ends = false;
        if (*len != old)
            fail("overwriting moved the length");
        break;
    default:
        BOTH(cut, STORE, m);
        from = m / c8;
        to = no ? 0 : up(w, m) + 48;
        if (!no && *len != m)
            fail("the length of a cut");
    }
    if (no && *len != old)
        fail("a refused call moved the length");
    if (ends && to && !ended(w, s->bytes, *len))
        fail("the 48 zeros");
    changed(s, from, to);
}

/* The set flags from one character up to another, flag by flag. */
static uint64_t set(const struct buffer *s, size_t from, size_t to)
{
    uint64_t total = 0;
    for (size_t i = from; i < to; i++)
        total += character(1, s->bytes, i);
    return total;
}

static uint16_t *counts_of(struct buffer *b) { return (uint16_t *)(void *)b->bytes; }

/* Stores of flags with their counts: entries of the blocks of the new length that have a touched character are counted, all others stay. */
static void counts(void)
{
    struct buffer *s = make(below(8) ? 48 + below(140) : below(60)), *e = make(2 * below(8)), *v = input(below(120)),
                  *l = input(below(3) ? below(300) : 0);
    size_t room = s->size < 48 ? 0 : (s->size - 48) * 8, few = e->size / 2;
    size_t *len = CELL(size_t), *a = CELL(size_t), *b = CELL(size_t), o, n, from = 0, to = 0, first, last = 0;
    uint64_t *total = CELL(uint64_t);
    uint32_t no;
    view(1, v->size, &o, &n);
    size_t old = *len = below(4) ? below(room + 1) : number(room), m = number(old), end = number(old);
    first = old;
#define COUNTED s->bytes, s->size, len, counts_of(e), few
    switch (below(6)) {
    case 0:
        ASK(flags_clear_counted, COUNTED);
        to = no ? 0 : 48;
        old = 0;
        break;
    case 1:
        ZERO(ASK(flags_push_ascii_counted, COUNTED, l->bytes, l->size, a, b), *a | *b);
        from = old / 8, to = no || !l->size ? 0 : up(1, *len) + 48;
        last = *len;
        break;
    case 2:
        ZERO(ASK(flags_push_seq_counted, COUNTED, VIEW, a, b), *a | *b);
        from = old / 8, to = no ? 0 : up(1, *len) + 48;
        last = *len;
        break;
    case 3:
        ASK(flags_overwrite_counted, COUNTED, m, l->bytes, l->size);
        from = m / 8, to = no || !l->size ? 0 : up(1, m + l->size);
        first = m, last = no ? 0 : m + l->size;
        break;
    case 4:
        ASK(flags_cut_counted, COUNTED, m);
        from = m / 8, to = no ? 0 : up(1, m) + 48;
        first = m, last = no ? 0 : old;
        break;
    default:
        ZERO(ASK(flags_count, s->bytes, s->size, *len, counts_of(e), few, m, end, total), *total);
        if (!no) {
            size_t whole = (m + 255) / 256, stop = end / 256;
            uint64_t sum = whole < stop ? set(s, m, 256 * whole) + set(s, 256 * stop, end) : set(s, m, end);
            for (; whole < stop; whole++)
                sum += counts_of(e)[whole];
            if (sum != *total)
                fail("a wrong count");
        }
    }
    if (no && *len != old)
        fail("a refused call moved the length");
    if (!no && few < TSIV_COUNTS_ROOM(*len))
        fail("done with too few entries");
    changed(s, from, to);
    if (no || first >= last)
        return;
    /* blocks of the new length that have a character from first up to last */
    size_t low = first / 256, high = TSIV_COUNTS_ROOM(last < *len ? last : *len);
    for (size_t i = low; i < high; i++)
        if (counts_of(e)[i] != set(s, 256 * i, 256 * i + 256 < *len ? 256 * i + 256 : *len))
            fail("an entry of a touched block is wrong");
    if (low < high)
        changed(e, 2 * low, 2 * high);
}

/* A buffer of entries, which lies on their alignment. */
static uint32_t *entries(struct buffer *b) { return (uint32_t *)(void *)b->bytes; }

static void streams(size_t w)
{
    struct buffer *v = input(below(120)), *x = make(4 * below(700)), *y = make(4 * below(700)),
                  *z = make(4 * below(700));
    size_t o, n, *steps = CELL(size_t), *padding = CELL(size_t), *lane = CELL(size_t), fx = 0, fy = 0, fz = 0;
    uint32_t no, *l = cell(32), *p = cell(32), *q = cell(32);
    view(w, v->size, &o, &n);
    size_t c = below(3) ? 1 + below(9) : number(n), f = below(8) ? 1 + below(2) : number(3), j = number(n / 8 + c);
    size_t d = below(4) ? below(12) : number(20), e = below(4) ? d + below(9) : number(20);
    size_t k = below(4) ? 1 + below(12) : number(96), skip = below(3) ? k - below(4) : number(20);
#define ENTRIES(b) entries(b), b->size / 4
#define LANES(t) (t[0] | t[1] | t[2] | t[3] | t[4] | t[5] | t[6] | t[7])
    switch (below(w == 1 ? 9 : 7)) {
    case 0: ZERO(BOTH(shape, n, c, f, lane, steps, padding), *lane | *steps | *padding); break;
    case 1:
        ZERO(BOTH(fill, VIEW, c, f, ENTRIES(x), steps, padding), *steps | *padding);
        fx = no ? 0 : 32 * *steps;
        break;
    case 2:
        ZERO(BOTH(fill_delayed, VIEW, c, f, d, ENTRIES(x), ENTRIES(y), steps, padding), *steps | *padding);
        fx = fy = no ? 0 : 32 * *steps;
        break;
    case 3:
        ZERO(BOTH(fill_delayed_2, VIEW, c, f, d, e, ENTRIES(x), ENTRIES(y), ENTRIES(z), steps, padding),
             *steps | *padding);
        fx = fy = fz = no ? 0 : 32 * *steps;
        break;
    case 4: ZERO(BOTH(step, VIEW, c, f, j, l), LANES(l)); break;
    case 5: ZERO(BOTH(step_delayed, VIEW, c, f, d, j, l, p), LANES(l) | LANES(p)); break;
    case 6: ZERO(BOTH(step_delayed_2, VIEW, c, f, d, e, j, l, p, q), LANES(l) | LANES(p) | LANES(q)); break;
    case 7:
        if (below(2))
            c = k + below(3);
        ZERO(ASK(flags_fill_windows, VIEW, c, k, skip, ENTRIES(x), steps, padding), *steps | *padding);
        fx = no ? 0 : 32 * *steps;
        if ((no >= TSIV_NO_ROOM || (!no && *steps + skip)) && (no == TSIV_PARTIAL) != (skip < k - 1 || c < k))
            fail("partial windows");
        break;
    default:
        for (int i = 0; i < 8; i++)
            p[i] = below(3) ? 0 : (uint32_t)number(k);
        *steps = j;
        ZERO(ASK(flags_step_windows, VIEW, c, k, p, steps, l), LANES(l) | LANES(p) | *steps);
        if (!no && *steps != j + 1)
            fail("the next step");
    }
    changed(x, 0, fx);
    changed(y, 0, fy);
    changed(z, 0, fz);
}

/* Whether a store holds the n characters of a track from an offset on, and ends as it must. */
static bool holds(size_t w, const struct buffer *store, const struct buffer *track, size_t offset, size_t n)
{
    for (size_t i = 0; i < n; i++)
        if (character(w, store->bytes, i) != character(w, track->bytes, offset + i))
            return false;
    return ended(w, store->bytes, n);
}

static void forms(void)
{
    struct buffer *b = input(below(140)), *f = input(below(140)), *out = make(below(200));
    size_t o, n, r, m, *len = CELL(size_t), *again = CELL(size_t);
    uint32_t no;
    view(2, b->size, &o, &n);
    view(1, f->size, &r, &m);
    if (below(4))
        m = n = n < m ? n : m;
    ASK(form_write, b->bytes, b->size, o, n, f->bytes, f->size, r, m, out->bytes, out->size, len);
    zero(no, *len);
    size_t size = *len;
    bool right = !no;
    if (right && size != TSIV_FORM_ROOM(n))
        fail("the size of a form");
    changed(out, 0, size);
    /* It is read back: as it is, or with a byte more or less, or with a bit turned. */
    size_t other = right ? size + (below(4) == 0) - (size && below(4) == 0) : below(40);
    struct buffer *form = input(other), *x = make(48 + below(120) - below(3)), *y = make(48 + below(80) - below(3));
    if (right)
        memcpy(form->bytes, out->bytes, size < other ? size : other);
    if (other && below(4) == 0)
        form->bytes[below(other)] ^= (uint8_t)(1 << below(8));
    right = right && size == other && memcmp(form->bytes, out->bytes, size) == 0;
    *len = 7;
    ASK(form_read, form->bytes, form->size, x->bytes, x->size, y->bytes, y->size, len);
    zero(no, *len);
    if (right && no != (x->size < up(2, n) + 48 || y->size < up(1, n) + 48 ? TSIV_NO_ROOM : TSIV_DONE))
        fail("a form that was written is not read");
    if (no)
        return;
    changed(x, 0, up(2, *len) + 48);
    changed(y, 0, up(1, *len) + 48);
    if (right && (*len != n || !holds(2, x, b, o, n) || !holds(1, y, f, r, n)))
        fail("a form reads back as other tracks");
    /* What was read is written as the same bytes. */
    size = *len;
    struct buffer *same = make(other);
    ASK(form_write, x->bytes, x->size, 0, size, y->bytes, y->size, 0, size, same->bytes, other, again);
    if (no || *again != other || memcmp(same->bytes, form->bytes, other))
        fail("a form that was read is written as another");
    changed(same, 0, other);
}

/* What a buffer held before a call; and that the call changed none of its bytes but those of two runs. */
static uint8_t kept[1024];

static void keep(const struct buffer *b)
{
    if (b->size > sizeof kept)
        abort();
    memcpy(kept, b->bytes, b->size);
}

static void stayed(const struct buffer *b, size_t from, size_t to, size_t again, size_t end)
{
    for (size_t i = 0; i < b->size; i++)
        if (b->bytes[i] != kept[i] && !(from <= i && i < to) && !(again <= i && i < end))
            fail("a byte changed outside the runs");
}

/* Four bytes of a .2bit file, in either order. */
static size_t word(const uint8_t *at, bool big)
{
    size_t n = 0;
    for (int i = 0; i < 4; i++)
        n |= (size_t)at[i] << 8 * (big ? 3 - i : i);
    return n;
}

static void swap(uint8_t *at)
{
    uint8_t a = at[0], b = at[1];
    at[0] = at[3], at[1] = at[2], at[2] = b, at[3] = a;
}

/* A file that the calls wrote, in the other order of bytes. */
static void turn_over(uint8_t *file)
{
    size_t count = word(file + 8, false), at = 16;
    for (size_t i = 0; i < 4; i++)
        swap(file + 4 * i);
    for (; count; count--) {
        at += 1 + file[at];
        uint8_t *record = file + word(file + at, false);
        size_t blocks = word(record + 4, false);
        for (size_t i = 0; i < 2 + 2 * blocks; i++)
            swap(record + 4 * i);
        swap(file + at);
        at += 4;
    }
}

/* Some bytes changed, dropped at the end, or made a small or a large number; whether anything was done. */
static bool damage(struct buffer *file)
{
    size_t times = below(2) ? 0 : 1 + below(3);
    bool done = false;
    for (; times && file->size; times--, done = true) {
        size_t at = below(2) ? below(file->size) : below(file->size < 40 ? file->size : 40);
        switch (below(4)) {
        case 0: file->bytes[at] ^= (uint8_t)(1 << below(8)); break;
        case 1: file->bytes[at] = (uint8_t)below(6); break;
        case 2: file->bytes[at] = 255; break;
        default:
            for (size_t i = at; i < at + 4 && i < file->size; i++)
                file->bytes[i] = (uint8_t)below(2);
        }
    }
    return done;
}

/* What a .2bit file is made of: views of the same two tracks, and the front of the same name. */
#define SEQUENCES 4
static struct {
    struct buffer *bases, *flags, *name;
    struct {
        size_t offset, len, flag_offset, name_len;
    } at[SEQUENCES];
    size_t many;
} given;

/* How many maximal runs of set flags a view of the flag track has. */
static size_t runs(size_t offset, size_t len)
{
    size_t many = 0;
    for (size_t i = offset; i < offset + len; i++)
        many += character(1, given.flags->bytes, i) && !(i > offset && character(1, given.flags->bytes, i - 1));
    return many;
}

/* A view that is accepted, nearly always. */
static void fair_view(size_t w, size_t size, size_t *offset, size_t *len)
{
    size_t room = size < 48 ? 0 : (size - 48) * (8 / w), tries = below(16) ? 9 : 1;
    do
        view(w, size, offset, len);
    while (--tries && (*offset > room || *len > room - *offset));
}

/* One sequence more, in the state behind these pointers; whether it was added. */
static bool add_to_twobit(struct buffer *out, size_t i, size_t *entry, size_t *stop, size_t *place, size_t *left)
{
    struct buffer *b = given.bases, *f = given.flags;
    size_t o, n, r, m, *size = CELL(size_t);
    uint32_t no;
    fair_view(2, b->size, &o, &n);
    fair_view(1, f->size, &r, &m);
    if (below(16))
        m = n = n < m ? n : m;
    given.at[i].offset = o, given.at[i].len = n, given.at[i].flag_offset = r;
    ASK(twobit_record_size, f->bytes, f->size, r, m, size);
    zero(no, *size);
    if (!no && *size != 16 + 8 * runs(r, m) + up(2, m))
        fail("the size of a record");
    size_t old = *entry, at = *place, more = *left, name = given.at[i].name_len;
    keep(out);
    ASK(twobit_add, entry, *stop, place, left, given.name->bytes, name, b->bytes, b->size, o, n, f->bytes, f->size, r,
        m, out->bytes, out->size);
    if (no) {
        if (*entry != old || *place != at || *left != more)
            fail("a refused call moved the state");
        stayed(out, 0, 0, 0, 0);
    } else {
        if (*entry != old + 5 + name || *place != at + *size || *left != more - 1)
            fail("the state behind a sequence");
        stayed(out, old, old + 5 + name, at, at + *size);
    }
    return !no;
}

/* Whether a whole file was written, then of *size bytes. */
static bool write_twobit(struct buffer *out, size_t *size)
{
    size_t *entry = CELL(size_t), *stop = CELL(size_t), *place = CELL(size_t), *left = CELL(size_t), names = 0;
    size_t *state[] = {entry, stop, place, left};
    bool right = below(16) > 0;
    uint32_t no;
    for (size_t i = 0; i < given.many; i++)
        names += given.at[i].name_len = below(3) ? given.name->size : below(given.name->size + 1);
    keep(out);
    ASK(twobit_start, right ? given.many : number(given.many), right ? names : number(names), out->bytes, out->size,
        entry, stop, place, left);
    zero(no, *entry | *stop | *place | *left);
    stayed(out, 0, no ? 0 : 16, 0, 0);
    right = right && !no;
    for (size_t i = 0; i < given.many; i++) {
        if (below(32) == 0) {
            size_t *one = state[below(4)];
            *one = number(*one);
            right = false;
        }
        right &= add_to_twobit(out, i, entry, stop, place, left);
    }
    ASK(twobit_finish, *entry, *stop, *place, *left, size);
    zero(no, *size);
    if (no != (*left || *entry != *stop || *stop < 16 || *stop > *place ? TSIV_BAD_RANGE : TSIV_DONE))
        fail("a file that is not all there is finished, or one that is is not");
    if (right && (no || *size != *place))
        fail("a file with all its sequences is not finished");
    changed(out, 0, out->size);
    return right;
}

/* Whether two stores hold sequence i, code 3 where its flag is set. */
static bool read_back(size_t i, const struct buffer *x, const struct buffer *y)
{
    for (size_t j = 0; j < given.at[i].len; j++) {
        unsigned flag = character(1, given.flags->bytes, given.at[i].flag_offset + j);
        unsigned base = character(2, given.bases->bytes, given.at[i].offset + j);
        if (character(1, y->bytes, j) != flag || character(2, x->bytes, j) != (flag ? 3 : base))
            return false;
    }
    return true;
}

/* One record, which is what it says of itself; where the file is right, it is sequence i. */
static uint32_t read_record(struct buffer *file, size_t offset, bool right, size_t i, struct buffer *x,
                            struct buffer *y, size_t *len, size_t *blocks, size_t *masks)
{
    uint32_t no;
    uint8_t before[1024];
    ASK(twobit_record_info, file->bytes, file->size, offset, len, blocks, masks);
    zero(no, *len | *blocks | *masks);
    uint32_t info = no;
    size_t characters = *len, masked = *masks;
    if (no != TSIV_DONE && no != TSIV_BAD_FORM)
        fail("no such number");
    if (!no && (file->size < 16 || offset > file->size - 16))
        fail("a record outside the file");
    else if (!no && *blocks != word(file->bytes + offset + 4, file->bytes[0] == 0x1A))
        fail("the number of N blocks");
    if (right && (no || *len != given.at[i].len || *blocks != runs(given.at[i].flag_offset, *len) || *masks))
        fail("a record that was written says something else");
    keep(y);
    memcpy(before, kept, y->size);
    keep(x);
    ASK(twobit_record, file->bytes, file->size, offset, x->bytes, x->size, y->bytes, y->size, len, masks);
    zero(no, *len | *masks);
    if (no ? no != (info ? TSIV_BAD_FORM : TSIV_NO_ROOM) : info || *len != characters || *masks != masked) {
        asked = "twobit_record_info";
        fail("a record is not what it says");
    }
    stayed(x, 0, no ? 0 : up(2, *len) + 48, 0, 0);
    memcpy(kept, before, y->size);
    stayed(y, 0, no ? 0 : up(1, *len) + 48, 0, 0);
    if (!no && (!ended(2, x->bytes, *len) || !ended(1, y->bytes, *len)))
        fail("the 48 zeros");
    if (right) {
        size_t n = given.at[i].len;
        if (no != (x->size < up(2, n) + 48 || y->size < up(1, n) + 48 ? TSIV_NO_ROOM : TSIV_DONE))
            fail("a record that was written is not read");
        if (!no && (*len != n || *masks || !read_back(i, x, y)))
            fail("a record reads back as other tracks");
    }
    return no;
}

/* A file is sound exactly if all its entries and records are. */
static void read_twobit(struct buffer *file, bool right)
{
    size_t *count_of = CELL(size_t), *next = CELL(size_t), *at = CELL(size_t), *name = CELL(size_t),
           *name_len = CELL(size_t), *offset = CELL(size_t), *len = CELL(size_t), *blocks = CELL(size_t),
           *masks = CELL(size_t);
    struct buffer *x = make(48 + below(60) - below(2)), *y = make(48 + below(40) - below(2));
    uint32_t no;
    bool sound = ASK(twobit_check, file->bytes, file->size, count_of) == 0, all = true;
    zero(no, *count_of);
    if (sound && (file->size < 16 || *count_of != word(file->bytes + 8, file->bytes[0] == 0x1A)))
        fail("the number of sequences");
    if (right && (!sound || *count_of != given.many))
        fail("a file that was written is not sound");
    ASK(twobit_first, file->bytes, file->size, next, at);
    zero(no, *next | *at);
    all = !no;
    while (all) {
        ASK(twobit_entry, file->bytes, file->size, next, at, name, name_len, offset);
        zero(no, *next | *at | *name | *name_len | *offset);
        if (no) {
            all = no == TSIV_BAD_RANGE; /* past the last one */
            break;
        }
        size_t i = *next - 1;
        if (*name + *name_len + 4 != *at || *at > file->size || *offset >= file->size)
            fail("an entry outside the file");
        if (right && (*name_len != given.at[i].name_len || memcmp(file->bytes + *name, given.name->bytes, *name_len)))
            fail("another name");
        all = read_record(file, *offset, right, i, x, y, len, blocks, masks) != TSIV_BAD_FORM;
    }
    if (sound != all)
        fail("a file is sound and not read, or read and not sound");
    /* Any cursor, any offset. */
    *next = below(2) ? below(SEQUENCES) : number(given.many);
    *at = number(file->size);
    ASK(twobit_entry, file->bytes, file->size, next, at, name, name_len, offset);
    zero(no, *next | *at | *name | *name_len | *offset);
    read_record(file, number(file->size), false, 0, x, y, len, blocks, masks);
    changed(x, 0, x->size);
    changed(y, 0, y->size);
}

static void twobits(void)
{
    struct buffer *out = make(below(8) ? 300 + below(700) : below(200));
    given.bases = input(48 + below(40) - below(2)), given.flags = input(48 + below(30) - below(2));
    given.name = input(below(8) ? below(9) : 250 + below(12));
    given.many = below(SEQUENCES + 1);
    size_t *size = CELL(size_t);
    bool right = write_twobit(out, size);
    /* It is read as it was written, or cut, or damaged; or any bytes are. */
    size_t whole = right ? *size - (below(6) ? 0 : below(*size + 1)) : below(60);
    struct buffer *file = input(whole);
    if (right)
        memcpy(file->bytes, out->bytes, whole);
    right = right && whole == *size;
    if (right && below(2))
        turn_over(file->bytes);
    right &= !damage(file);
    read_twobit(file, right);
}

int main(int argc, char **argv)
{
    unsigned long turns = argc > 1 ? strtoul(argv[1], NULL, 10) : 1000000, done = 0, refused = 0, kinds = 0,
                  lacking = 0;
    state = argc > 2 ? strtoull(argv[2], NULL, 10) : 1;
    state = state * 0x9E3779B97F4A7C15u + 1;
    exact = argc > 3 && strcmp(argv[3], "exact") == 0;
    pages();
    signal(SIGSEGV, fault);
    signal(SIGBUS, fault);
    for (turn = 0; turn < turns; turn++) {
        size_t w = 1 + below(2);
        switch (below(9)) {
        case 0: letters_and_words(); break;
        case 1: one_view(w); break;
        case 2: two_views(w); break;
        case 3: stores(w); break;
        case 4: counts(); break;
        case 5:
        case 6: streams(w); break;
        case 7: forms(); break;
        default: twobits();
        }
        settle();
    }
    for (int i = 0; i < CALLS && counted[i].name; i++) {
        kinds++;
        done += counted[i].done;
        refused += counted[i].refused;
        if (!counted[i].done || !counted[i].refused) {
            lacking++;
            printf("fuzz: %s: %lu done, %lu refused\n", counted[i].name, counted[i].done, counted[i].refused);
        }
    }
    printf("fuzz: %lu calls of %lu kinds, %lu done, %lu refused; %lu failures\n", done + refused, kinds, done, refused,
           failures);
    return failures || lacking || kinds != 82;
}
