"""twobit.py FOLDER: .2bit files, from the rules alone: plain and slow, a character at a time. Writes FOLDER/cases for tests/twobit.c and
FOLDER/answers, what the rules say to each. SEED sets where the dice begin.

twobit.py 2bit: a .2bit file to standard output, of the FASTA on standard input, as the rules write it.
twobit.py fasta: that file as FASTA again: capitals, T for U, N for every other letter, in lines of 60."""
import itertools
import os
import random
import sys

BEHIND, SIGNATURE, ENTRY = 48, 0x1A412743, 5
BAD_VIEW, BAD_RANGE, BAD_FORM, NO_ROOM = 3, 4, 7, 9
OURS, THEIRS = "ACTG", "TCAG"
LARGE = [2**31, 2**32 - 1, 2**32, 2**32 + 16, 2**63, 2**64 - 1]
dice = random.Random(int(os.environ.get("SEED", 1)))
cases, answers = [], []


def up(n, m):
    return -(-n // m)


def packed(width, chars):
    """Our tracks: character i in byte i / C8, at bit width (i mod C8)."""
    c8 = 8 // width
    return bytes(sum(c << width * i for i, c in enumerate(chars[b : b + c8])) for b in range(0, len(chars), c8))


def characters(width, track, offset, n):
    c8 = 8 // width
    return [track[i // c8] >> i % c8 * width & (1 << width) - 1 for i in range(offset, offset + n)]


def listed(data):
    return f"{len(data)} {bytes(data).hex() or '-'}"


def told(case, *answer):
    cases.append(case)
    answers.append(" ".join(map(str, answer)))


# ---- Writing


def runs(flags):
    """Where each maximal run of set flags starts, and its size."""
    found = []
    for i, flag in enumerate(flags):
        if flag and i > 0 and flags[i - 1]:
            found[-1][1] += 1
        elif flag:
            found.append([i, 1])
    return found


def words(*numbers, order="little"):
    return b"".join(n.to_bytes(4, order) for n in numbers)


def dna(codes, spare=0):
    """Four of their codes a byte, the first in the highest bits; spare bits of the last byte are from `spare`."""
    whole = list(codes) + [spare >> 2 * i & 3 for i in range(-len(codes) % 4)]
    return bytes(a << 6 | b << 4 | c << 2 | d for a, b, c, d in zip(*[iter(whole)] * 4))


def record(bases, flags):
    blocks = runs(flags)
    starts, sizes = [start for start, _ in blocks], [size for _, size in blocks]
    codes = [0 if flag else THEIRS.index(OURS[base]) for base, flag in zip(bases, flags)]
    return words(len(bases), len(blocks), *starts, *sizes, 0, 0) + dna(codes)


def whole_file(sequences):
    """The file of these names, bases and flags."""
    place = 16 + sum(ENTRY + len(name) for name, _, _ in sequences)
    index, records = b"", b""
    for name, bases, flags in sequences:
        index += bytes([len(name)]) + name + words(place + len(records))
        records += record(bases, flags)
    return words(SIGNATURE, 0, len(sequences), 0) + index + records


def bad_view(width, track, offset, n):
    return offset + n + BEHIND * (8 // width) > len(track) * (8 // width)


class Writing:
    """A lent buffer, and the state between the calls."""

    def __init__(self, size, *state):
        self.out = bytearray(b"\xee" * size)
        self.entry, self.stop, self.place, self.left = state or (7, 7, 7, 7)
        told(f"out {size} {self.entry} {self.stop} {self.place} {self.left}", 0)

    def start(self, count, names):
        stop = 16 + ENTRY * count + names
        no = BAD_RANGE if count >= 2**32 else NO_ROOM if len(self.out) < stop else 0
        self.entry, self.stop, self.place, self.left = (0, 0, 0, 0) if no else (16, stop, stop, count)
        if not no:
            self.out[:16] = words(SIGNATURE, 0, count, 0)
        told(f"start {count} {names}", no, self.entry, self.stop, self.place, self.left)
        return no

    def refused(self, name, bases, o, n, flags, r, m):
        if bad_view(2, bases, o, n) or bad_view(1, flags, r, m):
            return BAD_VIEW
        end = self.entry + ENTRY + len(name)
        if n != m or len(name) > 255 or self.left == 0 or end > self.stop or self.stop > self.place or self.place >= 2**32:
            return BAD_RANGE
        size = len(record(characters(2, bases, o, n), characters(1, flags, r, m)))
        return NO_ROOM if self.place + size > len(self.out) else 0

    def add(self, name, bases, o, n, flags, r, m):
        no = self.refused(name, bases, o, n, flags, r, m)
        if not no:
            entry = bytes([len(name)]) + name + words(self.place)
            made = record(characters(2, bases, o, n), characters(1, flags, r, m))
            self.out[self.entry : self.entry + len(entry)] = entry
            self.out[self.place : self.place + len(made)] = made
            self.entry, self.place, self.left = self.entry + len(entry), self.place + len(made), self.left - 1
        told(f"add {listed(name)} {listed(bases)} {o} {n} {listed(flags)} {r} {m}", no, self.entry, self.place, self.left)
        return no

    def finish(self):
        fine = self.left == 0 and self.entry == self.stop and 16 <= self.stop <= self.place
        told("finish", 0 if fine else BAD_RANGE, self.place if fine else 0)
        return fine

    def show(self):
        told("show", "out", listed(self.out))

    def take(self):
        """What was written becomes the file that is read."""
        told(f"take {self.place}", self.place)
        return bytes(self.out[: self.place])


def ask_size(flags, r, m):
    no = BAD_VIEW if bad_view(1, flags, r, m) else 0
    told(f"size {listed(flags)} {r} {m}", no, 0 if no else 16 + 8 * len(runs(characters(1, flags, r, m))) + up(m, 4))


# ---- Reading


def header(file):
    """The order of bytes and the number of sequences; None where the header is not right."""
    for order in ("little", "big"):
        if len(file) >= 16 and file[:8] == words(SIGNATURE, 0, order=order):
            return order, int.from_bytes(file[8:12], order)
    return None


def entry(file, order, at):
    """The name's place and length, the record's offset; None where the entry does not end within the file."""
    if at >= len(file) or at + ENTRY + file[at] > len(file):
        return None
    end = at + 1 + file[at]
    return at + 1, file[at], int.from_bytes(file[end : end + 4], order)


def sound(file, order, at):
    """The size, the N blocks, the number of mask blocks and the bases' bytes of a record; None where it is not sound."""

    def word():
        nonlocal at
        if at + 4 > len(file):
            raise EOFError
        at += 4
        return int.from_bytes(file[at - 4 : at], order)

    def table():
        nonlocal at
        count = word()
        if at + 8 * count > len(file):
            raise EOFError
        starts = [word() for _ in range(count)]
        return [(start, word()) for start in starts]

    try:
        size = word()
        blocks, masks = table(), table()
        word()
    except EOFError:
        return None
    if at + up(size, 4) > len(file) or any(start + n > size for start, n in blocks + masks):
        return None
    for (a, n), (b, m) in itertools.combinations(blocks, 2):
        if max(a, b) < min(a + n, b + m):
            return None
    return size, blocks, len(masks), file[at : at + up(size, 4)]


def ask_file(file):
    told(f"file {listed(file)}", len(file))


def ask_check(file):
    no, count, at = BAD_FORM, 0, 16
    if head := header(file):
        order, count = head
        no = 0
        for _ in range(count):
            found = entry(file, order, at)
            if not found or not sound(file, order, found[2]):
                no = BAD_FORM
                break
            at += ENTRY + found[1]
    told("check", no, 0 if no else count)


def ask_first(file):
    head = header(file)
    told("first", 0 if head else BAD_FORM, 0, 16 if head else 0)


def ask_entry(file, number, at):
    """The next cursor and the record's offset, or None."""
    head = header(file)
    found = head and entry(file, head[0], at)
    no = BAD_FORM if not head else BAD_RANGE if number >= head[1] else BAD_FORM if not found or found[2] >= len(file) else 0
    got = (0, 0, 0, 0, 0) if no else (number + 1, at + ENTRY + found[1], *found)
    told(f"entry {number} {at}", no, *got)
    return None if no else (got[0], got[1], got[4])


def ask_record(file, offset, rooms=None, more=(0, 0)):
    """What it says of itself; then into buffers that are exactly enough and so many bytes more, or of these sizes."""
    head = header(file)
    got = head and sound(file, head[0], offset)
    told(f"info {offset}", *((0, got[0], len(got[1]), got[2]) if got else (BAD_FORM, 0, 0, 0)))
    size, blocks, masks, data = got or (0, [], 0, b"")
    least = up(size, 4) + BEHIND, up(size, 8) + BEHIND
    given = rooms or tuple(max(0, a + b) for a, b in zip(least, more))
    no = BAD_FORM if not got else NO_ROOM if given[0] < least[0] or given[1] < least[1] else 0
    bases, flags = b"", b""
    if not no:
        under = [any(start <= i < start + n for start, n in blocks) for i in range(size)]
        codes = [data[i // 4] >> 6 - i % 4 * 2 & 3 for i in range(size)]
        bases = packed(2, [3 if under[i] else OURS.index(THEIRS[codes[i]]) for i in range(size)]) + bytes(BEHIND)
        flags = packed(1, [int(flag) for flag in under]) + bytes(BEHIND)
    filled = [listed(track + b"\xee" * (room - len(track))) for track, room in zip((bases, flags), given)]
    told(f"record {offset} {given[0]} {given[1]}", no, 0 if no else size, 0 if no else masks, *filled)


def ask(file, most=4):
    """All that a reader asks of a file, and of its first entries."""
    ask_file(file)
    ask_check(file)
    ask_first(file)
    cursor = ask_entry(file, 0, 16)
    while cursor and (most := most - 1):
        ask_record(file, cursor[2], more=(dice.choice([0, 0, 0, 2]), dice.choice([0, 0, 0, 3])))
        cursor = ask_entry(file, *cursor[:2])


def foreign(sequences, order="little", reserved=0, spare=0, gap=0, turned=False, behind=b"", count=None):
    """A file as others may make it, of names, sizes, N blocks, mask blocks and codes: with reserved words and spare bits, gaps between
    the records, the records in the other order than the entries, bytes behind, another count."""
    places, records = {}, b""
    begin = 16 + sum(ENTRY + len(name) for name, *_ in sequences)
    for i in reversed(range(len(sequences))) if turned else range(len(sequences)):
        _, size, blocks, masks, codes = sequences[i]
        records += b"\xa5" * gap
        places[i] = begin + len(records)
        records += words(size, len(blocks), *(s for s, _ in blocks), *(n for _, n in blocks), order=order)
        records += words(len(masks), *(s for s, _ in masks), *(n for _, n in masks), reserved, order=order) + dna(codes, spare)
    index = b"".join(bytes([len(s[0])]) + s[0] + words(places[i], order=order) for i, s in enumerate(sequences))
    return words(SIGNATURE, 0, len(sequences) if count is None else count, reserved, order=order) + index + records + behind


# ---- FASTA to .2bit and back, for what tests/run-c compares


def fasta(text):
    found = []
    for line in text.split(b"\n"):
        line = line.removesuffix(b"\r")
        if line[:1] == b">":
            found.append(((line[1:].split() or [b""])[0], b""))
        elif line:
            found[-1] = found[-1][0], found[-1][1] + line
    return [(name, [letter // 2 % 4 for letter in letters], [int(letter not in b"ACGTUacgtu") for letter in letters]) for name, letters in found]


if sys.argv[1] == "2bit":
    sys.stdout.buffer.write(whole_file(fasta(sys.stdin.buffer.read())))
    sys.exit()
if sys.argv[1] == "fasta":
    for name, bases, flags in fasta(sys.stdin.buffer.read()):
        letters = "".join("N" if flag else OURS[base] for base, flag in zip(bases, flags))
        lines = [name.decode(), *(letters[i : i + 60] for i in range(0, len(letters), 60))]
        print(">" + "\n".join(lines))
    sys.exit()


# ---- Cases


def some(width, n):
    return dice.choices(range(1 << width), k=n)


def some_flags(n):
    """Runs of any size; or all alike; or any flags."""
    match dice.randrange(4):
        case 0:
            return [dice.randrange(2)] * n
        case 1:
            return some(1, n)
        case _:
            flags = []
            while len(flags) < n:
                flags += [dice.randrange(2)] * dice.choice([1, 2, 7, 8, 9, 15, 16, 17, 63, 64, 65, dice.randrange(1, 40)])
            return flags[:n]


def dressed(width, chars, offset=None):
    """A view of these characters: its bytes, with stray bits around, and its offset."""
    offset = dice.randrange(20) if offset is None else offset
    strays = some(width, -(offset + len(chars)) % (8 // width))
    return packed(width, some(width, offset) + chars + strays) + dice.randbytes(BEHIND), offset


def views(bases, flags, *offsets):
    (b, o), (f, r) = dressed(2, bases, *offsets[:1]), dressed(1, flags, *offsets[1:])
    return b, o, len(bases), f, r, len(flags)


def read_back(file, sequences):
    """The file holds the sequences: a check of this reading by itself, before anything is asked."""
    order, count = header(file)
    assert (order, count) == ("little", len(sequences))
    at = 16
    for name, bases, flags in sequences:
        place, n, offset = entry(file, order, at)
        size, blocks, masks, data = sound(file, order, offset)
        assert file[place : place + n] == name and masks == 0 and size == len(bases) and blocks == [tuple(run) for run in runs(flags)]
        for i in range(size):
            code = data[i // 4] >> 6 - i % 4 * 2 & 3
            assert code == (0 if flags[i] else THEIRS.index(OURS[bases[i]]))
        at += ENTRY + n


def write(sequences, spare=0, shown=True, offsets=()):
    """The whole history of a file: started, added to, finished, read."""
    expected = whole_file(sequences)
    read_back(expected, sequences)
    writing = Writing(len(expected) + spare)
    writing.start(len(sequences), sum(len(name) for name, _, _ in sequences))
    for name, bases, flags in sequences:
        if shown:
            writing.show()
        b, o, n, f, r, m = views(bases, flags, *offsets)
        ask_size(f, r, m)
        writing.add(name, b, o, n, f, r, m)
    writing.show()
    assert writing.finish()
    file = writing.take()
    assert file == expected and writing.out == expected + b"\xee" * spare
    ask_check(file)
    ask_first(file)
    cursor = ask_entry(file, 0, 16)
    while cursor:
        ask_record(file, cursor[2])
        cursor = ask_entry(file, *cursor[:2])


def name_of(n):
    return dice.randbytes(n)


# A file that is worked out by hand.
assert whole_file([(b"a", [0, 1, 3, 2, 3], [0, 0, 0, 0, 1])]) == bytes.fromhex(
    "4327411a000000000100000000000000" "0161" "16000000" "05000000" "01000000" "04000000" "01000000" "00000000" "00000000" "9c00"
)
assert whole_file([]) == bytes.fromhex("4327411a000000000000000000000000")
assert runs([1, 1, 0, 1, 0, 0, 1]) == [[0, 2], [3, 1], [6, 1]]

# Sizes 0 to 9, N at every place.
for n in range(10):
    for flags in itertools.product([0, 1], repeat=n):
        write([(name_of(dice.randrange(3)), some(2, n), list(flags))], dice.choice([0, 0, 5]), shown=n < 4)

# No, one, two and a thousand sequences; names of 0 to 255 bytes; long sequences; offsets of the views up to two bytes.
write([])
write([], 9)
write([(b"", [], []), (b"", [], [])], 1)
for n in (1, 2, 127, 128, 254, 255):
    write([(name_of(n), some(2, 3), some_flags(3)), (name_of(255 - n), some(2, n), some_flags(n))])
write([(b"s%d" % i, some(2, i % 23), some_flags(i % 23)) for i in range(1000)], 3, shown=False)
for n in (31, 32, 33, 63, 64, 65, 127, 128, 129, 255, 256, 257, 1000, 4099):
    for _ in range(3):
        write([(b"long", some(2, n), some_flags(n))], shown=False)
for o, r in itertools.product(range(9), range(17)):
    n = dice.randrange(20)
    write([(b"x", some(2, n), some_flags(n))], shown=False, offsets=(o, r))
for _ in range(150):
    sizes = [dice.choice([0, 1, dice.randrange(12), dice.randrange(300)]) for _ in range(dice.randrange(4))]
    write([(name_of(dice.choice([0, 1, 4, dice.randrange(40)])), some(2, n), some_flags(n)) for n in sizes], dice.randrange(3))

# Starting: each side of its lines.
for count, names in itertools.product([0, 1, 2, 7], [0, 1, 9]):
    for room in {0, 15, 16, 17, *(16 + ENTRY * count + names + more for more in (-1, 0, 1))}:
        writing = Writing(max(0, room))
        writing.start(count, names)
        writing.show()
        writing.finish()
for count, names in itertools.product([0, 1, *LARGE], [0, 1, 2**64 - 16, *LARGE]):
    Writing(20).start(count, names)

# Views that are no views, or not of one length.
for n in (0, 1, 5, 9):
    bases, flags = some(2, n), some_flags(n)
    for o, a, r, b in [(0, 1, 0, 0), (0, 0, 0, 1), (0, 9, 0, 9), (0, 400, 0, 400), (0, 0, 0, 8), (0, 4, 0, 0), (9, 0, 0, 0), (0, 0, 9, 0), (2**64 - 1, 0, 0, 0),
                       (0, 0, 2**64 - 1, 0), (0, 2**64 - 1 - n, 0, 0), (0, 0, 0, 2**64 - 1 - n), (0, 2**64 - 1 - n, 0, 2**64 - 1 - n)]:
        b_, _, _, f_, _, _ = views(bases, flags, 0, 0)
        writing = Writing(100)
        writing.start(2, 2)
        writing.add(b"x", b_, o, n + a, f_, r, n + b)
        writing.show()
        ask_size(f_, r, n + b)
    for cut in (1, 48, 49, 60):
        b_, o, _, f_, r, _ = views(bases, flags)
        writing = Writing(100)
        writing.start(1, 1)
        writing.add(b"x", b_[: max(0, len(b_) - cut)], o, n, f_, r, n)
        writing.add(b"x", b_, o, n, f_[: max(0, len(f_) - cut)], r, n)
        writing.show()
        ask_size(f_[: max(0, len(f_) - cut)], r, n)
    writing = Writing(300)
    writing.start(2, 2)
    writing.add(b"x", *views(bases, flags + [0]))
    writing.add(b"x", *views(bases + [3] * 4, flags))
    writing.show()

# Rooms: the record's last byte, and one less. Names: 255 bytes, and more.
for n in (0, 1, 4, 5, 12):
    bases, flags = some(2, n), some_flags(n)
    need = 16 + ENTRY + 1 + len(record(bases, flags))
    for room in range(16 + ENTRY + 1, need + 3):
        writing = Writing(room)
        writing.start(1, 1)
        writing.add(b"x", *views(bases, flags))
        writing.show()
        writing.finish()
for n in (254, 255, 256, 257, 300, 511, 512, 600):
    writing = Writing(1000)
    writing.start(2, n)
    writing.add(name_of(n), *views([0, 1], [0, 1]))
    writing.add(b"", *views([], []))
    writing.show()
    writing.finish()

# The index is held: too few and too many names' bytes, too few and too many sequences.
for promised, given, count, added in itertools.product([0, 3, 5, 6], [0, 1, 3], [0, 1, 2, 3], [0, 1, 2, 3]):
    writing = Writing(200)
    writing.start(count, promised)
    for _ in range(added):
        writing.add(name_of(given), *views([3], [0]))
    writing.finish()
    writing.show()

# States with any numbers.
for _ in range(1500):
    def about(*marks):
        return max(0, dice.choice([*marks, *marks, dice.randrange(130), dice.choice(LARGE)]) + dice.choice([0, 0, 0, -1, 1])) % 2**64
    place = about(30, 40, 60, 2**32)
    stop = about(place, 40, 30)
    at = about(stop - 8, stop, 16, 0)
    n = dice.choice([3, 3, 3, 0, dice.randrange(60)])
    writing = Writing(dice.choice([0, 60, 130, 130]), at, stop, place, about(1, 2, 0))
    length = dice.randrange(9)
    writing.add(name_of(n), *views(some(2, length), some_flags(length)))
    writing.show()
    writing.finish()
MARKS = [0, 1, 5, 15, 16, 17, 2**64 - 1]
for state in itertools.product(MARKS, MARKS, [0, 5, 9, 15, 16, 17, 18, 2**32, 2**64 - 1], [0, 1, 2**64 - 1]):
    Writing(0, *state).finish()
for place in (2**32 - 2, 2**32 - 1, 2**32, 2**32 + 1, 2**64 - 17, 2**64 - 16, 2**64 - 1):
    for at, stop in ((16, 22), (2**64 - 7, 2**64 - 1), (2**64 - 6, 2**64 - 1), (2**64 - 1, 2**64 - 1), (place - 6, place), (place - 5, place)):
        writing = Writing(120, at, stop, place, 1)
        writing.add(b"x", *views([1], [0]))
        writing.show()
# Offsets of 32 bits, in a file of as many bytes: tests/twobit.c makes it, and holds it itself.
told("far", "fine")

# Reading what others make: both orders of bytes, reserved words, spare bits, gaps, mask blocks.
OTHERS = [dict(), dict(reserved=0xA5A5A5A5), dict(spare=255), dict(gap=3), dict(turned=True), dict(behind=b"\1\2"),
          dict(reserved=2**32 - 1, spare=170, gap=1, turned=True, behind=b"\0" * 60)]


def codes(n):
    return dice.choices(range(4), k=n)


def disjoint(n):
    """N blocks of n characters that share none: some of the maximal runs of any flags, cut in two here and there, and mixed."""
    blocks = []
    for start, size in runs(some_flags(n)):
        cut = dice.choice([0, 0, dice.randrange(size + 1)])
        blocks += [(start, cut), (start + cut, size - cut)] if cut else [(start, size)]
    if dice.random() < 0.3:
        blocks.append((dice.randrange(n + 1), 0))
    if dice.random() < 0.5:
        dice.shuffle(blocks)
    return blocks


def any_masks(n):
    starts = [dice.randrange(n + 1) for _ in range(dice.choice([0, 0, 1, 2, 5]))]
    return [(start, dice.randrange(n - start + 1)) for start in starts]


def made(n):
    return name_of(dice.choice([0, 1, 3, 9])), n, disjoint(n), any_masks(n), codes(n)


for order, others in itertools.product(("little", "big"), OTHERS):
    for count in (0, 1, 2, 3):
        for _ in range(4):
            ask(foreign([made(dice.choice([0, 1, 4, 7, dice.randrange(60), dice.randrange(200)])) for _ in range(count)], order, **others))
for order in ("little", "big"):
    thousand = foreign([made(i % 9) for i in range(1000)], order)
    ask(thousand[:-1], 3)
    ask(thousand, 20)
    ask_entry(thousand, 999, 16)
    ask_entry(thousand, 1000, 16)

# Two blocks at every place of a short sequence: apart, touching, sharing, empty, in either order, beyond the end; as N and as mask blocks.
for size in (0, 1, 3, 5):
    single = [(start, n) for start in range(size + 2) for n in range(size + 2)]
    for pair in itertools.product(single, repeat=2) if size < 5 else dice.sample(list(itertools.product(single, repeat=2)), 500):
        order = dice.choice(["little", "big"])
        for blocks, masks in ((pair, ()), ((), pair), (pair[:1], pair[1:])):
            file = foreign([(b"b", size, list(blocks), list(masks), codes(size))], order)
            ask_file(file)
            ask_check(file)
            ask_record(file, 22)
# Three blocks, the shared character between any two; and many, one of them wrong.
for blocks in itertools.permutations([(0, 2), (2, 1), (3, 2)]):
    for wrong in (None, (0, (0, 3)), (1, (2, 2)), (2, (2, 3)), (2, (3, 3)), (1, (2, 0)), (1, (3, 0)), (1, (1, 1))):
        changed = list(blocks)
        if wrong:
            changed[wrong[0]] = wrong[1]
        ask(foreign([(b"c", 5, changed, [], codes(5))]))
for _ in range(60):
    n = dice.randrange(100, 300)
    blocks = [(i, 1) for i in range(0, n, 2)]
    dice.shuffle(blocks)
    if dice.random() < 0.6:
        place = dice.randrange(len(blocks))
        blocks[place] = blocks[place][0], dice.choice([0, 2, 3, n])
    ask(foreign([(b"m", n, blocks, any_masks(n), codes(n))], dice.choice(["little", "big"])))

# Many blocks that rise, fall, or lie around those before; as they are, with empty ones between, and with one that is longer.
for n in (2, 3, 4, 9, 40):
    rising = [(3 * i, dice.choice([1, 2, 3])) for i in range(n)]
    around = [rising[i // 2 if i % 2 else -1 - i // 2] for i in range(n)]
    for blocks in (rising, rising[::-1], around, around[::-1], rising[1::2] + rising[::2], rising[::2][::-1] + rising[1::2]):
        for _ in range(12):
            changed = list(blocks)
            for _ in range(dice.choice([0, 0, 1, 3])):
                changed.insert(dice.randrange(len(changed) + 1), (dice.randrange(3 * n + 1), 0))
            if dice.random() < 0.6:
                place = dice.randrange(len(changed))
                start = changed[place][0]
                changed[place] = start, dice.choice([4, 3, 2, 1, 0, 3 * n - start])
            ask(foreign([(b"o", 3 * n, changed, any_masks(3 * n), codes(3 * n))], dice.choice(["little", "big"])), 2)

# Numbers that are too large: of sequences, of blocks, of characters; starts and sizes whose sum is beyond 32 bits.
for order in ("little", "big"):
    for count in (1, 2, 3, 255, 256, 2**16, 2**31, 2**32 - 1):
        file = foreign([(b"a", 5, [(1, 2)], [(0, 1)], codes(5)), (b"", 0, [], [], [])], order, count=count)
        ask(file)
        for number in (1, count - 1, count):
            ask_entry(file, number, 16)
    small = foreign([(b"n", 6, [(2, 3)], [(1, 1)], codes(6))], order)
    assert header(small) and sound(small, order, 22)
    for at in range(22, 22 + 32, 4):
        for number in (0, 1, 2, 3, 4, 5, 6, 7, 8, 9, 2**29 - 1, 2**29, 2**29 + 1, 2**30, 2**31, 2**32 - 8, 2**32 - 3, 2**32 - 2, 2**32 - 1):
            ask(small[:at] + words(number, order=order) + small[at + 4 :], 2)
    for start, n in itertools.product([0, 1, 4, 2**31, 2**32 - 5, 2**32 - 4, 2**32 - 1], repeat=2):
        ask(foreign([(b"n", 4, [(start, n)], [], codes(4))], order), 2)
        ask(foreign([(b"n", 4, [], [(start, n)], codes(4))], order), 2)
    # Every offset, and the record that stands there, if one does.
    for offset in [*range(len(small) + 3), *LARGE]:
        ask_file(small)
        ask_record(small, offset, (60, 60))
        if offset < 2**32:
            moved = small[:18] + words(offset, order=order) + small[22:]
            ask_file(moved)
            ask_check(moved)
            ask_entry(moved, 0, 16)

# Every prefix of a small file; every byte of it changed; other signatures and versions.
for order in ("little", "big"):
    small = foreign([(b"ab", 6, [(1, 2), (4, 1)], [(0, 3)], codes(6)), (b"", 3, [], [], codes(3))], order)
    assert sound(small, order, 28)
    for end in range(len(small) + 1):
        ask(small[:end])
        ask_record(small[:end], 28, (60, 60))
    for at in range(len(small)):
        byte = small[at]
        for other in {0, 255, (byte + 1) % 256, (byte - 1) % 256, *(byte ^ 1 << bit for bit in range(8))} - {byte}:
            ask(small[:at] + bytes([other]) + small[at + 1 :])
    for first in (words(SIGNATURE), words(SIGNATURE, order="big")):
        for version in (words(0), words(1), words(1, order="big"), words(2**31), b"\0\0\1\0"):
            ask(first + version + small[8:])
            ask_record(first + version + small[8:], 28, (60, 60))
    # Wrong cursors.
    ask_file(small)
    for number in (0, 1, 2, 3, 2**32 - 1, 2**32, 2**64 - 1):
        for at in [*range(36), *range(len(small) - 8, len(small) + 3), 2**32, 2**64 - 6, 2**64 - 5, 2**64 - 1]:
            ask_entry(small, number, at)
    # Short buffers.
    for a, b in itertools.product([-60, -48, -1, 0, 1, 5], repeat=2):
        ask_record(small, 28, more=(a, b))
        ask_record(small, 1, more=(a, b))
for n in (0, 1, 4, 5, 8, 9, 16, 17, 33):
    file = foreign([(b"", n, [], [], codes(n))])
    ask_file(file)
    for a, b in itertools.product([-1, 0, 1], repeat=2):
        ask_record(file, 21, more=(a, b))

# Entries that share a record, more than 2^16 of them; a record in a name; an index that runs through the records; a file that ends in its
# last name.
shared = foreign([(b"x", 4, [], [], codes(4))])
ask(words(SIGNATURE, 0, 3, 0) + b"\1a" + words(34) + b"\1b" + words(34) + b"\1c" + words(34) + shared[22:])
ask(words(SIGNATURE, 0, 2, 0) + b"\1a" + words(22) + shared[22:])
# .. of which one is sound, and the other has two blocks that share a place.
good, bad = (foreign([(b"x", 4, blocks, [], codes(4))])[22:] for blocks in ([(0, 2), (2, 1)], [(0, 2), (1, 1)]))
for n in (1, 2, 3, 4):
    for which in itertools.product([0, len(good)], repeat=n):
        index = b"".join(b"\0" + words(16 + ENTRY * n + at) for at in which)
        ask(words(SIGNATURE, 0, n, 0) + index + good + bad, n + 2)
many = 2**16 + 1
ask(words(SIGNATURE, 0, many, 0) + (b"\0" + words(16 + ENTRY * many)) * many + shared[22:], 3)
for n in (15, 16, 17):
    ask(words(SIGNATURE, 0, 1, 0) + bytes([n]) + bytes(n) + words(17))
for n in (0, 1, 200, 255):
    ask(words(SIGNATURE, 0, 1, 0) + bytes([n]) + b"n" * n)
    ask(words(SIGNATURE, 0, 1, 0) + bytes([n]) + b"n" * n + words(0))
    ask(words(SIGNATURE, 0, 1, 0) + bytes([n]) + b"n" * n + words(21 + n))
    ask(words(SIGNATURE, 0, 1, 0) + bytes([n]) + b"n" * n + words(21 + n) + bytes(16))

# Files with a few bits turned, bytes dropped or put in, words made anew; and any bytes.
for _ in range(2500):
    order = dice.choice(["little", "big"])
    sequences = [made(dice.choice([0, 1, dice.randrange(12), dice.randrange(70)])) for _ in range(dice.choice([0, 1, 1, 2, 3]))]
    file = bytearray(foreign(sequences, order, **dice.choice(OTHERS)))
    for _ in range(dice.randrange(4)):
        place = dice.choice([8, dice.randrange(16), dice.randrange(len(file) + 1), dice.randrange(len(file) + 1), len(file)])
        match dice.randrange(5):
            case 0 if place < len(file):
                file[place] ^= 1 << dice.randrange(8)
            case 1:
                del file[place : place + 1]
            case 2:
                file[place:place] = dice.randbytes(1)
            case 3:
                file[place : place + 4] = words(dice.choice([0, 1, 2, dice.randrange(100), 2**32 - 1]), order=order)
            case _:
                if place < len(file):
                    file[place] = dice.randrange(6)
    ask(bytes(file))

for name, lines in (("cases", cases), ("answers", answers)):
    with open(f"{sys.argv[1]}/{name}", "w", encoding="ascii") as file:
        file.write("\n".join(lines) + "\n")
