"""counts.py FOLDER: stores of flags with counts of their blocks, from the rules alone: plain and slow, a flag at a time. Writes FOLDER/cases
for tests/counts.c, histories of calls with wrong entries, short slices and refused calls among them; and FOLDER/answers, what the rules say to
each call: its numbers, then every byte of the buffer and every entry. SEED sets where the dice begin."""
import os
import random
import sys

BEHIND, BLOCK = 48, 256
BAD_STORE, BAD_VIEW, BAD_RANGE, NO_ROOM = 2, 3, 4, 9
dice = random.Random(int(os.environ.get("SEED", 1)))
cases, answers = [], []


def up(n, m):
    return -(-n // m)


def bits(data):
    return [byte >> i & 1 for byte in data for i in range(8)]


def data(flags):
    return bytes(sum(flag << i for i, flag in enumerate(flags[b : b + 8])) for b in range(0, len(flags), 8))


def flag(letter):
    return int(letter not in b"ACGTUacgtu")


def listed(some):
    return f"{len(some)} {some.hex() or '-'}"


class Store:
    """All bits of a lent buffer, a length, and lent entries."""

    def __init__(self, buffer, length, entries):
        self.bits, self.length, self.entries = bits(buffer), length, list(entries)
        self.tell(f"store {length} {listed(buffer)} {listed(b''.join(e.to_bytes(2, 'little') for e in entries))}", 0, 0, 0)

    def tell(self, case, no, *numbers):
        cases.append(case)
        entries = b"".join(e.to_bytes(2, "little") for e in self.entries)
        answers.append(" ".join(map(str, (no, *numbers, self.length))) + f" {listed(data(self.bits))} {listed(entries)}")

    def bad(self, length):
        return up(length, 8) + BEHIND > len(self.bits) // 8

    def few(self, length):
        return len(self.entries) < up(length, BLOCK)

    def count(self, positions):
        return sum(self.bits[i] for i in positions)

    def write(self, at, flags):
        """These flags at a place, then zeros to the end of the 48th byte behind them."""
        end = at + len(flags)
        zeros = (up(end, 8) + BEHIND) * 8 - end
        self.bits[at : end + zeros] = flags + [0] * zeros

    def counted(self, touched):
        """Of the blocks of the length, those with a touched character are counted afresh."""
        for b in range(up(self.length, BLOCK)):
            block = range(b * BLOCK, (b + 1) * BLOCK)
            if any(i in touched for i in block):
                self.entries[b] = self.count(i for i in block if i < self.length)

    def clear(self):
        no = NO_ROOM if len(self.bits) // 8 < BEHIND else 0
        if not no:
            self.write(0, [])
        self.length = 0
        self.tell("clear", no, 0, 0)

    def push(self, case, bad_view, start, flags):
        """A push of what stands from the old length on, the pushed characters from `start` on."""
        old, end = self.length, self.length + len(flags)
        no = BAD_STORE if self.bad(old) else BAD_VIEW if bad_view else NO_ROOM if self.bad(end) or self.few(end) else 0
        if not no:
            if case[0] == "s" or flags:
                self.write(old, flags)
            self.length = end
            self.counted(range(old, end))
        self.tell(case, no, *((0, 0) if no else (start, end)))

    def push_ascii(self, letters):
        self.push(f"ascii {listed(letters)}", False, self.length, [flag(letter) for letter in letters])

    def push_seq(self, track, offset, length):
        bad = offset + length + BEHIND * 8 > len(track) * 8
        start = up(self.length, 8) * 8 + offset % 8
        flags = [] if bad else bits(track)[offset : offset + length]
        self.push(f"seq {listed(track)} {offset} {length}", bad, start, [1] * (0 if bad else start - self.length) + flags)

    def overwrite(self, start, letters):
        end = start + len(letters)
        no = BAD_STORE if self.bad(self.length) else BAD_RANGE if end > self.length else NO_ROOM if self.few(self.length) else 0
        if not no:
            self.bits[start:end] = [flag(letter) for letter in letters]
            self.counted(range(start, end))
        self.tell(f"over {start} {listed(letters)}", no, 0, 0)

    def cut(self, m):
        old = self.length
        no = BAD_STORE if self.bad(old) else BAD_RANGE if m > old else NO_ROOM if self.few(m) else 0
        if not no:
            self.write(m, [])
            self.length = m
            self.counted(range(m, old))
        self.tell(f"cut {m}", no, 0, 0)

    def query(self, start, end):
        n = self.length
        no = BAD_STORE if self.bad(n) else BAD_RANGE if end > n or start > end else NO_ROOM if self.few(n) else 0
        total = 0
        if not no:
            whole = [b for b in range(up(n, BLOCK)) if start <= b * BLOCK and (b + 1) * BLOCK <= end]
            total = sum(self.entries[b] for b in whole) + self.count(i for i in range(start, end) if i // BLOCK not in whole)
            if self.right():
                assert total == self.count(range(start, end))
        self.tell(f"count {start} {end}", no, total, 0)

    def right(self):
        blocks = range(up(self.length, BLOCK))
        return all(self.entries[b] == self.count(range(b * BLOCK, min((b + 1) * BLOCK, self.length))) for b in blocks)


def letters(n):
    return bytes(dice.choices(b"ACGTUacgtuNnR-\0\xff", k=n)) if dice.random() < 0.8 else b"N" * n


def near(*marks):
    """A number near one of these, or near a block's end; or any small or large one."""
    mark = dice.choice([*marks, *(BLOCK * b for b in range(6))])
    return max(0, dice.choice([mark, mark, mark - 1, mark + 1, mark - 8, mark + 9, dice.randrange(1400), dice.choice([2**31, 2**63, 2**64 - 1])]))


def fresh(size, entries, length):
    """A buffer of any bytes, and any entries."""
    return Store(dice.randbytes(size), length, [dice.randrange(65536) for _ in range(entries)])


def up_to(n):
    """A number up to n, more often than not."""
    return dice.randrange(n + 1) if dice.random() < 0.7 else near(n, n // 2)


def turn(store):
    n, free = store.length, max(0, len(store.bits) - BEHIND * 8 - store.length)
    match dice.randrange(12):
        case 0 | 1 | 2:
            to_a_block = -n % BLOCK + dice.randrange(2)
            store.push_ascii(letters(min(1200, dice.choice([0, 1, 8, dice.randrange(40), dice.randrange(300), to_a_block, free, up_to(free)]))))
        case 3 | 4:
            length, offset = dice.choice([0, 0, 1, dice.randrange(40), dice.randrange(300)]), dice.choice([0, 0, dice.randrange(20)])
            track = dice.randbytes(up(offset + length, 8) + BEHIND)
            store.push_seq(track, offset, length if dice.random() < 0.9 else near(length))
        case 5 | 6:
            start = up_to(n)
            left = max(0, min(n - start, 1200))
            store.overwrite(start, letters(dice.choice([0, min(1, left), left, dice.randrange(left + 1), dice.randrange(600)])))
        case 7:
            store.cut(dice.choice([n, max(0, n - 1), up_to(n), up_to(n)]))
        case 8 | 9 | 10:
            end = dice.choice([n, up_to(n)])
            store.query(dice.choice([0, up_to(end), up_to(max(0, end - BLOCK))]), end)
        case _:
            if dice.random() < 0.2:
                store.clear()


# Histories of a cleared store: whatever the entries held, they are right from then on.
for _ in range(150):
    size = BEHIND + dice.choice([0, 1, 32, 33, 64, dice.randrange(170)])
    store = fresh(size, dice.choice([0, 1, up((size - BEHIND) * 8, BLOCK), up((size - BEHIND) * 8, BLOCK), 9]), dice.randrange(1400))
    store.clear()
    for _ in range(40):
        turn(store)
        assert store.right()

# Stores with any bytes, any length and wrong entries, of which no call mends but what it touches.
for _ in range(700):
    size = dice.choice([dice.randrange(60), BEHIND + dice.randrange(170)])
    store = fresh(size, dice.choice([0, 1, 3, 6, 6, 8, 8]), up_to(max(0, size - BEHIND) * 8))
    for _ in range(5):
        turn(store)

# The sides of each line: wrong entries that stay, the last entries that are enough, the block in which a length ends.
for n in (0, 1, 255, 256, 257, 511, 512, 513, 768):
    for entries in range(up(n, BLOCK) + 2):
        for call in (
            lambda s: s.push_ascii(b""),
            lambda s: s.push_ascii(b"N"),
            lambda s: s.push_seq(bytes(BEHIND), 0, 0),
            lambda s: s.push_seq(bytes(BEHIND + 1), 3, 5),
            lambda s: s.overwrite(s.length, b""),
            lambda s: s.overwrite(0, b""),
            lambda s: s.overwrite(s.length - 1 if s.length else 0, b"A" * min(1, s.length)),
            lambda s: s.cut(s.length),
            lambda s: s.cut(max(0, s.length - 1)),
            lambda s: s.cut(s.length // BLOCK * BLOCK),
            lambda s: s.cut(0),
            lambda s: s.clear(),
            lambda s: s.query(0, s.length),
            lambda s: s.query(s.length, s.length),
            lambda s: s.query(min(1, s.length), s.length),
        ):
            call(fresh(BEHIND + 200, entries, n))

for name, lines in (("cases", cases), ("answers", answers)):
    with open(f"{sys.argv[1]}/{name}", "w", encoding="ascii") as file:
        file.write("\n".join(lines) + "\n")
