"""windows.py FOLDER: flag windows, filled and stepped, from the rules alone: plain and slow, a position at a time. Writes FOLDER/cases for
tests/windows.c, and FOLDER/answers, what the rules say to each: its numbers, and the entries as bytes, which are 238 before a call that fills
them. SEED sets where the dice begin."""
import itertools
import os
import random
import sys

BEHIND, FAR = 48, 2**31
BAD_VIEW, BAD_STREAM, NO_ROOM, PARTIAL = 3, 8, 9, 10
dice = random.Random(int(os.environ.get("SEED", 1)))
cases, answers = [], []


def up(n, m):
    return -(-n // m)


def listed(data):
    return f"{len(data)} {data.hex() or '-'}"


def entries(windows):
    """All 32 bits set or none."""
    return b"".join(b"\xff" * 4 if window else b"\0" * 4 for window in windows)


class View:
    """Flags at an offset, stray bits around; as long as they are, or so much longer, over stray bits, as far as they reach."""

    def __init__(self, flags, offset, longer=0):
        bits = dice.choices((0, 1), k=offset) + flags
        bits += dice.choices((0, 1), k=-len(bits) % 8)
        self.flags = bits[offset : offset + len(flags) + longer]
        self.bytes = bytes(sum(bit << i for i, bit in enumerate(bits[b : b + 8])) for b in range(0, len(bits), 8)) + dice.randbytes(BEHIND)
        self.length = len(flags) + longer
        self.bad = offset + self.length + 8 * BEHIND > 8 * len(self.bytes)
        self.told = f"{listed(self.bytes)} {offset} {self.length}"

    def lanes(self, c):
        """n, the steps and the padding."""
        if self.length < c:
            return 0, 0, 0
        s = self.length - c + 1
        n = up(up(s, 8), 8) * 8
        return n, n + c - 1, 8 * n - s

    def refused(self, c, k):
        return BAD_VIEW if self.bad else BAD_STREAM if not (1 <= c <= FAR and 1 <= k <= 96) else 0

    def flag(self, i):
        return self.flags[i] if 0 <= i < len(self.flags) else 0

    def window(self, n, k, j, l):
        return any(self.flag(i) for i in range(l * n + max(0, j - k + 1), l * n + j + 1))

    def windows(self, n, k, steps):
        return entries(self.window(n, k, j, l) for j in steps for l in range(8))


def ask_fill(view, c, k, skip, spare=0):
    """Into a buffer with so many entries more than are needed."""
    no = view.refused(c, k)
    n, steps, padding = (0, 0, 0) if no else view.lanes(c)
    needed = 8 * max(0, steps - skip)
    room = max(0, needed + spare)
    if not no:
        # PARTIAL after BAD_STREAM and before NO_ROOM, only if the steps aren't zero and skip or context is too small.
        no = BAD_STREAM if skip > steps else PARTIAL if steps and (skip < k - 1 or c < k) else NO_ROOM if room < needed else 0
    written = b"" if no else view.windows(n, k, range(skip, steps))
    cases.append(f"fill {view.told} {c} {k} {skip} {room}")
    answers.append(f"{no} {0 if no else steps - skip} {0 if no else padding} {listed(written.ljust(4 * room, bytes([238])))}")


def ask_all(view, c, k):
    """All steps, from step 0 with zero counts, until one is refused."""
    no = view.refused(c, k)
    n, steps, _ = (0, 0, 0) if no else view.lanes(c)
    cases.append(f"all {view.told} {c} {k}")
    answers.append(f"{no or BAD_STREAM} {steps} {listed(view.windows(n, k, range(steps)))}")


def ask_step(view, c, k, step, counts):
    no = view.refused(c, k)
    n, steps, _ = (0, 0, 0) if no else view.lanes(c)
    enter = [view.flag(l * n + step) for l in range(8)]
    leave = [view.flag(l * n + step - (k - 1)) if step >= k - 1 else 0 for l in range(8)]
    sums = [count + flag for count, flag in zip(counts, enter)]
    if not no and (step >= steps or any(count > k - 1 for count in counts) or any(s < flag for s, flag in zip(sums, leave))):
        no = BAD_STREAM
    after = [0] * 8 if no else [s - flag for s, flag in zip(sums, leave)]
    cases.append(f"step {view.told} {c} {k} {step} " + " ".join(map(str, counts)))
    answers.append(f"{no} {0 if no else step + 1} {listed(entries(not no and s > 0 for s in sums))} " + " ".join(map(str, after)))


def some_view(length, longer=0):
    rare = dice.choice((2, 6, 20))
    return View([int(dice.randrange(rare) == 0) for _ in range(length)], dice.randrange(18), longer)


# Short views, small numbers, one and all: a buffer that is just enough, and one that is one short.
for length in (0, 1, 2, 3, 5, 8, 9):
    view = some_view(length)
    for c, k in itertools.product(range(6), range(6)):
        ask_all(view, c, k)
        _, steps, _ = view.lanes(max(c, 1))
        for skip in {*range(6), steps - 1, steps, steps + 1} - {-1}:
            for spare in (0, -1):
                ask_fill(view, c, k, skip, spare)

# Around every limit: the least skip and the least context of k, the steps, the room, and k itself.
for length in (7, 31, 64, 65, 120, 200):
    view = some_view(length)
    for k in (1, 2, 7, 31, 32, 33, 64, 95, 96, 97):
        for c in {k - 1, k, k + 1, length, length + 1}:
            ask_all(view, c, k)
            _, steps, _ = view.lanes(max(c, 1))
            for skip in {0, k - 2, k - 1, k, steps - 1, steps, steps + 1, 2**64 - 1} - {-1}:
                for spare in (0, 3, -1, -(8 * 400)):
                    ask_fill(view, c, k, skip, spare)

# Views that are no views, and the largest numbers.
for longer in (1, 8, 400, 2**64 - 21):
    for c, k, skip in ((0, 0, 0), (1, 1, 0), (2, 2, 0), (2, 2, 1), (1, 2, 99)):
        ask_fill(some_view(20, longer), c, k, skip)
        ask_all(some_view(20, longer), c, k)
for c in (FAR, FAR + 1, 2**63, 2**64 - 1):
    for k in (1, 96, 97, 2**64 - 1):
        for skip in (0, 1, 2**64 - 1):
            ask_fill(some_view(20), c, k, skip)

# Steps from any state.
for _ in range(1500):
    length, k = dice.choice((0, 9, 70, 200)), dice.choice((0, 1, 2, 3, 31, 96, 97))
    c = dice.choice((1, k, k + 1, 0, length))
    view = some_view(length)
    _, steps, _ = view.lanes(max(c, 1))
    state = [dice.randrange(max(1, k)) for _ in range(8)]
    if dice.randrange(6) == 0:
        state[dice.randrange(8)] = dice.choice((k, k + 1, 2**32 - 1)) % 2**32
    ask_step(view, c, k, dice.choice((0, 1, max(0, k - 2), k, max(1, steps) - 1, steps, dice.randrange(steps + 2))), state)

for name, lines in (("cases", cases), ("answers", answers)):
    with open(f"{sys.argv[1]}/{name}", "w", encoding="ascii") as file:
        file.write("\n".join(lines) + "\n")
