"""form.py FOLDER: the stored form, from the rules alone: plain and slow. Writes FOLDER/cases for tests/form.c, and FOLDER/answers, what the
rules say to each: a refusal number, a number, and the bytes of the buffers written to, which are 238 before."""
import itertools
import random
import sys

BEHIND, MOST = 48, 2**29
BAD_VIEW, BAD_RANGE, BAD_FORM, NO_ROOM = 3, 4, 7, 9
dice = random.Random(1)


def up(n, m):
    return -(-n // m)


def packed(width, chars):
    """Character i in byte i / C8, at bit width (i mod C8)."""
    c8 = 8 // width
    lines = [chars[i::c8] for i in range(c8)]
    return bytes(sum(c << width * i for i, c in enumerate(byte)) for byte in itertools.zip_longest(*lines, fillvalue=0))


def characters(width, track):
    return [byte >> bit & (1 << width) - 1 for byte in track for bit in range(0, 8, width)]


def spelt(n):
    """Groups of seven bits, low group first, the top bit set on all but the last byte."""
    groups = [n % 128]
    while n := n // 128:
        groups.append(n % 128)
    return bytes(g + 128 for g in groups[:-1]) + bytes(groups[-1:])


def written(bases, flags):
    return b"\1" + spelt(len(bases)) + packed(2, bases) + packed(1, flags)


def read(form):
    """The two tracks' bytes and their length, or None where a rule is broken."""
    if form[:1] != b"\1":
        return None
    length = list(itertools.takewhile(lambda byte: byte >= 128, form[1:]))
    length = form[1 : len(length) + 2]
    if not 1 <= len(length) <= 5 or length[-1] >= 128:
        return None
    n = sum(byte % 128 << 7 * i for i, byte in enumerate(length))
    if n > MOST or spelt(n) != length:
        return None
    rest = form[1 + len(length) :]
    bases, flags = rest[: up(n, 4)], rest[up(n, 4) :]
    if len(bases) != up(n, 4) or len(flags) != up(n, 8):
        return None
    if any(characters(2, bases[n // 4 :])[n % 4 :]) or any(characters(1, flags[n // 8 :])[n % 8 :]):
        return None
    return n, bases, flags


assert written([0, 1, 3, 2, 3], [0, 0, 0, 0, 1]) == bytes.fromhex("0105B40310")

cases, answers = [], []


def listed(data):
    return f"{len(data)} {data.hex() or '-'}"


def over(data, room):
    return data + b"\xee" * (room - len(data))


def ask_read(form, bases_room=None, flags_room=None):
    got = read(form)
    n = got[0] if got else 0
    rooms = [up(n, 4) + BEHIND, up(n, 8) + BEHIND]
    given = [r if r is not None else least for r, least in zip((bases_room, flags_room), rooms)]
    no = BAD_FORM if not got else NO_ROOM if given[0] < rooms[0] or given[1] < rooms[1] else 0
    buffers = [b"", b""] if no else [track + bytes(BEHIND) for track in got[1:]]
    cases.append(f"read {listed(form)} {given[0]} {given[1]}")
    answers.append(f"{no} {0 if no else n} " + " ".join(listed(over(b, r)) for b, r in zip(buffers, given)))


def some(width, n):
    return dice.choices(range(1 << width), k=n)


def dressed(width, chars):
    """A view of these characters: its bytes, with stray bits around, and its offset."""
    offset = dice.randrange(20)
    strays = some(width, -(offset + len(chars)) % (8 // width))
    return packed(width, some(width, offset) + chars + strays) + dice.randbytes(BEHIND), offset


def ask_write(bases, flags, spare=0, longer=(0, 0)):
    """Into a buffer with so many bytes more than the form, of views so many characters longer than their bytes allow."""
    (b, o), (f, r) = dressed(2, bases), dressed(1, flags)
    n, m = len(bases) + longer[0], len(flags) + longer[1]
    form = written(bases, flags) if n == m else b""
    room = max(0, len(form) + spare)
    bad_view = o + n + BEHIND * 4 > len(b) * 4 or r + m + BEHIND * 8 > len(f) * 8
    no = BAD_VIEW if bad_view else BAD_RANGE if n != m else NO_ROOM if room < len(form) else 0
    cases.append(f"write {listed(b)} {o} {n} {listed(f)} {r} {m} {room}")
    answers.append(f"{no} {0 if no else len(form)} {listed(over(b'' if no else form, room))}")


def broken(form):
    assert read(form) is None, form[:20].hex()
    ask_read(form)


# Short forms, one and all, of bytes that can matter.
for size in range(5):
    for form in itertools.product([0, 1, 2, 4, 127, 128, 129, 255], repeat=size):
        ask_read(bytes(form))

small = [*range(41), 127, 128, 129, 255, 256, 16383, 16384, 16385]
for n in small:
    bases, flags = some(2, n), some(1, n)
    form = written(bases, flags)
    assert read(form) == (n, packed(2, bases), packed(1, flags))
    for spare in (0, 3, -1):
        ask_write(bases, flags, spare)
    exact = up(n, 4) + BEHIND, up(n, 8) + BEHIND
    for more, too in ((0, 0), (2, 5), (-1, 0), (0, -1), (-1, -1)):
        ask_read(form, exact[0] + more, exact[1] + too)
    # Each rule broken once.
    length, rest = spelt(n), form[1 + len(spelt(n)) :]
    for edition in (0, 2, 129, 255):
        broken(bytes([edition]) + form[1:])
    broken(form[:-1])
    broken(form + b"\0")
    broken(form + b"\1")
    ask_read(form + b"\0", 0, 0)  # form before room
    for cut in range(1 + len(length)):
        broken(form[:cut])
    unended = length[:-1] + bytes([length[-1] + 128])
    for zeros in range(5):
        broken(b"\1" + unended + b"\x80" * zeros + b"\0" + rest)
        broken(b"\1" + unended + b"\xff" * zeros + rest)
    for other in (n + 8, n + 128, 2**28 - 1, 2**28, MOST - 1, MOST, MOST + 1, 2**32 + n, 2**35 - 1, 2**35 + n, 2**64 + n):
        broken(b"\1" + spelt(other) + rest)
    for bit in range(2 * n % 8 or 8, 8):
        broken(form[: -up(n, 8) - 1] + bytes([form[-up(n, 8) - 1] | 1 << bit]) + form[-up(n, 8) :])
    for bit in range(n % 8 or 8, 8):
        broken(form[:-1] + bytes([form[-1] | 1 << bit]))
    # Views that are no views, or not of one length.
    for longer in ((0, 1), (1, 0), (0, 400), (40, 40), (2**64 - 1 - n, 0), (2**64 - 1 - n, 2**64 - 1 - n)):
        ask_write(bases, flags, 0, longer)
    ask_write(bases, flags + [0], 0)
    ask_write(bases + [0] * 9, flags, 0)

# Forms with a few bits turned, bytes dropped or put in.
for _ in range(3000):
    n = dice.choice([dice.randrange(24), dice.randrange(400)])
    form = bytearray(written(some(2, n), some(1, n)))
    for _ in range(dice.randrange(4)):
        place = dice.choice([0, 1, 2, dice.randrange(len(form) + 1), len(form)])
        change = dice.randrange(3)
        if change == 0 and place < len(form):
            form[place] ^= 1 << dice.randrange(8)
        elif change == 1:
            del form[place : place + 1]
        else:
            form[place:place] = dice.randbytes(1)
    ask_read(bytes(form))

# Lengths of three bytes and of four.
for n in (2097151, 2097152):
    bases, flags = some(2, n), some(1, n)
    ask_write(bases, flags)
    ask_read(written(bases, flags))

# Lengths of four bytes and of five, the longest, and one more: tests/form.c makes the tracks, and holds them itself.
for n in (2**28 - 1, 2**28, MOST, MOST + 1):
    cases.append(f"long {n} {listed(bytes([1]) + spelt(n))}")
    answers.append("fine" if n <= MOST else f"{BAD_RANGE} {BAD_FORM}")

for name, lines in (("cases", cases), ("answers", answers)):
    with open(f"{sys.argv[1]}/{name}", "w", encoding="ascii") as file:
        file.write("\n".join(lines) + "\n")
