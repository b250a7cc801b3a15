"""cases PROGRAM WORD ..: runs the program on inputs that are too large, too odd or too many to keep, and compares all that it writes with
what report.py makes of the rules. Prints a line for each case and for each family of cases; exits with 1 where one differs.

CASES=n takes so many random inputs (3,000 if it is not set), SEED=n others."""
import os
import random
import subprocess
import sys
from concurrent.futures import ThreadPoolExecutor

from report import report

SEED = int(os.environ.get("SEED") or 1)
RANDOM = int(os.environ.get("CASES") or 3000)
dice = random.Random(SEED)


def letters(n, among=b"ACGT"):
    return bytes(dice.choices(among, k=n))


def single():
    """Inputs with a name each."""
    yield "limit", b">a\n" + letters(16384) + b"\n"
    yield "over", b">a\n" + letters(16385) + b"\n>b\nAC\n"
    yield "limit-in-lines", b">a\n" + b"".join(letters(60) + b"\n" for _ in range(273)) + letters(4) + b"\n>b\n"
    yield "over-in-lines", b">a\n" + b"".join(letters(60) + b"\n" for _ in range(273)) + letters(5) + b"\n>b\n"
    yield "long-line", b">a\n" + letters(10000, b"ACGTN") + b"\n" + letters(3000) + b"\n>b\nG\n"
    yield "very-long-line", b">a\n" + letters(100000) + b"\n>b\nG"
    yield "long-header", b">" + letters(9000) + b"\nACGT\n>" + letters(4094) + b"\nAC\n>" + letters(4095) + b"\nGG\n"
    yield "odd-bytes", b">a\n\x00\xff\x80ACGT\x00\r\n>\x00\xff\nacgtnN\xff\n"
    yield "every-byte", b">a\n" + bytes(b for b in range(256) if b != 10) + b"\n"
    yield "many", b"".join(b">%d\n" % i + letters(dice.randrange(0, 40), b"ACGTUacgtuN") + b"\n" for i in range(5000))
    yield "rna-at-every-place", b"".join(b">\n" + other * i + u + other * (23 - i) + b"\n" for u in (b"U", b"u") for other in (b"A", b"N") for i in range(24))
    yield "headers", b">\n" * 5000
    yield "blank", b"\n" * 9000 + b">a\nAC\n\n\n" + b"\n" * 5000 + b"GT\n"
    yield "late-refused", b"\n" * 9000 + b"ACGT\n>a\nAC\n"
    half = letters(4000)
    yield "palindrome", b">a\n" + half + half.translate(bytes.maketrans(b"ACGT", b"TGCA"))[::-1] + b"\n"
    for n in (4095, 4096, 4097, 8191, 8192, 8193):
        head = b">a\n"
        yield f"cut-{n}", head + letters(n - len(head) - 1) + b"\n>b\nAC\n"
        yield f"cut-in-line-{n}", head + letters(n - len(head)) + b">CC\n>b\nAC"
    yield "returns-alone", b"\r" * 9000
    yield "return-alone", b"\r"
    yield "blank-returns", b"\r\n" * 5000 + b">a\r\nAC\r\n\r\n" + b"\r\n" * 5000 + b"GT\r\n"
    yield "late-refused-returns", b"\r\n" * 5000 + b"\rACGT\r\n"
    yield "return-before-sign", b"\r>a\nAC\n"
    yield "return-before-sign-in-a-record", b">a\nAC\n\r>b\nGT\n"
    yield "mixed-ends", b">a\r\nACGT\nAC\r\r\n\n\r\nG\r>b\n>c\r\nGG\n>d\nAC\r\n"
    yield "ends-in-return", b">a\nAC\r"
    yield "ends-in-two-returns", b">a\nAC\r\r"
    yield "header-ends-in-return", b">a\nAC\n>b\r"
    for n in range(16383, 16387):
        for name, end in (("lf", b"\n"), ("cr-lf", b"\r\n"), ("cr-cr-lf", b"\r\r\n")):
            yield f"letters-{n}-{name}", b">a" + end + letters(n) + end + b">b" + end + b"AC"
        yield f"letters-{n}-cr", b">a\n" + letters(n) + b"\r"


PLACES = [*range(4094, 4099), *range(8190, 8195)]


def ends_at_cuts():
    """A line's end, or what looks like one, at each place near those where the bytes read so far may end."""
    for place in PLACES:
        for end in (b"\r", b"\n", b"\r\r", b"\r\n"):
            for before in (b">a\n", b""):
                fill = letters(place - len(before)) if before else b"\r\n" * (place // 2) + b"\n" * (place % 2)
                for after in (b"", b"AC\n>b\nG\n", b">CC\r\n>b\r\nG", b"\n>b\nG\n"):
                    yield before + fill + end + after


def at_random():
    """Bytes among CR, LF, `>`, A, C, N, U and u, lengths near the places where a read, a line or a record ends."""
    lively, plain, long = (3, 3, 1, 2, 2, 2, 1, 1), (2, 2, 0.05, 40, 40, 40, 20, 20), (1, 0.3, 0, 500, 500, 500, 250, 250)
    for _ in range(RANDOM):
        near = dice.choice((0, 0, 4096, 4096, 8192, 8192, 16384))
        size = dice.randrange(14) if near == 0 else near + dice.randrange(-6, 9)
        weights = dice.choice((lively, lively, plain, long)) if near < 16384 else long
        data = bytearray(dice.choices(b"\r\n>ACNUu", weights, k=size))
        if dice.random() < 0.8:
            data[:0] = dice.choice((b">", b">\n", b">A\r\n", b"\r\n>\r\n", b"\n\r\n>\n"))
        for place in dice.sample(PLACES, 4):
            if place < len(data) and dice.random() < 0.7:
                data[place] = dice.choice(b"\r\r\r\n\n>A")
        yield bytes(data) + dice.choice((b"", b"", b"\n", b"\r\n", b"\r", b"\r\r", b"\r\r\n"))


def differs(data):
    ran = subprocess.run(sys.argv[1:], input=data, stdout=subprocess.PIPE, stderr=subprocess.STDOUT)
    return ran.returncode != 0 or ran.stdout != report(data).encode()


def compared(pool, name, inputs):
    inputs = list(inputs)
    wrong = [data for data, bad in zip(inputs, pool.map(differs, inputs)) if bad]
    print(f"{'FAIL' if wrong else 'ok  '} {name}" + (f", the first of {len(wrong)}: {wrong[0][:80]!r}.. of {len(wrong[0])} bytes" if wrong else ""), flush=True)
    return not wrong


with ThreadPoolExecutor(os.cpu_count()) as pool:
    good = [compared(pool, name, [data]) for name, data in single()]
    cuts = list(ends_at_cuts())
    good.append(compared(pool, f"line ends at the cuts: {len(cuts)} inputs", cuts))
    good.append(compared(pool, f"random: {RANDOM} inputs, seed {SEED}", at_random()))
sys.exit(not all(good))
