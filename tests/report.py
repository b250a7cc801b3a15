"""The report of a FASTA file, from the rules alone: plain and slow. Reads standard input, writes standard output."""
import sys

HEADING = "record\tbases\tambiguous\tstrand\n"


def lossy(byte):
    return byte // 2 % 4


def strand(letters):
    bases = [lossy(b) for b in letters]
    other = [b ^ 2 for b in reversed(bases)]
    if bases < other:
        return "<"
    if bases > other:
        return ">"
    return "="


def lines(data):
    """Lines end at LF or at the end of input; one CR directly before the LF, or as the last byte of input, belongs to the line end."""
    found = data.split(b"\n")
    if found[-1] == b"":
        found.pop()
    return [line.removesuffix(b"\r") for line in found]


def report(data):
    records = []
    for line in lines(data):
        if line.startswith(b">"):
            records.append(b"")
        elif records:
            records[-1] += line
        elif line:
            return HEADING + "refused\n"
    text = HEADING
    for number, letters in enumerate(records, 1):
        if len(letters) > 16384:
            text += f"{number}\ttoo-long\n"
        else:
            ambiguous = sum(1 for b in letters if b not in b"ACGTUacgtu")
            text += f"{number}\t{len(letters)}\t{ambiguous}\t{strand(letters)}\n"
    return text + f"total\t{len(records)}\n"


if __name__ == "__main__":
    sys.stdout.write(report(sys.stdin.buffer.read()))
