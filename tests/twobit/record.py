"""record.py FILE ..: what two other programs read in a .2bit file, written beside it, as FILE with .txt for .2bit: a line for each
sequence, its name, size, number of mask blocks and capital letters, with tabs between. Bio.SeqIO reads all; py2bit reads the little-endian
ones again, and must read the same. A version that Bio.SeqIO does not read gives the one line "refused"."""
import itertools
import sys

import py2bit
from Bio import SeqIO


def masked(letters):
    """The runs of small letters: the mask blocks, where no two touch."""
    return sum(small for small, _ in itertools.groupby(letters, str.islower))


def by_biopython(path):
    with open(path, "rb") as file:
        found = [(record.id, str(record.seq)) for record in SeqIO.parse(file, "twobit")]
    return [(name, letters.upper(), masked(letters)) for name, letters in found]


def by_py2bit(path):
    file = py2bit.open(path, True)
    found = [(name, file.sequence(name).upper(), len(file.softMaskedBlocks(name))) for name in file.chroms()]
    file.close()
    return found


for path in sys.argv[1:]:
    try:
        found = by_biopython(path)
    except ValueError as error:
        print(f"{path}: {error}")
        lines = ["refused"]
    else:
        with open(path, "rb") as file:
            little = file.read(1) == b"\x43"
        if little:
            assert sorted(found) == sorted(by_py2bit(path)), path
        print(f"{path}: {len(found)} sequences, by Bio.SeqIO{' and py2bit' if little else ''}")
        lines = [f"{name}\t{len(letters)}\t{masks}\t{letters}" for name, letters, masks in found]
    with open(path.removesuffix(".2bit") + ".txt", "w", encoding="ascii") as file:
        file.write("".join(line + "\n" for line in lines))
