"""exchange.py FOLDER: FASTA, random and real, made .2bit by FOLDER/fasta_to_2bit, and read by py2bit, by Bio.SeqIO and, where it is there, by
rtracklayer: every name, letter, N block, and no mask block. Then the recorded files: FOLDER/twobit reads them as these programs do, and
what rtracklayer wrote is written again, byte for byte. SEED sets where the dice begin."""
import os
import random
import shutil
import subprocess
import sys

import py2bit
from Bio import SeqIO

folder, dice = sys.argv[1], random.Random(int(os.environ.get("SEED") or 1))
passed = 0


def hold(holds, what):
    global passed
    if not holds:
        print(f"interop: {what}")
        sys.exit(1)
    passed += 1


def run(program, *words, given=b""):
    return subprocess.run(["tools/run", f"{folder}/{program}", *words], input=given, stdout=subprocess.PIPE, check=True).stdout


def shown(letters):
    """What a reader of the .2bit file shows: U is T, ambiguous letters are N, and case is lost."""
    return "".join(letter if letter in "ACGT" else "N" for letter in letters.upper().replace("U", "T"))


def fasta(sequences, width, end):
    text = ""
    for name, letters in sequences:
        text += f">{name}{end}" + "".join(letters[i : i + width] + end for i in range(0, len(letters), width))
    return text.encode()


def n_blocks(letters):
    found, start = [], None
    for i, letter in enumerate(letters + "A"):
        if letter == "N" and start is None:
            start = i
        elif letter != "N" and start is not None:
            found.append((start, i))
            start = None
    return found


def by_biopython(path):
    with open(path, "rb") as file:
        return [(record.id, str(record.seq).upper()) for record in SeqIO.parse(file, "twobit")]


def by_py2bit(path, sequences):
    file = py2bit.open(path, True)
    hold(file.chroms() == {name: len(letters) for name, letters in sequences}, f"{path}: py2bit reads other names or sizes")
    for name, letters in sequences:
        hold(file.sequence(name).upper() == letters, f"{path}: py2bit reads other letters of {name}")
        hold(file.hardMaskedBlocks(name) == n_blocks(letters), f"{path}: py2bit reads other N blocks of {name}")
        for _ in range(3):
            start = dice.randrange(len(letters))
            end = dice.randrange(start + 1, len(letters) + 1)
            hold(file.sequence(name, start, end).upper() == letters[start:end], f"{path}: py2bit reads other letters of {name} from {start} to {end}")
    masks = [block for name, _ in sequences for block in file.softMaskedBlocks(name)]
    file.close()
    return masks


def exchange(name, text):
    """One FASTA text, made .2bit and read by others."""
    path = f"{folder}/{name}.2bit"
    with open(path, "wb") as file:
        file.write(run("fasta_to_2bit", given=text))
    with open(f"{folder}/{name}.fa", "wb") as file:
        file.write(text)
    # The FASTA reader is Biopython's too; it ends a line at CR LF or LF.
    with open(f"{folder}/{name}.fa", encoding="ascii") as file:
        sequences = [(record.id, shown(str(record.seq))) for record in SeqIO.parse(file, "fasta")]
    hold(by_biopython(path) == sequences, f"{path}: Biopython reads other sequences")
    # py2bit takes no file without sequences, and no sequence without letters.
    if sequences and all(letters for _, letters in sequences):
        hold(by_py2bit(path, sequences) == [], f"{path}: py2bit reads mask blocks")
    return path, sequences


def some(n):
    """Letters with runs of N, of other ambiguous letters, of small ones."""
    text = ""
    while len(text) < n:
        text += "".join(dice.choices(dice.choice(["ACGT", "ACGU", "acgt", "acgu", "N", "n", "ACGTN", "RYKMSWBDHVUN"]), k=dice.choice([1, 2, 3, 4, 5, 8, 60])))
    return text[:n]


def random_fasta():
    sizes = [dice.choice([dice.randrange(1, 20), dice.randrange(1, 200), dice.randrange(1, 3000)]) for _ in range(dice.randrange(1, 9))]
    if dice.random() < 0.2:
        sizes[dice.randrange(len(sizes))] = 0
    return fasta([(f"s{i}" + "x" * dice.choice([0, 1, dice.randrange(200)]), some(n)) for i, n in enumerate(sizes)], dice.choice([1, 7, 60, 4000]), dice.choice(["\n", "\r\n"]))


made = [exchange(sample.removesuffix(".fa"), open(f"samples/{sample}", "rb").read()) for sample in sorted(os.listdir("samples"))]
made += [exchange(f"random{i}", random_fasta()) for i in range(300)]
made.append(exchange("empty", b""))
made.append(exchange("no-letters", b">a\n>b\nACGTN\n>c\n"))
made.append(exchange("thousand", fasta([(f"s{i}", some(1 + i % 50)) for i in range(1000)], 60, "\n")))
made.append(exchange("long", fasta([("long", some(1000003))], 80, "\n")))
made.append(exchange("all-n", fasta([("n", "N" * 70001), ("a", "A" * 9)], 80, "\n")))
made.append(exchange("every-size", fasta([(f"s{n}", some(n)) for n in range(1, 300)], 60, "\n")))

# The recorded files, as others read them now, and as they were recorded.
recorded = sorted(name for name in os.listdir("tests/twobit") if name.endswith(".2bit"))
for name in recorded:
    path = f"tests/twobit/{name}"
    listed = run("twobit", path).decode()
    try:
        sequences = by_biopython(path)
    except ValueError:
        hold(listed == "refused\n", f"{path}: is read, but not by Biopython")
        continue
    rows = [line.split("\t") for line in listed.splitlines()]
    hold([(row[0], row[3]) for row in rows] == sequences, f"{path}: is read otherwise than by Biopython")
    if name.startswith("rtracklayer") and not any(" " in given for given, _ in sequences):
        again = run("fasta_to_2bit", given=fasta(sequences, 60, "\n"))
        hold(again == open(path, "rb").read(), f"{path}: is written again with other bytes")

# UCSC's own code, where it is there, reads what the archive wrote.
left_out = ""
if shutil.which("Rscript") and subprocess.run(["Rscript", "-e", "library(rtracklayer)"], capture_output=True).returncode == 0:
    said = subprocess.run(["Rscript", "tests/twobit/read.R", *(path for path, _ in made)], stdout=subprocess.PIPE, check=True, text=True)
    rows = [tuple(line.split("\t")) for line in said.stdout.splitlines()]
    for path, sequences in made:
        hold([row[1:] for row in rows if row[0] == path] == sequences, f"{path}: rtracklayer reads other sequences")
else:
    left_out = ", 1 not run: rtracklayer is not there (Debian: apt-get install r-bioc-rtracklayer)"
print(f"interop: {passed} passed, 0 failed{left_out}")
