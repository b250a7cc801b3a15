#!/usr/bin/env python3
"""edges.py: what other programs do with .2bit files at the edge of the rules: py2bit, Biopython, bx-python and rtracklayer, each in a process
of its own with 8 GiB of memory and a minute, so that a crash is seen. A program that is not there is left out. docs/DIFFERENCES.md has
what it printed."""
import resource, struct, subprocess, sys, tempfile

READERS = {
    "py2bit": "import py2bit, sys; t = py2bit.open(sys.argv[1]); [print(n, t.sequence(n)) for n in t.chroms()]",
    "Biopython": "import sys; from Bio import SeqIO; [print(r.id, r.seq) for r in SeqIO.parse(sys.argv[1], 'twobit')]",
    "bx": "import sys, bx.seq.twobit as b; t = b.TwoBitFile(open(sys.argv[1], 'rb')); "
    "k = list(t.keys()); [print(n.decode() if isinstance(n, bytes) else n, t[n].get(0, t[n].size)) for n in k]",
}
R = "suppressMessages(library(rtracklayer)); t <- TwoBitFile(commandArgs(TRUE)[1]); s <- import(t); for (n in names(s)) cat(n, as.character(s[[n]]), '\\n')"


def file(blocks=(), masks=(), size=8, version=0, width=4, counts=None, sequences=1, bases=b"\x1b\x1b"):
    """A file of one sequence, TCAGTCAG, with these N and mask blocks."""
    table = lambda bs, n: struct.pack("<I", n) + b"".join(struct.pack("<I", s) for s, _ in bs) + b"".join(struct.pack("<I", z) for _, z in bs)
    n = counts or len(blocks)
    record = struct.pack("<I", size) + table(blocks, n) + table(masks, len(masks)) + struct.pack("<I", 0) + bases
    at = 16 + 1 + 1 + width
    return struct.pack("<IIII", 0x1A412743, version, sequences, 0) + b"\x01a" + at.to_bytes(width, "little") + record


FILES = {
    "mask block of the first four": file(masks=[(0, 4)]),
    "version 1": file(version=1, width=8),
    "unordered N blocks 6..7, 1..2": file(blocks=[(6, 1), (1, 1)]),
    "overlapping N blocks 1..4, 3..6": file(blocks=[(1, 3), (3, 3)]),
    "2^32 - 1 sequences": file(sequences=2**32 - 1),
    "2^32 - 1 N blocks": file(counts=2**32 - 1),
    "2^32 - 1 letters": file(size=2**32 - 1),
}


def bounded():
    resource.setrlimit(resource.RLIMIT_AS, (8 << 30, 8 << 30))


def said(command, path):
    try:
        run = subprocess.run([*command, path], capture_output=True, text=True, timeout=60, preexec_fn=bounded)
    except subprocess.TimeoutExpired:
        return "no answer in a minute"
    if run.returncode < 0:
        return f"ended by signal {-run.returncode}"
    last = [l for l in run.stderr.strip().splitlines() if l.strip()][-1:] or ["nothing said"]
    if run.returncode:
        return f"refused: {last[0][:70]}"
    return (run.stdout.strip() or "nothing")[:70]


def main():
    commands = {name: [sys.executable, "-c", code] for name, code in READERS.items()}
    commands["rtracklayer"] = ["Rscript", "-e", R]
    there = {}
    for name, command in commands.items():
        module = {"py2bit": "py2bit", "Biopython": "Bio", "bx": "bx.seq.twobit"}.get(name)
        probe = [sys.executable, "-c", f"import {module}"] if module else ["Rscript", "-e", "library(rtracklayer)"]
        try:
            if subprocess.run(probe, capture_output=True).returncode == 0:
                there[name] = command
        except FileNotFoundError:
            pass
    with tempfile.TemporaryDirectory() as work:
        for what, data in FILES.items():
            path = f"{work}/edge.2bit"
            open(path, "wb").write(data)
            print(f"{what} ({len(data)} bytes): {data.hex()}")
            for name, command in there.items():
                print(f"    {name}: {said(command, path)}")


main()
