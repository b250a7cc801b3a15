"""signatures.py [HEADER [RUST]]: the C header and the Rust face declare the functions that crates/abi exports: their names, what they
answer, and the types, order and names of their parameters; the header's attributes name the places of these parameters. Prints what
differs, and exits with 1 where anything does."""
import glob
import re
import sys

WORDS = {"u8": "uint8_t", "u16": "uint16_t", "u32": "uint32_t", "u64": "uint64_t", "i32": "int32_t", "usize": "size_t", "bool": "bool"}
# What crates/abi calls the numbers of two views: a's offset, and so on.
SHORT = {f"{name[0]}{word[0]}": f"{name}_{word}" for name in ("a", "b", "pattern", "text") for word in ("offset", "len")}
# A buffer of bytes comes with its size, one of wider entries with their number; the entries beside a store are its counts.
MANY = {"u8": "size", "u16": "entries", "u32": "entries"}
FUNCTION = r"\bfn\s+(tsiv_\w+)\s*\(([^()]*)\)\s*->\s*(\w+)"


def from_rust(name, kind):
    """A parameter in Rust's or Rattle's words, in C's; a slice is two, its entries and how many."""
    name, kind = name.strip(), kind.strip()
    if kind == "usize" and name in SHORT:
        name = SHORT[name]
    if kind in WORDS:
        return [f"{WORDS[kind]} {name}"]
    pointer, changed, inner = re.fullmatch(r"(&|\*)(mut |const |)(.*)", kind).groups()
    const = "" if changed == "mut " else "const "
    if run := re.fullmatch(r"\[(\w+); (\d+)\]", inner):
        return [f"{const}{WORDS[run[1]]} {name}[{run[2]}]"]
    if entries := re.fullmatch(r"\[(\w+)\]", inner):
        name = "counts" if name == "entries" else name
        return [f"{const}{WORDS[entries[1]]} *{name}", f"size_t {name}_{MANY[entries[1]]}"]
    return [f"{const}{WORDS[inner]} *{name}"]


def rust(text, mark):
    text = re.sub(r"//.*", "", text)
    found = {}
    for name, parameters, answer in re.findall(mark + FUNCTION, text):
        pairs = [p.split(":", 1) for p in parameters.split(",") if p.strip()]
        found[name] = WORDS[answer], [c for pair in pairs for c in from_rust(*pair)]
    # nothing that looks like a function may have been passed over
    assert len(found) == len(re.findall(r"\bfn\s+tsiv_", text)), "a function that this script cannot read"
    return found


def attributes(name, parameters):
    """What the header is to say behind the parameters: which are numbers, and which are buffers with what is told of their size."""
    numbers, buffers = [], []
    for i, (one, next) in enumerate(zip(parameters, [*parameters[1:], ""]), 1):
        kind, pointer, word = one.partition("*")
        if pointer and re.fullmatch(f"size_t {word}_(size|entries)", next):
            stays = "READS" if kind.startswith("const") else "CHANGES" if word == "buffer" and "_clear" not in name else "WRITES"
            buffers.append(f"TSIV_{stays}({i}, {i + 1})")
        elif pointer or "[" in one:
            numbers.append(str(i))
    return " ".join([f"TSIV_GIVES({', '.join(numbers)})"] * bool(numbers) + buffers)


def header(text):
    text = re.sub(r"/\*.*?\*/", "", text, flags=re.S)
    found = {}
    for answer, name, parameters, said in re.findall(r"^(?:TSIV_USE )?(\w+) (tsiv_\w+)\(([^()]*)\)([^;{]*);", text, re.M):
        found[name] = answer, [" ".join(p.split()) for p in parameters.split(",") if p.strip() != "void"], " ".join(said.split())
    names = set(re.findall(r"\btsiv_\w+(?=\()", text)) - {"tsiv_refusal_name"}  # C text of the header itself
    assert set(found) == names, "a function that this script cannot read"
    return found


def told(functions, name, behind):
    if name not in functions:
        return "nothing"
    answer, parameters, *said = functions[name]
    said = said or [attributes(name, parameters)]
    return f"{answer} {name}({', '.join(parameters)}) {said[0] if behind else ''}".rstrip()


def read(path):
    return open(path, encoding="utf-8").read()


given = dict(enumerate(sys.argv[1:]))
sources = sorted(glob.glob("crates/abi/src/**/*.rt", recursive=True))
exported = rust("\n".join(map(read, sources)), r'#\[unsafe\(no_mangle\)\]\s+pub extern "C" ')
faces = {
    "the header": header(read(given.get(0, "include/tsivelaro.h"))),
    "the Rust face": rust(read(given.get(1, "bindings/rust/src/sys.rs")), "pub "),
}
assert exported
wrong = 0
for face, functions in faces.items():
    for name in sorted(exported.keys() | functions.keys()):
        expected, declared = (told(functions_of, name, face == "the header") for functions_of in (exported, functions))
        if expected != declared:
            wrong += 1
            print(f"signatures: crates/abi exports {expected}\n  {face} declares {declared}")
print(f"signatures: {len(exported)} functions in crates/abi and two faces, {wrong} differences")
sys.exit(wrong != 0)
