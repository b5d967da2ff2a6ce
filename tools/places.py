"""Lists the places in src/ that docs/DESIGN-PASS.md counts, by point: `python3 tools/places.py [POINT] [TREE]`. Without a point it prints the counts.
TREE is a checkout, this one if none is named."""
import difflib
import itertools
import pathlib
import re
import sys

FUNCTION = re.compile(r'^( *)(?:pub )?(?:unsafe )?(?:extern "C" )?fn (\w+)(.*?)^\1\{\n(.*?)^\1\}$|^( *)(?:pub )?fn (\w+)([^\n]*) \{\n(.*?)^\5\}$', re.M | re.S)
WORD = re.compile(r"[A-Za-z_]\w*|\d[\w.]*|\S")
# What is counted line by line: a point, what it is, and the pattern.
LINES = [
    (1, "a refusal's number", r"\brefusals::[A-Z_]{4,}\b"),
    (1, "a kind's number", r"\bkind::[A-Z_]{3,}\b|\bkind: u8\b|\bmode: u8\b|\bway: u8\b"),
    (1, "a number for a use, a sort or a language", r"\b(?:shapes::)?(?:UNUSED|ATOM_NUMBER|FORMULA|PATH|CORE|FULL)\b|\blanguage: u8\b"),
    (1, "a number that stands for none or for many", r"\b(?:OUTSIDE|MANY|NO_RULE)\b"),
    (1, "an answer with a flag or a refusal beside its value", r"-> (?:Counted|Valued|Judged|Atom)\b|^ *(?:Counted|Valued|Judged|return Counted|return Judged|return Valued) \{"),
    (3, "a loop that counts an index", r"^ *(?:'\w+: )?while "),
    (4, "a conversion by `as`", r"\bas (?:u8|u16|u32|u64|usize)\b"),
    (4, "a conversion, a comparison or a bound in a function of its own", r"^(?:pub )?fn (?:wide|value|sooner|one_more|one_less|is|is_digit|lesser|greater)\("),
    (6, "a buffer or a table with a place or a length beside it", r"^(?!ghost).*(?:buffer|out|table|text|records): &mut \[.*\b(?:at|from|n|size|start|end): usize|^ *(?:at|from|n|start): usize,$"),
    (6, "several values packed into one number", r"\b0x0?1_[0-9A-F_]+|\bBYTE\b|\bMODE \*|/ MODE\b|% MODE\b"),
    (7, "a test of which step it is", r"\bif (?:step|steps::\w+) (?:<|<=|==) |\bif steps::PART_A <= step"),
]

def functions(tree):
    for path in sorted(tree.glob("crates/*/src/**/*.rt")):
        text = path.read_text()
        for found in FUNCTION.finditer(text):
            name, contract, body = (found[2], found[3], found[4]) if found[2] else (found[6], found[7], found[8])
            yield path.relative_to(tree), text[: found.start()].count("\n") + 1, name, contract, body

def shape(body):
    return [w if not re.match(r"[A-Za-z_\d]", w) or w in {"while", "for", "in", "if", "else", "match", "let", "mut", "return"} else "_" for w in WORD.findall(re.sub(r"//.*", "", body))]

def twins(tree):
    """Pairs of functions of the same shape, seven tokens in eight, from 25 tokens on."""
    found = [(path, line, name, shape(body)) for path, line, name, _, body in functions(tree) if path.parts[1] != "pasturequill_c"]
    found = [one for one in found if len(one[3]) >= 25]
    for x, y in itertools.combinations(found, 2):
        if difflib.SequenceMatcher(None, x[3], y[3], autojunk=False).ratio() >= 0.875:
            yield f"{x[0]}:{x[1]} {x[2]} ~ {y[0]}:{y[1]} {y[2]}"

def facts(tree):
    """Facts that stand in what three functions or more require."""
    where = {}
    for path, line, name, contract, _ in functions(tree):
        for clause in re.findall(r"requires(?: \w+)? \{ (.*) \}$", contract, re.M):
            for fact in clause.split(" × "):
                where.setdefault(fact.strip().strip("()"), []).append(f"{path.parts[1]}::{name}")
    for fact, names in sorted(where.items()):
        if len(set(names)) >= 3:
            for name in sorted(set(names)):
                yield f"{fact}: {name}"

def parameters(tree):
    """Three parameters or more that three functions or more take together."""
    where = {}
    for path, line, name, contract, _ in functions(tree):
        taken = re.findall(r"(\w+: [^,()]+?)(?=[,)]|$)", contract.split("->")[0].split("requires")[0].split("ensures")[0].replace("\n", " "))
        for three in itertools.combinations(sorted({one.strip() for one in taken}), 3):
            where.setdefault(three, set()).add(f"{path.parts[1]}::{name}")
    for three, names in sorted(where.items()):
        if len(names) >= 3:
            yield f"{', '.join(three)}: {', '.join(sorted(names))}"

def places(tree):
    found = {(2, "functions of one shape"): list(twins(tree)), (5, "a fact that three functions or more require"): list(facts(tree)), (5, "parameters that three functions or more take together"): list(parameters(tree))}
    for point, what, pattern in LINES:
        lines = found[point, what] = []
        for path in sorted(tree.glob("crates/*/src/**/*.rt")):
            for number, line in enumerate(path.read_text().splitlines(), 1):
                if not line.lstrip().startswith("//") and not line.startswith(("ghost use", "use ")) and re.search(pattern, line):
                    lines.append(f"{path.relative_to(tree)}:{number}: {line.strip()}")
    return dict(sorted(found.items()))

def main():
    words = sys.argv[1:]
    wanted = int(words.pop(0)) if words and words[0].isdigit() else None
    tree = pathlib.Path(words[0] if words else pathlib.Path(__file__).resolve().parent.parent)
    for (point, what), lines in places(tree).items():
        if wanted in (None, point):
            print(f"{point} {what}: {len(lines)}")
        if wanted == point:
            print(*("    " + line for line in lines), sep="\n")

main()
