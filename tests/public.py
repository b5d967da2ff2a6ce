"""Holds the list of public functions to the sources. A public function is one that another crate can call: a `pub fn` in a crate's lib.rt or in
a module that lib.rt makes public, or of a public type there. Each has its field in crates/outcomes/specs/OneOutcome.antt, by name, and its row in docs/PROMISES.md; one that
requires something has its row under "What functions require". A conversion, an `impl From` there, has its field and its row too. What the crate for C exports is each function of the front door, under its name and with
its contract. And every wrong program of docs/PROMISES.md is an edit, and every edit is there."""
import pathlib
import re
import sys

ROOT = pathlib.Path(__file__).resolve().parent.parent
# The program itself: no contract can say what it writes.
NO_OUTCOME = {"listing::run"}
# No crate can cite a static library, so what this one exports has no fields: its contracts are those of the front door, word for word.
FRONT_DOOR, EXPORTED = "pasturequill", "pasturequill_c"
FUNCTION = re.compile(r'^pub (?:extern "C" )?fn (\w+)(.*?)(?:^\{|\{$)', re.M | re.S)
# The methods of a type that is public itself.
METHODS = re.compile(r"^impl(?:<[^>]*>)? (\w+)(?:<[^>]*>)? \{\n(.*?)^\}$", re.M | re.S)
METHOD = re.compile(r"^    pub fn (\w+)(.*?)(?:^    \{|\{$)", re.M | re.S)
CONVERSION = re.compile(r"^impl(?:<[^>]*>)? From<(.*)> for (\w+)(?:<[^>]*>)? \{$", re.M)

def public_modules():
    """Yields (path by crates, text) of each."""
    for line in (ROOT / "crates.txt").read_text().splitlines():
        name = line.split("#")[0].split(":")[0].strip().removesuffix(" staticlib")
        lib = ROOT / "crates" / name / "src/lib.rt"
        if not name or name == EXPORTED or not lib.exists():
            continue
        modules = {"": lib}
        for module in re.findall(r"^pub mod (\w+);", lib.read_text(), re.M):
            modules[module] = lib.with_name(module + ".rt")
        for module, path in modules.items():
            yield [name] + ([module] if module else []), path.read_text()

def public_functions():
    """Yields (path by crates, path in proofs, contract) of each."""
    for place, text in public_modules():
        for found in FUNCTION.finditer(text):
            yield "::".join(place + [found[1]]), place + [found[1]], found[2]
        for block in METHODS.finditer(text):
            if re.search(rf"^pub (?:struct|enum) {block[1]}\b", text, re.M):
                for found in METHOD.finditer(block[2]):
                    parts = place + [block[1], found[1]]
                    yield "::".join(parts), parts, found[2]

def capital(word):
    return word[0].upper() + word[1:]

def conversions():
    """Yields (name in a row of docs/PROMISES.md, path in proofs) of each conversion."""
    for place, text in public_modules():
        for given, made in CONVERSION.findall(text):
            name = f"{capital(made)}From{''.join(map(capital, re.findall(r'[A-Za-z0-9]+', given)))}"
            yield f"`{made}` from `{given}`", place + [name, "from"]

def has_field(parts, alias, outcomes):
    """Whether OneOutcome speaks of the contract: by what the innermost module used there is called, and the path from it."""
    for end in range(len(parts) - 1, 0, -1):
        module = ".".join([parts[0], "proofs"] + parts[1:end])
        if module in alias:
            field = ".".join([alias[module]] + parts[end:]) + ".Reads.Post"
            return re.search(rf"(?<![\w.]){re.escape(field)}(?![\w.])", outcomes) is not None
    return False

def contracts(crate):
    """Each public function of a crate's lib.rt with its parameters and clauses, however they are laid out."""
    found = FUNCTION.findall((ROOT / "crates" / crate / "src/lib.rt").read_text())
    return {name: " ".join(re.sub(r",?\s*\)", ")", re.sub(r"\(\s*", "(", text)).split()) for name, text in found}

def main():
    outcomes = (ROOT / "crates/outcomes/specs/OneOutcome.antt").read_text()
    promises = (ROOT / "docs/PROMISES.md").read_text()
    alias = {path: word for path, word in re.findall(r"^use Rattle\.(\S+) as (\w+)$", outcomes, re.M)}
    faults, count = [], 0
    for path, parts, contract in public_functions():
        count += 1
        if path not in NO_OUTCOME and not has_field(parts, alias, outcomes):
            faults.append(f"{path} has no field in OneOutcome")
        named = parts[-1] if parts[0] == "pasturequill" else path
        if f"`{named}`" not in promises:
            faults.append(f"{path} has no row in docs/PROMISES.md")
        required = promises.split("## What functions require")[-1].split("\n## ")[0]
        if bool(re.search(r"requires(?: \w+)? \{", contract)) != (f"`{path}`" in required):
            faults.append(f"{path}: what it requires and docs/PROMISES.md differ")
    for row, parts in conversions():
        if not has_field(parts, alias, outcomes):
            faults.append(f"{row}: no field in OneOutcome")
        if f"| {row}" not in promises:
            faults.append(f"{row}: no row in docs/PROMISES.md")
    inside, outside = contracts(FRONT_DOOR), contracts(EXPORTED)
    faults += [f"{EXPORTED} and {FRONT_DOOR} differ at {name}" for name in sorted(inside.keys() | outside.keys()) if inside.get(name) != outside.get(name)]
    written = set(re.findall(r"\| (\w+): (\w+) \|$", promises, re.M))
    edits = {(edit.parts[-3], edit.stem) for edit in ROOT.glob("crates/*/must-fail/*.edit")}
    faults += [f"docs/PROMISES.md names no edit: {crate}: {edit}" for crate, edit in sorted(written - edits)]
    faults += [f"an edit that docs/PROMISES.md does not name: {crate}: {edit}" for crate, edit in sorted(edits - written)]
    for fault in faults:
        print(fault)
    if faults or not count:
        sys.exit(1)
    print(f"public functions: {count}, each with its outcome and its promises; {len(edits)} wrong programs")

main()
