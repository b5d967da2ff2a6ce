#!/usr/bin/env python3
"""Spells the names that the repository's own .antt files declare in snake case, as `stepOf` and `step-of` to `step_of`.

usage: python3 tools/respell.py [--check]     at the top of the repository, once; --check writes nothing

Types and modules stay in upper camel case. Functions of src/, exported names, strings, inputs and outputs stay as they are, and so do the labels
that Rattle makes of a function: what a function's own proof file declares stands for one, so such names are left alone, but for its last, `f_spec`. In README and docs/ the code spans turn.
Where two names would fall together, KEPT_APART has another name for one of them. A line that begins `meets:` names a new name that its file has already.
"""

import collections
import os
import re
import sys

NAME = r'[^\s(){}.;,@"«»]+'
DECLARED = re.compile(
    r"(?m)^( *)((?:(?:pub|abbrev|unfoldable|data|record) )*)(" + NAME + r")((?: [\{\(][^\n]*?[\}\)])*) :(?= |$)"
)
QUIET = re.compile(r'"(?:[^"\\\n]|\\.)*"|(?<![^\s(){}.;,@"«»])--[^\n]*|//[^\n]*', re.S)
WORD = re.compile(NAME)
SPAN = re.compile(r"`[^`\n]+`")

# Names that would fall together: the one with dashes, a law about the other, gets a name of its own.
KEPT_APART = {
    "constant-kind": "constant_kind_of",
    "join-kind": "join_kind_of",
    "no_room": "room_short",
    "is-child": "child_of_use",
    "is-atom": "atom_of_use",
    "star-grounds": "star_grounds_of",
    "read_number": "read_number_of",
    "text-of": "text_is",
    "form_in": "form_read",
    "one-digit": "one_digit_is",
    "two_digits": "two_digits_are",
    "record-size": "record_size_is",
    "tree-atoms": "tree_atoms_at",
    "form-atoms": "form_atoms_at",
    "over-in": "over_in_is",
    "read-form": "read_form_back",
    "read-path": "read_path_back",
    "first-of": "first_of_is",
    "zero-byte": "zero_byte_is",
    "hShort": "short_h",
}
# The same, in one crate alone.
KEPT_APART_IN = {
    ("closing", "no-pass"): "no_pass_is",
    ("trace", "cell-of"): "nth_cell",
    ("checks", "use-a"): "use_a_of",
    ("checks", "use-b"): "use_b_of",
    ("writing", "row_words"): "row_words_of",
}


def snake(name):
    return re.sub(r"(?<=[a-z0-9])[A-Z]", lambda m: "_" + m[0].lower(), name).replace("-", "_")


def files():
    for folder, folders, names in os.walk("crates"):
        folders[:] = sorted(f for f in folders if f not in ("out", ".git"))
        for it in sorted(names):
            path = os.path.join(folder, it)
            if path.endswith((".antt", ".rt")) or path.endswith(".edit") and "must-fail" in path:
                yield path
    yield from ("README.md", "CONTRIBUTING.md", *(f"docs/{it}.md" for it in ("ARCHITECTURE", "DECISIONS", "PROMISES", "SPECIFICATION")))


def of_a_function(path):
    """A function's own proof file, whose names follow the labels that Rattle makes."""
    return re.fullmatch(r"Proof|Answers|Invariants", os.path.basename(path)[:-5]) is not None


def declared():
    """The names to turn, and those among them that are fields."""
    names, fields = set(), set()
    for path in files():
        if path.endswith(".antt") and not of_a_function(path):
            with open(path, encoding="utf-8") as f:
                text = f.read()
            for indent, _, name, _ in DECLARED.findall(text):
                if name[0].islower() and (snake(name) != name or name in KEPT_APART):
                    names.add(name)
                    if indent:
                        fields.add(name)
    return names, fields


class Turner:
    def __init__(self):
        self.names, self.fields = declared()

    def new(self, crate, name):
        if (crate, name) in KEPT_APART_IN:
            return KEPT_APART_IN[crate, name]
        if name in self.names:
            return KEPT_APART.get(name, snake(name))
        if re.fullmatch(r"\+?[a-z][\w-]*-spec", name):
            return snake(name)
        return name

    def code(self, crate, text, heads):
        """Turns each word; after a dot only a field, or what follows a module."""

        def word(m):
            name = m[0]
            if text[m.start() - 1 : m.start()] == ".":
                before = re.search(r"(" + NAME + r")\.$", text[max(0, m.start() - 80) : m.start()])
                in_module = before and (before[1][0].isupper() or before[1] in heads)
                if not in_module and name not in self.fields and not re.search(r"[a-z][A-Z]", name):
                    return name
            return self.new(crate, name)

        return WORD.sub(word, text)

    def comment(self, crate, text):
        def bare(m):
            it = m[0]
            return self.new(crate, it) if re.search(r"[a-z0-9][A-Z]", it) else it

        def span(m):
            return "`" + WORD.sub(lambda w: self.new(crate, w[0]), m[0][1:-1]) + "`"

        out, at = [], 0
        for m in SPAN.finditer(text):
            out += [re.sub(r"[A-Za-z0-9_'-]+", bare, text[at : m.start()]), span(m)]
            at = m.end()
        return "".join(out + [re.sub(r"[A-Za-z0-9_'-]+", bare, text[at:])])

    def turn(self, path, text):
        if path.endswith(".md"):
            return SPAN.sub(lambda m: "`" + WORD.sub(lambda w: self.new("", w[0]), m[0][1:-1]) + "`", text)
        crate = path.split(os.sep)[1]
        heads = set(re.findall(r"\bas ([a-z]\w*)", text))
        # A comment of a proof speaks of what the code beside it says, so the list at a module's head turns with the code.
        out, at = [], 0
        for m in QUIET.finditer(text):
            out.append(self.code(crate, text[at : m.start()], heads))
            if m[0][0] == '"':
                out.append(m[0])
            elif path.endswith(".antt") and re.match(r"--   \S", m[0]):
                out.append("--   " + self.listed(crate, m[0][5:]))
            else:
                out.append(self.comment(crate, m[0]))
            at = m.end()
        return "".join(out + [self.code(crate, text[at:], heads)])

    def listed(self, crate, line):
        """A line of the list at a module's head: the words before the gap, then what they mean."""
        gap = re.search(r"\s{2,}", line)
        head, rest = (line[: gap.start()], line[gap.start() :]) if gap else (line, "")
        return WORD.sub(lambda m: self.new(crate, m[0]), head) + self.comment(crate, rest)


def main():
    check = "--check" in sys.argv[1:]
    turner = Turner()
    rust = set()
    for path in files():
        if path.endswith(".rt"):
            with open(path, encoding="utf-8") as f:
                rust.update(re.findall(r"\bfn (\w+)", f.read()))
    for name in sorted(turner.fields):
        if "-" in name and name.replace("-", "_") in rust:
            print("meets:", name, "is a field and a function of src/")
    changed = 0
    for path in files():
        with open(path, encoding="utf-8") as f:
            old = f.read()
        new = turner.turn(path, old)
        if path.endswith(".antt"):
            code = QUIET.sub(" ", old)
            had = {w for w in re.findall(r'(?<![^\s(){};,@"«»])' + NAME, code)}
            crate = path.split(os.sep)[1]
            became = collections.defaultdict(set)
            for name in had:
                became[turner.new(crate, name)].add(name)
            for to, names in sorted(became.items()):
                if len(names) > 1:
                    print(f"meets: {path}: {', '.join(sorted(names))} become {to}")
        if new != old:
            changed += 1
            if not check:
                with open(path, "w", encoding="utf-8") as f:
                    f.write(new)
    print(f"respell: {len(turner.names)} names, {changed} files")


main()
