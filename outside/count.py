#!/usr/bin/env python3
"""The translation in a real solver: the elevator of source 004, section 4, in clingo.

Its rule (13) is built as records and translated by our printing program; the rules are written as ASP beside
elevator.lp. clingo counts the models, which are plans, and the counts are held to those of the paper's Table 3. The
labels are in the models too: a second filling of them would be a model too many.

The arguments are the command that runs the printing program. Exit status: 0 all counts come out; 1 one differs, or a
program fails; 2 clingo is missing, or no command is given."""

import json
import pathlib
import shutil
import subprocess
import sys

from records import record

HERE = pathlib.Path(__file__).resolve().parent
THEORY = HERE / "elevator.lp"
PRINT = sys.argv[1:]

# Table 3: the plans for so many floors, at each of five horizons; and those that keep the rule, the same everywhere.
PLANS = {
    5: (2, 34, 340, 2618, 17204),
    7: (2, 46, 598, 5796, 46690),
    9: (2, 58, 928, 10846, 103530),
    11: (2, 70, 1330, 18200, 200900),
}
PLANS_WITH_RULE = 2


def leave(status, *reasons):
    for reason in reasons:
        print(f"outside: {reason}", file=sys.stderr)
    sys.exit(status)


# ---- rule (13) as records. A tree is its kind and then its parts: trees, or an atom's number.
ATOMS = ("up", "down", "serve", "wait", "ready")


def atom(name):
    return ("atom", ATOMS.index(name))


def test(formula):
    return ("test", formula)


def do(action):
    """An action as a path: it is tested, and time steps on."""
    return ("sequence", test(atom(action)), ("step",))


def negation(formula):
    return ("box", test(formula), ("false",))


def rule_13():
    """((up* + down*) ; ready? ; serve)* ; wait* leads from the first instant to the final one."""
    ride = ("choice", ("star", do("up")), ("star", do("down")))
    visit = ("sequence", ride, ("sequence", test(atom("ready")), do("serve")))
    whole = ("sequence", ("star", visit), ("star", do("wait")))
    final = ("box", ("step",), ("false",))
    return ("diamond", whole, final)


def add_records(tree, records):
    """Adds a tree's records, those of its parts first, and gives the number of its own."""
    kind, *parts = tree
    fields = [add_records(part, records) if isinstance(part, tuple) else part for part in parts]
    records.append(record(kind, *fields))
    return len(records) - 1


def translated(tree):
    """The rules that the printing program gives for a formula, six words each."""
    records = []
    add_records(tree, records)
    printed = subprocess.run(PRINT, input=b"".join(records), stdout=subprocess.PIPE).stdout.decode()
    *lines, last = printed.splitlines() or [""]
    if last != f"rules {len(lines)}":
        leave(1, f"after {len(lines)} rules the printing program ended with '{last}'.")
    return [[int(word) for word in line.split()] for line in lines]


# ---- rules as ASP
CONSTANTS = ("#false", "#true")
FIRST_ATOM, FIRST_LABEL = 2, 34
PREVIOUS, NEGATED = 16384, 32768
PLACES = ("instant(T)", "instant(T), T = 0", "instant(T), T > 0", "instant(T), T = horizon")


def literal(word):
    """A literal at the instant T. The label of record r is xr; the atoms have their names in elevator.lp."""
    symbol = word % PREVIOUS
    sign = "not " if word & NEGATED else ""
    if symbol < FIRST_ATOM:
        return sign + CONSTANTS[symbol]
    name = ATOMS[symbol - FIRST_ATOM] if symbol < FIRST_LABEL else f"x{symbol - FIRST_LABEL}"
    return sign + name + ("(T-1)" if word & PREVIOUS else "(T)")


def as_asp(rule):
    """A rule as ASP. Its place is a condition on T; what is true in the body or false in the head is left out."""
    place, *words = rule
    body = [literal(word) for word in words[:2] if word != 1]
    head = [literal(word) for word in words[2:] if word != 0]
    return f"{' ; '.join(head)} :- {', '.join([PLACES[place], *body])}."


def asserted(rules):
    """All rules, the last one too, which says that the formula holds at the first instant."""
    return [as_asp(rule) for rule in rules]


def asked(rules):
    """All rules but the last, and in its place a constraint: the formula must turn out to hold at the first instant."""
    *others, (place, _, _, label, _, _) = rules
    return asserted(others) + [f":- {PLACES[place]}, not {literal(label)}."]


# ---- counting
# An asserted formula is a reason for the atoms that it needs. The actions are free to be chosen anyway; ready is made
# so too, and held to what it means by a constraint. Else the elevator would be ready wherever the formula wants it.
READY_BY_CONSTRAINT = ["{ready(T)} :- instant(T).", ":- ready(T), at(X, T), not called(X, T)."]


def programs():
    """What stands beside the action theory, with a heading: nothing, and then the rule in three ways.

    Asking is what (13) does, and shows the rules that lead up to the whole formula's label. Asserting shows those
    that lead down from it. Twice negated, the formula is a constraint that may be asserted; it brings tests under a
    box and negations."""
    rule = rule_13()
    rules = translated(rule)
    return (
        ("without the rule", []),
        ("asked", asked(rules)),
        ("asserted", asserted(rules) + READY_BY_CONSTRAINT),
        ("not not", asserted(translated(negation(negation(rule))))),
    )


def models(floors, horizon, asp):
    """How many models clingo finds of the action theory with further lines of ASP."""
    command = ["clingo", THEORY, "-", "-c", f"floors={floors}", "-c", f"horizon={horizon}", "-n", "0", "-q", "--outf=2"]
    run = subprocess.run(command, input="\n".join(asp).encode(), stdout=subprocess.PIPE)
    no_model, all_models = 20, 30
    if run.returncode not in (no_model, all_models):
        leave(1, f"clingo ended with status {run.returncode}.")
    return json.loads(run.stdout)["Models"]["Number"]


def compare(columns):
    """Prints clingo's counts beside the paper's, and gives for each count whether the two agree."""
    agree = []
    print("floors  horizon" + "".join(f"{heading:>18}   paper" for heading, _ in columns))
    for floors, plans in PLANS.items():
        for longer, plans_without_rule in enumerate(plans):
            horizon = (3 * floors + 1) // 2 + longer
            row = f"{floors:6}  {horizon:7}"
            for _, asp in columns:
                found = models(floors, horizon, asp)
                paper = PLANS_WITH_RULE if asp else plans_without_rule
                row += f"{found:18}  {paper:6}"
                agree.append(found == paper)
            print(row, flush=True)
    return agree


def missing():
    """What is not there of the two programs, in a sentence each."""
    if shutil.which("clingo") is None:
        yield "clingo is not installed, so there is no solver to compare with; Debian has it in the package gringo."
    if not PRINT:
        yield "the arguments must be the command that runs the printing program."


def main():
    reasons = list(missing())
    if reasons:
        leave(2, *reasons)
    agree = compare(programs())
    print(f"{len(agree)} counts, {agree.count(False)} differ")
    if not all(agree):
        sys.exit(1)


if __name__ == "__main__":
    main()
