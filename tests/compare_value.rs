//! pasturequill_value against an evaluator that was written apart from it, over random inputs, accepted and refused.
//!
//! The evaluator follows definition 1 of source 004 and not the three-valued reading that the library is proved
//! against: it asks what a formula's truth is in two traces, the given one and the one in which all that is assumed
//! counts as proved, with two truth values each; theorem 1 of that paper says which of the three values this comes to.
//! Every input is drawn from a fixed seed. Compared are the refusal, the value, the whole table, and the bytes around.

mod shared;

use shared::*;
use std::array::from_fn;

/// What is handed to the library; `room` is the table's length.
#[derive(Debug)]
struct Input { formula: Formula, instants: u64, cells: Vec<u8>, room: usize }

// ---- satisfaction in two traces (source 004, definition 1)

/// Of an HT-trace ⟨H,T⟩ it is asked what it satisfies itself, and what the total trace ⟨T,T⟩ does; a box asks both.
#[derive(Clone, Copy, PartialEq)]
enum Trace { Given, Total }

/// Some of the instants, a bit for each; for each instant, those that a path leads to from it.
type Instants = u32;
type Relation = [Instants; MOST_INSTANTS];

fn has(some: Instants, k: usize) -> bool { some >> k & 1 == 1 }

/// Those of so many instants that are such.
fn those(instants: usize, such: impl Fn(usize) -> bool) -> Instants {
    (0..instants).filter(|&k| such(k)).fold(0, |found, k| found | 1 << k)
}

/// What each record says of one trace: where a formula is satisfied, and where a path leads.
#[derive(Default)]
struct Satisfied { holds: Vec<Instants>, leads: Vec<Relation> }

/// Whether an atom is in the first set of a trace's pair at an instant: that is H for the given trace and T for the
/// total one. A cell of 2 is in both sets, a cell of 1 in T alone.
fn is_in(trace: Trace, cell: u8) -> bool { cell == 2 || (trace == Trace::Total && cell == 1) }

/// Where a path leads from any of some instants.
fn led_to(path: &Relation, from: Instants) -> Instants {
    (0..MOST_INSTANTS).filter(|&k| has(from, k)).fold(0, |ends, k| ends | path[k])
}

/// Any number of passes from an instant (definition 1, line 9): what is found, the start too, until nothing is new.
fn repeated(pass: &Relation, k: usize) -> Instants {
    let mut found = 1 << k;
    while found | led_to(pass, found) != found {
        found |= led_to(pass, found);
    }
    found
}

/// Where record r, a formula, is satisfied in a trace; `here` is what the records before it say of that trace.
fn satisfied_at(input: &Input, r: usize, trace: Trace, here: &Satisfied, total: &Satisfied) -> Instants {
    let (atoms, instants) = (input.formula.atoms as usize, input.instants as usize);
    let (a, b) = (input.formula.a(r), input.formula.b(r));
    // All of the path's ends satisfy the formula, seen in one trace.
    let all_ends = |by: &Satisfied, k: usize| by.leads[a][k] & !by.holds[b] == 0;
    match input.formula.kind(r) {
        TRUE => those(instants, |_| true),
        ATOM => those(instants, |k| is_in(trace, input.cells[k * atoms + a])),
        // Some end of the path satisfies the formula, both in this trace (line 3).
        DIAMOND => those(instants, |k| here.leads[a][k] & here.holds[b] != 0),
        // Every end does, in this trace and also in the total one (line 4). For the total trace these are the same.
        BOX => those(instants, |k| all_ends(here, k) && all_ends(total, k)),
        FALSE | STEP..=STAR => 0,
        _ => unreachable!("an accepted record has a core kind"),
    }
}

/// Where record r, a path, leads from instant k in a trace.
fn leads_from(input: &Input, r: usize, k: usize, here: &Satisfied) -> Instants {
    let instants = input.instants as usize;
    let (a, b) = (input.formula.a(r), input.formula.b(r));
    match input.formula.kind(r) {
        // To the next instant, where there is one (line 5), and the other way round (line 10).
        STEP => those(instants, |j| j == k + 1),
        BACK => those(instants, |j| j + 1 == k),
        // A test stays where it is, if its formula is satisfied in this trace (line 6).
        TEST => those(instants, |j| j == k && has(here.holds[a], k)),
        // The ends of either arm (line 7); those of the second part from the first one's (line 8).
        CHOICE => here.leads[a][k] | here.leads[b][k],
        SEQUENCE => led_to(&here.leads[b], here.leads[a][k]),
        STAR => repeated(&here.leads[a], k),
        _ => 0, // a formula
    }
}

/// What every record says, of the given trace and of the total one. A child stands before its parent, so one pass is
/// enough; the total trace comes first, because a box in the given one needs it.
fn satisfied(input: &Input) -> (Satisfied, Satisfied) {
    let (mut given, mut total) = (Satisfied::default(), Satisfied::default());
    for trace in [Trace::Total, Trace::Given] {
        for r in 0..input.formula.count() {
            let here = if trace == Trace::Given { &given } else { &total };
            let holds = satisfied_at(input, r, trace, here, &total);
            let leads = from_fn(|k| if k < input.instants as usize { leads_from(input, r, k, here) } else { 0 });
            let by = if trace == Trace::Given { &mut given } else { &mut total };
            by.holds.push(holds);
            by.leads.push(leads);
        }
    }
    (given, total)
}

/// Theorem 1: 2 where the given trace satisfies, and with it the total one; 1 where only the total one does; else 0.
fn three_valued(given: bool, total: bool) -> u8 {
    assert!(total || !given, "satisfied in the given trace and not in the total one");
    if given { 2 } else { total as u8 }
}

// ---- what is refused (Specification, Records and Refusals)

/// The length; sizes; the records; cells; room.
fn refusal(input: &Input) -> Refusal {
    let Input { formula, instants, cells, room } = input;
    let fitting = (1..=MOST_INSTANTS as u64).contains(instants)
        && formula.atoms.checked_mul(*instants) == Some(cells.len() as u64);
    formula_refusal(formula, !fitting)
        .or(WrongCell, || cells.iter().any(|&cell| cell > 2))
        .or(NoRoom, || *room < formula.count() * *instants as usize)
}

/// An input, what must come back, and what must then be in the table's first bytes.
#[derive(Debug)]
struct Tried { input: Input, refusal: Refusal, value: u8, written: Vec<u8> }

fn tried(input: Input) -> Tried {
    let refusal = refusal(&input);
    if refusal != Accepted {
        return Tried { input, refusal, value: 0, written: vec![] };
    }
    let (given, total) = satisfied(&input);
    let value = |r: usize, k: usize| match sort(&input.formula, r) {
        Sort::Formula => three_valued(has(given.holds[r], k), has(total.holds[r], k)),
        Sort::Path => 0,
    };
    let n = input.formula.count();
    let written = (0..n).flat_map(|r| (0..input.instants as usize).map(move |k| (r, k)));
    Tried { refusal, value: value(n - 1, 0), written: written.map(|(r, k)| value(r, k)).collect(), input }
}

// ---- random inputs

/// An input that is accepted, with a formula of a given number of records.
fn accepted_input(random: &mut Random, size: usize) -> Input {
    let tame = random.percent(20);
    let formula = random_formula(random, size, tame, 0);
    let instants = random_instants(random);
    let cells = random_cells(random, formula.atoms as usize, instants);
    Input { room: size * instants + spare(random), formula, instants: instants as u64, cells }
}

// ---- damage

/// As many cells as the sizes ask for, where that is few enough.
fn fit_cells(input: &mut Input) {
    if input.instants <= 40 && input.formula.atoms <= 64 {
        input.cells.resize((input.formula.atoms * input.instants) as usize, 1);
    }
}

/// One kind of harm, which may or may not make the input wrong: what must come of it is for `tried` to say.
fn damage(random: &mut Random, input: &mut Input) {
    let n = input.formula.count();
    let needed = n * input.instants.min(MOST_INSTANTS as u64) as usize;
    match random.below(29) {
        // sizes
        7 => {
            input.instants = if random.percent(25) { 0 } else { far(random, input.instants) };
            fit_cells(input);
        }
        8 => {
            input.formula.atoms = far(random, input.formula.atoms);
            fit_cells(input);
        }
        9 => {
            (input.formula.atoms, input.instants) = random.pick(&NO_CELLS);
            input.cells.clear();
        }
        harm @ 10..=14 => damage_cells(random, &mut input.cells, input.formula.atoms, harm - 10),
        // A cell over 2 in an atom that no record names.
        15 | 16 if (1..=MOST_ATOMS as u64).contains(&input.formula.atoms) => {
            let named: Vec<usize> = input.formula.of_kind(ATOM).into_iter().map(|r| input.formula.a(r)).collect();
            let is_unnamed = |at: &usize| !named.contains(&(at % input.formula.atoms as usize));
            let unnamed: Vec<usize> = (0..input.cells.len()).filter(is_unnamed).collect();
            if !unnamed.is_empty() {
                input.cells[random.pick(&unnamed)] = random.pick(&[3, 255]);
            }
        }
        // the table
        17 | 18 => input.room = needed.saturating_sub(1),
        19 => input.room = random.below(needed + 1),
        0..=6 | 20..=28 => damage_records(random, &mut input.formula),
        _ => {}
    }
}

/// Records that no formula was drawn for.
fn scattered_input(random: &mut Random) -> Input {
    let mut input = accepted_input(random, 1);
    input.formula.records = scattered_records(random, false);
    input.room = input.formula.count() * input.instants as usize;
    input
}

fn random_input(random: &mut Random) -> Input {
    if random.percent(4) {
        return scattered_input(random);
    }
    let size = random_size(random);
    let input = accepted_input(random, size);
    damaged(random, input, damage)
}

// ---- the call

/// Calls the library on an input and says what is wrong with the outcome, if anything is.
fn difference(tried: &Tried, random: &mut Random, library: &mut Library) -> Option<String> {
    let input = &tried.input;
    let lent = [
        Lent::to_read("records", &input.formula.records),
        Lent::to_read("cells", &input.cells),
        Lent::to_write("table", random, input.room, &tried.written),
    ];
    let answer = [tried.refusal as u64, tried.value.into()];
    library.difference(Service::Value, [input.formula.atoms, input.instants], &lent, &answer)
}

// ---- the run

/// Formulas by how many records they have.
const SIZES: [Case<Input>; 5] = [
    ("1 to 9 records", |input| input.formula.count() <= 9),
    ("10 to 31 records", |input| (10..=31).contains(&input.formula.count())),
    ("32 to 99 records", |input| (32..=99).contains(&input.formula.count())),
    ("100 to 254 records", |input| (100..MOST_RECORDS).contains(&input.formula.count())),
    ("255 records", |input| input.formula.count() == MOST_RECORDS),
];

fn count(seen: &mut Seen, Tried { input, refusal, value, written }: &Tried) {
    seen.add(refusal.name());
    if *refusal != Accepted {
        return;
    }
    let (formula, instants) = (&input.formula, input.instants as usize);
    seen.add_cases(&SIZES, input);
    seen.add(format!("value {value}"));
    seen.add(format!("{} records in all", formula.count()));
    seen.add(format!("{instants} instants"));
    seen.add(format!("{} atoms", formula.atoms));
    (0..formula.count()).for_each(|r| seen.add(format!("kind {}", formula.kind(r))));
    let formulas = (0..formula.count()).filter(|&r| sort(formula, r) == Sort::Formula);
    let values: Vec<u8> = formulas.flat_map(|r| written[r * instants..(r + 1) * instants].to_vec()).collect();
    for value in 0..3 {
        let times = values.iter().filter(|&&found| found == value).count();
        seen.add_times(format!("value {value} in a table"), times);
    }
}

/// First every size once, whole and undamaged; then whatever comes. There is no formula of two records.
fn drawn(random: &mut Random, i: usize) -> Tried {
    tried(if i != 2 && (1..=MOST_RECORDS).contains(&i) { accepted_input(random, i) } else { random_input(random) })
}

fn main() {
    let mut comparison = Comparison::of("compare the evaluator", 100_000, drawn, |tried, random, library, seen| {
        count(seen, tried);
        difference(tried, random, library)
    });
    comparison.tell(100, outcomes(&[WrongCell, NoRoom]));
    comparison.tell(100, (0..3).map(|value| format!("value {value}")).collect());
    comparison.tell(100, names(&SIZES));
    comparison.tell(100, (0..3).map(|value| format!("value {value} in a table")).collect());
    comparison.require(100, (FALSE..=STAR).map(|kind| format!("kind {kind}")));
    comparison.require(1, (1..=MOST_RECORDS).filter(|&n| n != 2).map(|n| format!("{n} records in all")));
    comparison.require(1, (1..=MOST_INSTANTS).map(|instants| format!("{instants} instants")));
    comparison.require(1, (0..=MOST_ATOMS).map(|atoms| format!("{atoms} atoms")));
    comparison.end("compare with the evaluator");
}
