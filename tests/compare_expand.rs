//! pasturequill_expand against an expander that was written apart from it, over random inputs, accepted and refused.
//!
//! The expander here follows the specification line by line: it makes the core tree that a formula stands for, and then
//! writes that tree in postorder. Compared are the refusal, the count, every byte, and the bytes around. What was
//! written must pass pasturequill_check, and expand to itself. Every input is drawn from a fixed seed.

mod shared;

use shared::counted::*;
use shared::*;

// ---- the expansion (Specification, Records)

fn test(f: Core) -> Core { one(TEST, f) }
fn star(p: Core) -> Core { one(STAR, p) }
fn some(p: Core, f: Core) -> Core { two(DIAMOND, p, f) }
fn all(p: Core, f: Core) -> Core { two(BOX, p, f) }

/// What record r stands for.
fn core(formula: &Formula, r: usize) -> Core {
    let kind = formula.kind(r);
    let a = || core(formula, formula.a(r));
    let b = || core(formula, formula.b(r));
    match kind {
        FALSE | TRUE | STEP | BACK => leaf(kind),
        ATOM => core_atom(formula.a(r)),
        TEST | STAR => one(kind, a()),
        DIAMOND | BOX | CHOICE | SEQUENCE => two(kind, a(), b()),
        NOT => all(test(a()), leaf(FALSE)),
        AND => some(test(a()), b()),
        OR => some(two(CHOICE, test(a()), test(b())), leaf(TRUE)),
        IMPLIES => all(test(a()), b()),
        FINAL => all(leaf(STEP), leaf(FALSE)),
        INITIAL => all(leaf(BACK), leaf(FALSE)),
        NEXT => some(leaf(STEP), a()),
        WEAK_NEXT => all(leaf(STEP), a()),
        PREVIOUS => some(leaf(BACK), a()),
        WEAK_PREVIOUS => all(leaf(BACK), a()),
        EVENTUALLY => some(star(leaf(STEP)), a()),
        ALWAYS => all(star(leaf(STEP)), a()),
        ONCE => some(star(leaf(BACK)), a()),
        SO_FAR => all(star(leaf(BACK)), a()),
        UNTIL => some(star(two(SEQUENCE, test(a()), leaf(STEP))), b()),
        SINCE => some(star(two(SEQUENCE, test(a()), leaf(BACK))), b()),
        _ => unreachable!("an accepted record has a kind of the core or a shorthand's"),
    }
}

/// The records that come out, too many of them too, for a formula that is a tree.
fn expansion(formula: &Formula) -> Vec<Record> { core(formula, formula.count() - 1).records() }

// ---- what is refused (Specification, Refusals)

/// An input, what must come back and be written, and how many records come `out` of a formula, taken or not.
#[derive(Debug)]
struct Tried { input: Input, refusal: Refusal, out: usize, written: Vec<u8> }

/// What every service asks of a formula; the records that come out; room.
fn tried(input: Input) -> Tried {
    let refusal = formula_refusal(&input.formula, false);
    if refusal != Accepted {
        return Tried { input, refusal, out: 0, written: vec![] };
    }
    let records = expansion(&input.formula);
    let out = records.len();
    let refusal = refusal.or(TooLong, || out > MOST_RECORDS).or(NoRoom, || input.room < RECORD_SIZE * out);
    Tried { input, refusal, out, written: if refusal == Accepted { records.concat() } else { vec![] } }
}

// ---- random inputs

/// A formula of so many records for the expander; of a hundred formulas in it so many are shorthands.
fn formula_in(random: &mut Random, size: usize, shorthands: usize) -> Formula {
    Formula { shorthands: true, ..random_formula(random, size, false, shorthands) }
}

/// Puts a shorthand of one argument between a record and its parent, as a record somewhere between theirs.
fn insert_above(random: &mut Random, formula: &mut Formula, r: usize, kind: u8) {
    let n = formula.count();
    let parent = (0..n).find(|&q| children(formula, q).contains(&r)).unwrap_or(n);
    let place = if parent == n { n } else { random.between(r + 1, parent) };
    let moved = |child: usize| if child == r { place } else { child + (child >= place) as usize };
    let mut records: Vec<Record> = (0..n)
        .map(|q| {
            let named: Vec<usize> = children(formula, q).into_iter().map(moved).collect();
            let field = |i: usize, unmoved: usize| named.get(i).copied().unwrap_or(unmoved);
            record(formula.kind(q), field(0, formula.a(q)), field(1, formula.b(q)))
        })
        .collect();
    records.insert(place, record(kind, r, 0));
    formula.records = records.concat();
}

/// A formula with shorthands put into it until so many records come out, if two or more are missing: some with two
/// records of their own and some with three, never so that one is left.
fn lengthened(random: &mut Random, mut formula: Formula, records: usize) -> Formula {
    let mut missing = records.saturating_sub(expansion(&formula).len());
    while missing >= 2 {
        let own = if missing == 3 || (missing > 4 && random.percent(50)) { 3 } else { 2 };
        let (twos, threes) = ([NEXT, WEAK_NEXT, PREVIOUS, WEAK_PREVIOUS], [NOT, EVENTUALLY, ALWAYS, ONCE, SO_FAR]);
        let kind = if own == 3 { random.pick(&threes) } else { random.pick(&twos) };
        let r = some_record(random, &formula, |r| sort(&formula, r) == Sort::Formula).expect("the whole is a formula");
        insert_above(random, &mut formula, r, kind);
        missing -= own;
    }
    formula
}

/// A formula out of which so many records come, as many as there may be at most; there is none for two.
fn formula_out(random: &mut Random, records: usize) -> Formula {
    let size = if records <= 4 { 1 } else { random.between(3, records - 2) };
    let formula = formula_in(random, size, 0);
    lengthened(random, formula, records)
}

/// A formula whose expansion has about as many records as there may be.
fn formula_at_limit(random: &mut Random) -> Formula {
    let size = random.between(1, MOST_RECORDS - 3);
    let shorthands = if size == 2 { 100 } else { random.pick(&[0, 2, 5, 20, 60]) };
    let (most, more) = (MOST_RECORDS, MOST_RECORDS + 1);
    let records =
        random.pick(&[most - 5, most - 2, most - 1, most, most, most, more, more, more, more + 1, more + 2, more + 6]);
    let formula = formula_in(random, size, shorthands);
    lengthened(random, formula, records)
}

/// Room that is exact or longer for a formula that is a tree; any room where it does not come to that.
fn input_of(random: &mut Random, formula: Formula) -> Input {
    let needed = RECORD_SIZE * expansion(&formula).len();
    let any = [0, MOST_RECORD_BYTES - 1, MOST_RECORD_BYTES, needed - 1, needed, 7000];
    let room = if needed > MOST_RECORD_BYTES { random.pick(&any) } else { needed + spare(random) };
    Input { formula, room }
}

fn is_shorthand(kind: u8) -> bool { (NOT..=SINCE).contains(&kind) }

fn arguments(shorthand: u8) -> usize {
    SHORTHANDS.iter().position(|kinds| kinds.contains(&shorthand)).expect("each shorthand is among them")
}

/// One kind of harm to a shorthand, which may or may not make it wrong.
fn damage_shorthand(random: &mut Random, formula: &mut Formula) {
    let Some(r) = some_record(random, formula, |r| is_shorthand(formula.kind(r))) else { return };
    let (kind, a, b) = (formula.kind(r), formula.a(r), formula.b(r));
    let other = if r == 0 { 0 } else { random.below(r) };
    let changed = match random.below(6) {
        0 | 1 => record(random.pick(SHORTHANDS[arguments(kind)]), a, b),
        2 => record(random.between(NOT as usize, SINCE as usize) as u8, a, b),
        3 => record(random.pick(SHORTHANDS[2]), a, if b == 0 { other } else { b }),
        4 => record(kind, random.pick(&[other, r, r + 1, a + 256]), b),
        _ => record(kind, a, random.pick(&[other, a, r, b + 256])),
    };
    formula.bytes(r).copy_from_slice(&changed);
}

/// One kind of harm, which may or may not make the input wrong: what must come of it is for `tried` to say.
fn damage(random: &mut Random, input: &mut Input) {
    match random.below(28) {
        0..=13 => damage_records(random, &mut input.formula),
        14 => input.formula.atoms = far(random, input.formula.atoms),
        15 => input.formula.atoms = input.formula.atoms.saturating_sub(1),
        16..=23 => damage_shorthand(random, &mut input.formula),
        24..=26 => take_room(random, input, RECORD_SIZE, |formula| RECORD_SIZE * expansion(formula).len()),
        _ => input.room = random.below(input.room + 1),
    }
}

fn random_input(random: &mut Random) -> Input {
    if random.percent(4) {
        return scattered_input(random, true);
    }
    let sizes = match random.below(20) {
        0..=15 => Some((random_size(random), random.pick(&[0, 5, 20, 40, 60, 100]))),
        16..=18 => None,
        _ => Some((random.between(100, MOST_RECORDS), random.pick(&[1, 2, 10, 50, 100]))),
    };
    let formula = match sizes {
        Some((size, shorthands)) => formula_in(random, size, shorthands),
        None => formula_at_limit(random),
    };
    let input = input_of(random, formula);
    damaged(random, input, damage)
}

// ---- the calls

/// Expands an input and says what is wrong with the outcome, if anything is.
fn expand_difference(tried: &Tried, random: &mut Random, library: &mut Library) -> Option<String> {
    let Tried { input: Input { formula, room }, refusal, written, .. } = tried;
    let lent = [Lent::to_read("records", &formula.records), Lent::to_write("output", random, *room, written)];
    let answer = [*refusal as u64, (written.len() / RECORD_SIZE) as u64];
    library.difference(Service::Expand, [formula.atoms, 0], &lent, &answer)
}

/// Says what is wrong with records that came out, if anything is: they are a formula, and expand to themselves.
fn unsettled(tried: &Tried, random: &mut Random, library: &mut Library) -> Option<String> {
    let formula = Formula { records: tried.written.clone(), ..tried.input.formula };
    let lent = [Lent::to_read("records", &formula.records)];
    if let Some(what) = library.difference(Service::Check, [formula.atoms, 0], &lent, &[0]) {
        return Some(format!("checking what came out: {what}"));
    }
    let input = Input { room: formula.records.len(), formula };
    let expanded = expand_difference(&Tried { input, written: tried.written.clone(), ..*tried }, random, library);
    expanded.map(|what| format!("expanding what came out: {what}"))
}

/// Calls the library on an input and says what is wrong with the outcome, if anything is.
fn difference(tried: &Tried, random: &mut Random, library: &mut Library) -> Option<String> {
    let wrong = expand_difference(tried, random, library);
    if wrong.is_none() && tried.accepted() { unsettled(tried, random, library) } else { wrong }
}

// ---- the run

const NAMES: [&str; 16] = [
    "not", "and", "or", "implies", "final", "initial", "next", "weak next", "previous", "weak previous", "eventually",
    "always", "once", "so far", "until", "since",
];

fn shorthand_name(kind: u8) -> String { NAMES[(kind - NOT) as usize].to_string() }

/// A shorthand as an argument of another one.
fn nested(outer: u8, field: usize, inner: u8) -> String {
    format!("{} in field {} of {}", shorthand_name(inner), ["a", "b"][field], shorthand_name(outer))
}

/// Each shorthand in each argument of each.
fn nested_names() -> Vec<String> {
    let places = (NOT..=SINCE).flat_map(|outer| (0..arguments(outer)).map(move |field| (outer, field)));
    places.flat_map(|(outer, field)| (NOT..=SINCE).map(move |inner| nested(outer, field, inner))).collect()
}

/// The shorthands among the records.
fn shorthands(formula: &Formula) -> Vec<usize> {
    (0..formula.count()).filter(|&r| is_shorthand(formula.kind(r))).collect()
}

fn count_shorthands(seen: &mut Seen, formula: &Formula) {
    for r in shorthands(formula) {
        let kind = formula.kind(r);
        seen.add(shorthand_name(kind));
        for (field, &child) in children(formula, r).iter().enumerate() {
            if is_shorthand(formula.kind(child)) {
                seen.add(nested(kind, field, formula.kind(child)));
            }
        }
    }
}

/// The records below r and r itself, in postorder.
fn postorder(formula: &Formula, r: usize, order: &mut Vec<usize>) {
    children(formula, r).into_iter().for_each(|child| postorder(formula, child, order));
    order.push(r);
}

impl Tried {
    fn accepted(&self) -> bool { self.refusal == Accepted }
    fn accepted_with(&self, shorthands: bool) -> bool {
        self.accepted() && shorthands != self::shorthands(&self.input.formula).is_empty()
    }
    fn in_postorder(&self) -> bool {
        let mut order = vec![];
        postorder(&self.input.formula, self.input.formula.count() - 1, &mut order);
        order.windows(2).all(|pair| pair[0] < pair[1])
    }
    /// Whether this is the first refusal of the records, and a shorthand's.
    fn at_shorthand(&self, refusal: Refusal) -> bool {
        let formula = &self.input.formula;
        let refused = || (0..formula.count()).find(|&r| record_refusal(formula, r) != Accepted);
        self.refusal == refusal && refused().is_some_and(|r| is_shorthand(formula.kind(r)))
    }
    /// Whether a shorthand names a record that is named elsewhere too, all kinds being known.
    fn argument_shared(&self) -> bool {
        let formula = &self.input.formula;
        let named: Vec<usize> = (0..formula.count()).flat_map(|r| children(formula, r)).collect();
        let shared = |child: &usize| named.iter().filter(|&other| other == child).count() > 1;
        shorthands(formula).iter().any(|&r| children(formula, r).iter().any(shared))
    }
}

const CASES: [Case<Tried>; 19] = [
    ("accepted with shorthands", |t| t.accepted_with(true)),
    ("accepted with shorthands, not in postorder", |t| t.accepted_with(true) && !t.in_postorder()),
    ("accepted without shorthands", |t| t.accepted_with(false)),
    ("accepted without shorthands, not in postorder", |t| t.accepted_with(false) && !t.in_postorder()),
    ("accepted in exact room", |t| t.accepted() && t.input.room == RECORD_SIZE * t.out),
    ("accepted with 254 records out", |t| t.accepted() && t.out == MOST_RECORDS - 1),
    ("accepted with 255 records out", |t| t.accepted() && t.out == MOST_RECORDS),
    ("too long with 256 records out", |t| t.refusal == TooLong && t.out == MOST_RECORDS + 1),
    ("too long with 257 records out", |t| t.refusal == TooLong && t.out == MOST_RECORDS + 2),
    ("too long with over 600 records out", |t| t.refusal == TooLong && t.out > 600),
    ("too long with 255 records in", |t| t.refusal == TooLong && t.input.formula.count() == MOST_RECORDS),
    ("too long in room for 255 records", |t| t.refusal == TooLong && t.input.room >= MOST_RECORD_BYTES),
    ("too long in less room", |t| t.refusal == TooLong && t.input.room < MOST_RECORD_BYTES),
    ("no room by one byte", |t| t.refusal == NoRoom && t.input.room == RECORD_SIZE * t.out - 1),
    ("no room with 255 records out", |t| t.refusal == NoRoom && t.out == MOST_RECORDS),
    ("not zero at a shorthand", |t| t.at_shorthand(NotZero)),
    ("late child at a shorthand", |t| t.at_shorthand(LateChild)),
    ("wrong sort at a shorthand", |t| t.at_shorthand(WrongSort)),
    ("not a tree by an argument of a shorthand", |t| t.refusal == NotATree && t.argument_shared()),
];

/// First every number of records in and every number out, which is not two, undamaged; then whatever comes.
fn drawn(random: &mut Random, i: usize) -> Tried {
    let formula = match (i, i.checked_sub(MOST_RECORDS)) {
        (1..=MOST_RECORDS, _) => formula_in(random, i, if i == 2 { 100 } else { 0 }),
        (_, Some(out @ (1 | 3..=MOST_RECORDS))) => formula_out(random, out),
        _ => return tried(random_input(random)),
    };
    tried(input_of(random, formula))
}

fn main() {
    let mut comparison = Comparison::of("compare the expander", 80_000, drawn, |tried, random, library, seen| {
        seen.add(tried.refusal.name());
        seen.add_cases(&CASES, tried);
        if tried.accepted() {
            let formula = &tried.input.formula;
            seen.add(format!("{} records in", formula.count()));
            seen.add(format!("{} records out", tried.out));
            seen.add(format!("{} atoms", formula.atoms));
            count_shorthands(seen, formula);
        }
        difference(tried, random, library)
    });
    comparison.tell(100, outcomes(&[NoRoom, TooLong]));
    comparison.tell(100, names(&CASES));
    comparison.tell(100, (NOT..=SINCE).map(shorthand_name).collect());
    let pairs = nested_names();
    let least = pairs.iter().map(|name| comparison.seen.times(name)).min().expect("there are pairs");
    println!("each shorthand in each argument of each, {} in all: {least} times at least", pairs.len());
    comparison.require(10, pairs);
    comparison.require(1, (1..=MOST_RECORDS).map(|n| format!("{n} records in")));
    comparison.require(1, (1..=MOST_RECORDS).filter(|&n| n != 2).map(|n| format!("{n} records out")));
    comparison.require(1, (0..=MOST_ATOMS).map(|n| format!("{n} atoms")));
    comparison.end("compare with the expander in Rust");
}
