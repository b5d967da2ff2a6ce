//! pasturequill_translate against a translator written apart from it, over random inputs, accepted and refused.
//!
//! The translator follows the specification sentence by sentence: it climbs from a path to find what it goes on with,
//! and goes down a star's body to see whether it may stand still or turns. Every input is drawn from a fixed seed.
//! Compared are the refusal, the count, every word, and the words around.

mod shared;

use shared::counted::*;
use shared::*;

// ---- the translation (Specification, Translation)

/// Words of a rule: those that are not used come last, true in the body and false in the head.
fn rule(place: u16, body: &[u16], head: &[u16]) -> [u16; RULE_SIZE] {
    let mut words = [place, SYMBOL_TRUE, SYMBOL_TRUE, SYMBOL_FALSE, SYMBOL_FALSE, SYMBOL_FALSE];
    words[1..1 + body.len()].copy_from_slice(body);
    words[3..3 + head.len()].copy_from_slice(head);
    words
}

fn label(formula: &Formula, r: usize) -> u16 { SYMBOL_COLUMN + formula.atoms as u16 + r as u16 }

/// The label that a path goes on with.
fn continuation(tree: &Tree, path: usize) -> u16 {
    let (formula, above) = (tree.formula, tree.parent(path));
    match formula.kind(above) {
        DIAMOND | BOX => label(formula, formula.b(above)),
        SEQUENCE if formula.a(above) == path => label(formula, formula.b(above)),
        CHOICE | SEQUENCE => continuation(tree, above),
        STAR => label(formula, above),
        _ => unreachable!("no other record has a path"),
    }
}

fn rules_of(tree: &Tree, r: usize) -> Vec<[u16; RULE_SIZE]> {
    let f = tree.formula;
    let kind = f.kind(r);
    let [x, a, b] = [r, f.a(r), f.b(r)].map(|record| label(f, record));
    let every = |body: &[u16], head: &[u16]| rule(AT_EVERY, body, head);
    let later = |body: u16, head: u16| rule(AT_LATER, &[body], &[head]);
    let same = |s: u16| vec![every(&[x], &[s]), every(&[s], &[x])];
    match kind {
        FALSE => return same(SYMBOL_FALSE),
        TRUE => return same(SYMBOL_TRUE),
        ATOM => return same(SYMBOL_COLUMN + f.a(r) as u16),
        DIAMOND | BOX | SEQUENCE => return same(a),
        _ => {}
    }
    let c = continuation(tree, r);
    let boxed = tree.modality(r) == BOX;
    let at_end = |place: u16| if boxed { rule(place, &[], &[x]) } else { rule(place, &[x], &[]) };
    let (x_before, c_before) = (MARK_PREVIOUS + x, MARK_PREVIOUS + c);
    match (kind, boxed) {
        (STEP, _) => vec![later(x_before, c), later(c, x_before), at_end(AT_LAST)],
        (BACK, _) => vec![later(x, c_before), later(c_before, x), at_end(AT_FIRST)],
        (TEST, false) => vec![every(&[x], &[a]), every(&[x], &[c]), every(&[a, c], &[x])],
        (TEST, true) => vec![
            every(&[x, a], &[c]),
            every(&[MARK_NOT + a], &[x]),
            every(&[c], &[x]),
            every(&[], &[x, a, MARK_NOT + c]),
        ],
        (CHOICE, false) => vec![every(&[x], &[a, b]), every(&[a], &[x]), every(&[b], &[x])],
        (CHOICE, true) => vec![every(&[x], &[a]), every(&[x], &[b]), every(&[a, b], &[x])],
        (STAR, false) => vec![every(&[x], &[c, a]), every(&[c], &[x]), every(&[a], &[x])],
        (STAR, true) => vec![every(&[x], &[c]), every(&[x], &[a]), every(&[c, a], &[x])],
        _ => unreachable!("no other kind"),
    }
}

/// Records in rising order; at last the rule for the whole formula.
fn translation(formula: &Formula) -> Vec<u16> {
    let (tree, n) = (Tree::new(formula), formula.count());
    let whole = rule(AT_FIRST, &[], &[label(formula, n - 1)]);
    (0..n).flat_map(|r| rules_of(&tree, r)).chain([whole]).flatten().collect()
}

// ---- what is refused (Specification, Translation and Refusals)

fn may_stand_still(formula: &Formula, path: usize) -> bool {
    match formula.kind(path) {
        TEST | STAR => true,
        CHOICE => children(formula, path).iter().any(|&part| may_stand_still(formula, part)),
        SEQUENCE => children(formula, path).iter().all(|&part| may_stand_still(formula, part)),
        _ => false,
    }
}

/// Whether a move of this kind is among a path's records, not looking into tests.
fn goes(formula: &Formula, path: usize, kind: u8) -> bool {
    formula.kind(path) == kind
        || (formula.kind(path) != TEST && children(formula, path).iter().any(|&part| goes(formula, part, kind)))
}

/// All that is wrong with a star: turning before standing still.
fn star_faults(formula: &Formula, star: usize) -> Vec<Refusal> {
    let body = formula.a(star);
    let turns = goes(formula, body, STEP) && goes(formula, body, BACK);
    let found = [(StarTurns, turns), (StarStands, may_stand_still(formula, body))];
    found.iter().filter(|(_, there)| *there).map(|&(refusal, _)| refusal).collect()
}

/// An input, what must come back, and what must be written; for records that are a formula also what is wrong with each
/// star that something is wrong with, and how many words its rules have.
#[derive(Debug)]
struct Tried { input: Input, refusal: Refusal, faults: Vec<Vec<Refusal>>, needed: usize, written: Vec<u16> }

/// What every service asks of a formula; stars from the first; room.
fn tried(input: Input) -> Tried {
    let formula = &input.formula;
    let refusal = formula_refusal(formula, false);
    if refusal != Accepted {
        return Tried { input, refusal, faults: vec![], needed: 0, written: vec![] };
    }
    let stars = formula.of_kind(STAR).into_iter().map(|star| star_faults(formula, star));
    let faults: Vec<Vec<Refusal>> = stars.filter(|faults| !faults.is_empty()).collect();
    let rules = translation(formula);
    let needed = rules.len();
    let refusal = faults.first().map_or(Accepted, |first| first[0]).or(NoRoom, || input.room < needed);
    Tried { input, refusal, faults, needed, written: if refusal == Accepted { rules } else { vec![] } }
}

// ---- random inputs

/// Room that is exact or longer for a formula that is a tree.
fn input_of(random: &mut Random, formula: Formula) -> Input {
    Input { room: translation(&formula).len() + spare(random), formula }
}

/// One kind of harm, which may or may not make the input wrong: what must come of it is for `tried` to say.
fn damage(random: &mut Random, input: &mut Input) {
    let n = input.formula.count();
    match random.below(25) {
        0..=15 => damage_records(random, &mut input.formula),
        16 => input.formula.atoms = far(random, input.formula.atoms),
        17 => input.formula.atoms = input.formula.atoms.saturating_sub(1),
        // A move the other way, a choice for a sequence, a diamond for a box, or the reverse.
        18..=21 if n > 0 => {
            let r = random.below(n);
            let other = match input.formula.kind(r) {
                STEP => BACK,
                BACK => STEP,
                CHOICE => SEQUENCE,
                SEQUENCE => CHOICE,
                DIAMOND => BOX,
                BOX => DIAMOND,
                kind => kind,
            };
            input.formula.set_kind(r, other);
        }
        22 | 23 => take_room(random, input, RULE_SIZE, |formula| translation(formula).len()),
        24 => input.room = random.below(input.room + 1),
        _ => {}
    }
}

fn random_input(random: &mut Random) -> Input {
    if random.percent(4) {
        return scattered_input(random, false);
    }
    let size = random_size(random);
    let tame = random.percent(60);
    let formula = random_formula(random, size, tame, 0);
    let input = input_of(random, formula);
    damaged(random, input, damage)
}

// ---- the call

/// Calls the library on an input and says what is wrong with the outcome, if anything is.
fn difference(tried: &Tried, random: &mut Random, library: &mut Library) -> Option<String> {
    let Tried { input, refusal, written, .. } = tried;
    let words = as_bytes(written);
    let room = WORD_SIZE * input.room;
    let lent = [Lent::to_read("records", &input.formula.records), Lent::to_write("rules", random, room, &words)];
    let answer = [*refusal as u64, (written.len() / RULE_SIZE) as u64];
    library.difference(Service::Translate, [input.formula.atoms, 0], &lent, &answer)
}

// ---- the run

impl Tried {
    fn accepted(&self) -> bool { self.refusal == Accepted }
    /// Whether the formula is accepted and has a star that is such.
    fn accepted_with(&self, wanted: impl Fn(&Tree, usize) -> bool) -> bool {
        let formula = &self.input.formula;
        self.accepted() && formula.of_kind(STAR).iter().any(|&star| wanted(&Tree::new(formula), star))
    }
    /// Whether this is all that is wrong with the first star at fault.
    fn first(&self, faults: &[Refusal]) -> bool { self.faults.first().is_some_and(|first| first == faults) }
    /// Whether this is wrong with a later one.
    fn later(&self, fault: Refusal) -> bool { self.faults.iter().skip(1).any(|faults| faults.contains(&fault)) }
}

const CASES: [Case<Tried>; 9] = [
    ("accepted with a star", |t| t.accepted_with(|_, _| true)),
    ("accepted with a star in a star", |t| t.accepted_with(|tree, star| tree.in_star(star))),
    ("accepted with a star in a test in a star", |t| {
        t.accepted_with(|tree, star| {
            tree.formula.of_kind(TEST).iter().any(|&test| tree.in_star(test) && tree.is_within(star, test))
        })
    }),
    ("accepted in exact room", |t| t.accepted() && t.input.room == t.needed),
    ("a star that turns and may stand still", |t| t.first(&[StarTurns, StarStands])),
    ("a star that turns before one that stands", |t| t.first(&[StarTurns]) && t.later(StarStands)),
    ("a star that stands before one that turns", |t| t.first(&[StarStands]) && t.later(StarTurns)),
    ("a star's refusal in too little room", |t| !t.faults.is_empty() && t.input.room < t.needed),
    ("no room by one word", |t| t.refusal == NoRoom && t.input.room == t.needed - 1),
];

/// First every size once, whole and undamaged; then whatever comes. There is no formula of two records.
fn drawn(random: &mut Random, i: usize) -> Tried {
    if i == 2 || !(1..=MOST_RECORDS).contains(&i) {
        return tried(random_input(random));
    }
    let formula = random_formula(random, i, true, 0);
    tried(input_of(random, formula))
}

fn main() {
    let mut comparison = Comparison::of("compare the translator", 60_000, drawn, |tried, random, library, seen| {
        seen.add(tried.refusal.name());
        seen.add_cases(&CASES, tried);
        if tried.accepted() {
            seen.add(format!("{} records", tried.input.formula.count()));
            seen.add(format!("{} atoms", tried.input.formula.atoms));
            count_kinds(seen, &Tree::new(&tried.input.formula));
        }
        difference(tried, random, library)
    });
    comparison.tell(100, outcomes(&[NoRoom, StarStands, StarTurns]));
    comparison.tell(100, names(&CASES));
    comparison.tell(100, kind_names());
    comparison.require(1, (1..=MOST_RECORDS).filter(|&n| n != 2).map(|n| format!("{n} records")));
    comparison.require(1, (0..=MOST_ATOMS).map(|n| format!("{n} atoms")));
    comparison.end("compare with the translator in Rust");
}
