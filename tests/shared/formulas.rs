//! Formulas as records, for the comparisons of services over them: the table of kinds and what is refused by it
//! (Specification, Records and Refusals).

use super::*;

/// The shorthands by how many arguments they have.
pub const SHORTHANDS: [&[u8]; 3] = [
    &[FINAL, INITIAL],
    &[NOT, NEXT, WEAK_NEXT, PREVIOUS, WEAK_PREVIOUS, EVENTUALLY, ALWAYS, ONCE, SO_FAR],
    &[AND, OR, IMPLIES, UNTIL, SINCE],
];

// ---- records

pub type Record = [u8; RECORD_SIZE];

/// Where a record's parts are; a field has two bytes.
const KIND: usize = 0;
const ZERO: usize = 1;
pub const FIELDS: [usize; 2] = [2, 4];

pub fn record(kind: u8, a: usize, b: usize) -> Record {
    let mut bytes = [0; RECORD_SIZE];
    bytes[KIND] = kind;
    for (at, v) in FIELDS.into_iter().zip([a, b]) {
        bytes[at..at + 2].copy_from_slice(&(v as u16).to_le_bytes());
    }
    bytes
}

/// Records, of a formula or not, how many atoms there are, and whether they are for a service that takes shorthands.
#[derive(Debug)]
pub struct Formula { pub records: Vec<u8>, pub atoms: u64, pub shorthands: bool }

impl Formula {
    pub fn count(&self) -> usize { self.records.len() / RECORD_SIZE }
    fn byte(&self, r: usize, at: usize) -> u8 { self.records[RECORD_SIZE * r + at] }
    pub fn kind(&self, r: usize) -> u8 { self.byte(r, KIND) }
    fn fields(&self, r: usize) -> [usize; 2] {
        FIELDS.map(|at| u16::from_le_bytes([self.byte(r, at), self.byte(r, at + 1)]) as usize)
    }
    pub fn a(&self, r: usize) -> usize { self.fields(r)[0] }
    pub fn b(&self, r: usize) -> usize { self.fields(r)[1] }
    /// The bytes of record r.
    pub fn bytes(&mut self, r: usize) -> &mut [u8] { &mut self.records[RECORD_SIZE * r..RECORD_SIZE * (r + 1)] }
    pub fn set_kind(&mut self, r: usize, kind: u8) { self.bytes(r)[KIND] = kind; }
    /// The records of a kind.
    pub fn of_kind(&self, kind: u8) -> Vec<usize> { (0..self.count()).filter(|&r| self.kind(r) == kind).collect() }
    /// The line of record r in the table of kinds, if the service takes its kind.
    pub fn line(&self, r: usize) -> Option<Line> { line(self.kind(r), self.shorthands) }
    /// What record r has in its fields, and what these hold by the table.
    fn held(&self, r: usize) -> Option<[(Field, usize); 2]> {
        let (_, a, b) = self.line(r)?;
        Some([(a, self.a(r)), (b, self.b(r))])
    }
}

// ---- the table of kinds

#[derive(Clone, Copy, PartialEq)]
pub enum Sort { Formula, Path }

/// What a field holds.
#[derive(Clone, Copy, PartialEq)]
pub enum Field { Nothing, AtomNumber, Child(Sort) }

/// What the table of kinds says of one: the sort, and what fields a and b hold.
pub type Line = (Sort, Field, Field);

/// The table of kinds, with the shorthands or without them. Other kinds have no line.
pub fn line(kind: u8, shorthands: bool) -> Option<Line> {
    use Field::*;
    use Sort::*;
    Some(match kind {
        FALSE | TRUE => (Formula, Nothing, Nothing),
        ATOM => (Formula, AtomNumber, Nothing),
        DIAMOND | BOX => (Formula, Child(Path), Child(Formula)),
        STEP | BACK => (Path, Nothing, Nothing),
        TEST => (Path, Child(Formula), Nothing),
        CHOICE | SEQUENCE => (Path, Child(Path), Child(Path)),
        STAR => (Path, Child(Path), Nothing),
        NOT | NEXT..=SO_FAR if shorthands => (Formula, Child(Formula), Nothing),
        AND | OR | IMPLIES | UNTIL | SINCE if shorthands => (Formula, Child(Formula), Child(Formula)),
        FINAL | INITIAL if shorthands => (Formula, Nothing, Nothing),
        _ => return None,
    })
}

/// The sort of a record that was looked at already.
pub fn sort(formula: &Formula, r: usize) -> Sort {
    formula.line(r).expect("a record before this one has a known kind").0
}

/// The children of a record whose kind is known, that in field a first.
pub fn children(formula: &Formula, r: usize) -> Vec<usize> {
    let held = formula.held(r).expect("all kinds are known by now");
    held.iter().filter(|(field, _)| matches!(field, Field::Child(_))).map(|&(_, v)| v).collect()
}

// ---- what is refused

/// The first refusal of record r, the records before it having none.
pub fn record_refusal(formula: &Formula, r: usize) -> Refusal {
    let Some(held) = formula.held(r) else { return UnknownKind };
    let some = |fault: &dyn Fn(Field, usize) -> bool| held.iter().any(|&(field, v)| fault(field, v));
    let stray = |field, v| field == Field::Nothing && v != 0;
    let late = |field, v| matches!(field, Field::Child(_)) && v >= r;
    let beyond = |field, v| field == Field::AtomNumber && v as u64 >= formula.atoms;
    let mistaken = |field, v| matches!(field, Field::Child(wanted) if sort(formula, v) != wanted);
    Accepted
        .or(NotZero, || formula.byte(r, ZERO) != 0 || some(&stray))
        .or(LateChild, || some(&late))
        .or(NoSuchAtom, || some(&beyond))
        .or(WrongSort, || some(&mistaken))
}

fn wrong_length(formula: &Formula) -> bool {
    let size = formula.records.len();
    size == 0 || size % RECORD_SIZE != 0 || size > MOST_RECORD_BYTES
}

/// Whether some record before the last is the child of no place or of several.
fn no_tree(formula: &Formula) -> bool {
    let n = formula.count();
    let named: Vec<usize> = (0..n).flat_map(|r| children(formula, r)).collect();
    (0..n - 1).any(|r| named.iter().filter(|&&child| child == r).count() != 1)
}

/// The first refusal of the records from the first; then the last record's sort; then the tree. The length is right.
fn records_refusal(formula: &Formula) -> Refusal {
    let n = formula.count();
    let refused = (0..n).map(|r| record_refusal(formula, r)).find(|&refusal| refusal != Accepted);
    refused.unwrap_or(Accepted).or(WrongSort, || sort(formula, n - 1) == Sort::Path).or(NotATree, || no_tree(formula))
}

/// Whether the records are a formula's.
pub fn is_formula(formula: &Formula) -> bool { !wrong_length(formula) && records_refusal(formula) == Accepted }

/// What every service asks of a formula: the length; the atoms, and what else `wrong_size` says; the records.
pub fn formula_refusal(formula: &Formula, wrong_size: bool) -> Refusal {
    let early = Accepted
        .or(WrongLength, || wrong_length(formula))
        .or(WrongSize, || formula.atoms > MOST_ATOMS as u64 || wrong_size);
    if early == Accepted { records_refusal(formula) } else { early }
}

/// The names of what a service over records gives back, those of its own after those that all give.
pub fn outcomes(own: &[Refusal]) -> Vec<String> {
    let shared = [Accepted, WrongLength, UnknownKind, NotZero, LateChild, NoSuchAtom, WrongSort, NotATree, WrongSize];
    shared.iter().chain(own).map(|refusal| refusal.name()).collect()
}
