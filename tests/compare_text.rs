//! pasturequill_write_text and pasturequill_read_text against a writer and a reader that were written apart from them,
//! over random inputs, accepted and refused.
//!
//! The writer puts a tree's signs around the texts of its parts. The reader lays the signs of a text on a stack, and
//! puts a formula or a path in the place of the last ones as soon as they are one. Compared are the refusal, the
//! count, every byte, and the bytes around. What was written must be read as the same tree in postorder, and what was
//! read must be written as the same text. Every input is drawn from a fixed seed.

mod shared;

use shared::counted::*;
use shared::*;
use Piece::{Sign, Whole};

// ---- writing

/// The tree of record r.
fn core(formula: &Formula, r: usize) -> Core {
    let atom = if formula.kind(r) == ATOM { formula.a(r) } else { 0 };
    Core { kind: formula.kind(r), atom, parts: children(formula, r).into_iter().map(|c| core(formula, c)).collect() }
}

/// The text of a tree, unless there is a back step in it.
fn text(tree: &Core) -> Option<String> {
    let parts = tree.parts.iter().map(text).collect::<Option<Vec<String>>>()?;
    Some(match (tree.kind, &parts[..]) {
        (FALSE, []) => "#false".to_string(),
        (TRUE, []) => "#true".to_string(),
        (ATOM, []) => format!("p{}", tree.atom),
        (STEP, []) => "&t".to_string(),
        (BACK, []) => return None,
        (TEST, [f]) => format!("?{f}"),
        (STAR, [p]) => format!("*{p}"),
        (CHOICE, [p, q]) => format!("({p}+{q})"),
        (SEQUENCE, [p, q]) => format!("({p};{q})"),
        (DIAMOND, [p, f]) => format!("({p}.>?{f})"),
        (BOX, [p, f]) => format!("({p}.>*{f})"),
        _ => unreachable!("no other kind"),
    })
}

// ---- reading

/// What lies on the stack: a sign, or the tree of a formula or path that is whole.
enum Piece { Sign(&'static str), Whole(Sort, Core) }

const SIGNS: [&str; 8] = ["(", ")", "+", ";", ".>?", ".>*", "?", "*"];
const WORDS: [(&str, Sort, u8); 3] =
    [("#false", Sort::Formula, FALSE), ("#true", Sort::Formula, TRUE), ("&t", Sort::Path, STEP)];

/// The piece that a text begins with, and how many bytes of it that takes. An atom's number takes all digits.
fn first_piece(text: &[u8]) -> Option<(Piece, usize)> {
    if let Some(&sign) = SIGNS.iter().find(|sign| text.starts_with(sign.as_bytes())) {
        return Some((Sign(sign), sign.len()));
    }
    if let Some(&(word, sort, kind)) = WORDS.iter().find(|(word, ..)| text.starts_with(word.as_bytes())) {
        return Some((Whole(sort, leaf(kind)), word.len()));
    }
    let digits: String =
        text.strip_prefix(b"p")?.iter().map(|&byte| byte as char).take_while(char::is_ascii_digit).collect();
    let atom = (0..MOST_ATOMS).find(|atom| atom.to_string() == digits)?;
    Some((Whole(Sort::Formula, core_atom(atom)), 1 + digits.len()))
}

/// The last pieces made one, as long as they are a formula or a path.
fn join(stack: &mut Vec<Piece>) {
    use Sort::{Formula, Path};
    loop {
        let (pieces, sort, kind) = match &stack[..] {
            [.., Sign("?"), Whole(Formula, _)] => (2, Path, TEST),
            [.., Sign("*"), Whole(Path, _)] => (2, Path, STAR),
            [.., Sign("("), Whole(Path, _), Sign("+"), Whole(Path, _), Sign(")")] => (5, Path, CHOICE),
            [.., Sign("("), Whole(Path, _), Sign(";"), Whole(Path, _), Sign(")")] => (5, Path, SEQUENCE),
            [.., Sign("("), Whole(Path, _), Sign(".>?"), Whole(Formula, _), Sign(")")] => (5, Formula, DIAMOND),
            [.., Sign("("), Whole(Path, _), Sign(".>*"), Whole(Formula, _), Sign(")")] => (5, Formula, BOX),
            _ => return,
        };
        let parts = stack.split_off(stack.len() - pieces).into_iter();
        let parts = parts.filter_map(|piece| if let Whole(_, tree) = piece { Some(tree) } else { None }).collect();
        stack.push(Whole(sort, Core { kind, atom: 0, parts }));
    }
}

/// The tree of a text, if that is in the form.
fn tree(mut text: &[u8]) -> Option<Core> {
    let mut stack = vec![];
    while !text.is_empty() {
        let (piece, size) = first_piece(text)?;
        text = &text[size..];
        stack.push(piece);
        join(&mut stack);
    }
    match (stack.pop()?, stack.is_empty()) {
        (Whole(Sort::Formula, tree), true) => Some(tree),
        _ => None,
    }
}

// ---- what is refused

/// A call of one of the two services; how many records its tree has and how many bytes it asks for, 0 where there is no
/// tree; what must be given back and written, and what the other service must make of that.
#[derive(Debug)]
struct Tried {
    reading: bool,
    input: Vec<u8>,
    atoms: u64,
    room: usize,
    records: usize,
    needed: usize,
    refusal: Refusal,
    written: Vec<u8>,
    back: Vec<u8>,
}

/// What every service asks of a formula; signs; room.
fn tried_writing(input: Input) -> Tried {
    let Input { formula, room } = input;
    let refusal = formula_refusal(&formula, false);
    let tree = if refusal == Accepted { Some(core(&formula, formula.count() - 1)) } else { None };
    let (records, text) = tree.map_or((vec![], None), |tree| (tree.records(), text(&tree)));
    let needed = text.as_ref().map_or(0, String::len);
    let refusal = refusal.or(NoSign, || text.is_none()).or(NoRoom, || room < needed);
    let (written, back) =
        if refusal == Accepted { (text.unwrap_or_default().into(), records.concat()) } else { (vec![], vec![]) };
    let Formula { records: input, atoms, .. } = formula;
    Tried { reading: false, input, atoms, room, records: records.len(), needed, refusal, written, back }
}

/// The atoms; the length; the form; the records; each atom; room.
fn tried_reading(Reading { text, atoms, room }: Reading) -> Tried {
    let tree = tree(&text);
    let records = tree.as_ref().map_or(vec![], Core::records);
    let needed = RECORD_SIZE * records.len();
    let beyond = |record: &Record| record[0] == ATOM && record[FIELDS[0]] as u64 >= atoms;
    let refusal = Accepted
        .or(WrongSize, || atoms > MOST_ATOMS as u64)
        .or(TooLong, || text.len() > MOST_TEXT)
        .or(NotTheForm, || tree.is_none())
        .or(TooLong, || records.len() > MOST_RECORDS)
        .or(NoSuchAtom, || records.iter().any(beyond))
        .or(NoRoom, || room < needed);
    let (written, back) = if refusal == Accepted { (records.concat(), text.clone()) } else { (vec![], vec![]) };
    Tried { reading: true, input: text, atoms, room, records: records.len(), needed, refusal, written, back }
}

// ---- random records

/// Makes all moves steps.
fn forward(mut formula: Formula) -> Formula {
    formula.of_kind(BACK).into_iter().for_each(|r| formula.set_kind(r, STEP));
    formula
}

/// How many bytes the text of a formula has that is a tree.
fn text_size(formula: &Formula) -> usize { text(&core(formula, formula.count() - 1)).map_or(0, |text| text.len()) }

/// One kind of harm, which may or may not make the input wrong: what must come of it is for `tried_writing` to say.
fn damage_input(random: &mut Random, input: &mut Input) {
    match random.below(20) {
        0..=13 => damage_records(random, &mut input.formula),
        14 => input.formula.atoms = far(random, input.formula.atoms),
        15 => input.formula.atoms = input.formula.atoms.saturating_sub(1),
        16..=18 => take_room(random, input, RECORD_SIZE, text_size),
        _ => input.room = random.below(input.room + 1),
    }
}

fn records_of(random: &mut Random, formula: Formula) -> Input {
    Input { room: text_size(&formula) + spare(random), formula }
}

/// First every size once, whole and undamaged; then whatever comes. There is no formula of two records.
fn drawn_writing(random: &mut Random, i: usize) -> Tried {
    if i != 2 && (1..=MOST_RECORDS).contains(&i) {
        let formula = forward(random_formula(random, i, false, 0));
        return tried_writing(records_of(random, formula));
    }
    if random.percent(4) {
        return tried_writing(scattered_input(random, false));
    }
    let size = random_size(random);
    let formula = random_formula(random, size, false, 0);
    let formula = if random.percent(80) { forward(formula) } else { formula };
    let input = records_of(random, formula);
    tried_writing(damaged(random, input, damage_input))
}

// ---- random text

/// What is handed over for reading.
struct Reading { text: Vec<u8>, atoms: u64, room: usize }

/// The text of a formula of so many records, which may be more than there may be, and how many atoms it was drawn over.
fn random_text(random: &mut Random, size: usize) -> (Vec<u8>, u64) {
    let formula = forward(random_formula(random, size, false, 0));
    let text = text(&core(&formula, formula.count() - 1)).expect("there is no back step");
    (text.into(), formula.atoms)
}

/// Stars before some step, so many that the text has as many bytes as are asked for, if it has a step and fewer bytes.
fn lengthened(random: &mut Random, text: Vec<u8>, size: usize) -> Vec<u8> {
    let steps: Vec<usize> = (0..text.len()).filter(|&at| text[at..].starts_with(b"&t")).collect();
    if steps.is_empty() {
        return text;
    }
    let (before, after) = text.split_at(random.pick(&steps));
    [before, &vec![b'*'; size.saturating_sub(text.len())], after].concat()
}

/// Text of all sizes, many of them about as large as there may be.
fn some_text(random: &mut Random) -> (Vec<u8>, u64) {
    let size = match random.below(20) {
        0..=14 => random_size(random),
        15..=17 => random.between(MOST_RECORDS - 4, MOST_RECORDS + 4),
        _ => random.between(3, 500),
    };
    let (text, atoms) = random_text(random, size);
    let most = MOST_TEXT;
    let bytes = random.pick(&[most - 1, most, most, most + 1, most + 1, most + 2, 1600, 4000]);
    (if size > 2 && random.percent(8) { lengthened(random, text, bytes) } else { text }, atoms)
}

/// Signs and words at random; some of them have parts of others, or are almost others.
fn scattered_text(random: &mut Random) -> Vec<u8> {
    const OTHERS: [&str; 16] =
        ["p0", "p1", "p31", "p32", "p00", "#true", "&t", ".>", "p", "#", "&", " ", "P0", "&T", "3", "((&t;&t).>?"];
    let times = random.pick(&[0, 1, 1, 2, 3, 5, 10, 400]);
    let drawn = (0..times).map(|_| if random.percent(50) { random.pick(&SIGNS) } else { random.pick(&OTHERS) });
    drawn.collect::<String>().into()
}

/// One kind of harm: a byte changed, dropped, doubled or put in, two swapped, a part cut off; or to the numbers.
fn damage_text(random: &mut Random, reading: &mut Reading) {
    let text = &mut reading.text;
    if text.is_empty() {
        return;
    }
    let (at, other) = (random.below(text.len()), random.below(text.len()));
    match random.below(22) {
        0..=4 => text[at] = random.pick(b"#falsetrup0123456789&?*+;().>"),
        5 => text[at] = random.byte(),
        6..=8 => drop(text.remove(at)),
        9..=11 => text.insert(at, text[at]),
        12 | 13 => text.swap(at, other),
        14 if at > 0 => text.swap(at, at - 1),
        15 => text.truncate(at),
        16 => drop(text.drain(..at)),
        17 | 18 => text.insert(random.pick(&[0, at, text.len()]), random.pick(b" \n\t\0\xc8()")),
        19 => reading.atoms = far(random, reading.atoms),
        _ => reading.room = reading.room.saturating_sub(random.pick(&[1, 1, 1, 2, 5, 6, 7, 12])),
    }
}

/// First the text of every size once, whole and undamaged; then whatever comes.
fn drawn_reading(random: &mut Random, i: usize) -> Tried {
    let first = i != 2 && (1..=MOST_RECORDS).contains(&i);
    let (text, over) = match (first, random.percent(8)) {
        (true, _) => random_text(random, i),
        (_, true) => (scattered_text(random), 2),
        _ => some_text(random),
    };
    let atoms = if first || random.percent(70) { over } else { random.below(MOST_ATOMS + 2) as u64 };
    let needed = RECORD_SIZE * tree(&text).map_or(0, |tree| tree.records().len());
    let room = if first || random.percent(90) { needed + spare(random) } else { random.below(MOST_RECORD_BYTES) };
    let reading = Reading { text, atoms, room };
    tried_reading(if first { reading } else { damaged(random, reading, damage_text) })
}

// ---- the calls

/// Calls the library on an input, and then the other service on what was written if it was accepted; says what is wrong
/// with the outcomes, if anything is.
fn difference(tried: &Tried, random: &mut Random, library: &mut Library) -> Option<String> {
    let mut differs = |reading: bool, input: &[u8], room: usize, refusal: Refusal, written: &[u8]| {
        let (service, each) = if reading { (Service::ReadText, RECORD_SIZE) } else { (Service::WriteText, 1) };
        let lent = [Lent::to_read("input", input), Lent::to_write("output", random, room, written)];
        library.difference(service, [tried.atoms, 0], &lent, &[refusal as u64, (written.len() / each) as u64])
    };
    let Tried { reading, input, room, refusal, written, back, .. } = tried;
    if let Some(what) = differs(*reading, input, *room, *refusal, written) {
        return Some(format!("{what}; the text is {}", String::from_utf8_lossy(if *reading { input } else { written })));
    }
    if !tried.accepted() {
        return None;
    }
    differs(!reading, written, back.len(), Accepted, back).map(|what| format!("the way back: {what}"))
}

// ---- the run

impl Tried {
    fn accepted(&self) -> bool { self.refusal == Accepted }
    /// The formula that was read or written, in postorder.
    fn formula(&self) -> Formula {
        let records = if self.reading { &self.written } else { &self.back };
        Formula { records: records.clone(), atoms: self.atoms, shorthands: false }
    }
    /// Whether a text is refused so that is in the form, or is not.
    fn refused_in_form(&self, refusal: Refusal) -> bool { self.refusal == refusal && self.records > 0 }
    fn refused_outside(&self, refusal: Refusal) -> bool { self.refusal == refusal && self.records == 0 }
    /// Whether the text is outside the form, and another one is in it.
    fn outside_unlike(&self, other: &[u8]) -> bool { self.refusal == NotTheForm && tree(other).is_some() }
    fn has(&self, part: &str) -> bool { self.input.windows(part.len()).any(|bytes| bytes == part.as_bytes()) }
}

const WRITING_CASES: [Case<Tried>; 6] = [
    ("accepted in exact room", |t| t.accepted() && t.room == t.needed),
    ("accepted, not in postorder", |t| t.accepted() && t.input != t.back),
    ("accepted with 255 records", |t| t.accepted() && t.records == MOST_RECORDS),
    ("no room by one byte", |t| t.refusal == NoRoom && t.room == t.needed - 1),
    ("no sign in no room", |t| t.refusal == NoSign && t.room == 0),
    ("no sign with over 40 records", |t| t.refusal == NoSign && t.records > 40),
];

const READING_CASES: [Case<Tried>; 16] = [
    ("accepted in exact room", |t| t.accepted() && t.room == t.needed),
    ("accepted with 255 records", |t| t.accepted() && t.records == MOST_RECORDS),
    ("too long with 256 records", |t| t.refused_in_form(TooLong) && t.records == MOST_RECORDS + 1),
    ("too long with 256 records in no room for 255", |t| {
        t.refused_in_form(TooLong) && t.records == MOST_RECORDS + 1 && t.room < MOST_RECORD_BYTES
    }),
    ("too long with 1,530 bytes in the form", |t| t.refused_in_form(TooLong) && t.input.len() == MOST_TEXT),
    ("too long with 1,531 bytes in the form", |t| t.refused_in_form(TooLong) && t.input.len() == MOST_TEXT + 1),
    ("too long with 1,531 bytes outside it", |t| t.refused_outside(TooLong) && t.input.len() == MOST_TEXT + 1),
    ("outside the form with 1,530 bytes", |t| t.refusal == NotTheForm && t.input.len() == MOST_TEXT),
    ("outside the form with a number over 31", |t| t.refusal == NotTheForm && (t.has("p32") || t.has("p4"))),
    ("outside the form with a leading zero", |t| t.refusal == NotTheForm && (t.has("p00") || t.has("p01"))),
    ("outside the form for want of a last bracket", |t| t.outside_unlike(&[&t.input[..], b")"].concat())),
    ("outside the form by its first byte", |t| t.outside_unlike(t.input.get(1..).unwrap_or(&[]))),
    ("outside the form by its last byte", |t| t.outside_unlike(&t.input[..t.input.len().saturating_sub(1)])),
    ("no such atom, and no room", |t| t.refusal == NoSuchAtom && t.room < t.needed),
    ("no room by one byte", |t| t.refusal == NoRoom && t.room == t.needed - 1),
    ("wrong size with text outside the form", |t| t.refused_outside(WrongSize)),
];

fn compare(
    name: &'static str,
    drawn: fn(&mut Random, usize) -> Tried,
    cases: &[Case<Tried>],
    refusals: Vec<String>,
) -> Comparison {
    let mut comparison = Comparison::of(name, 60_000, drawn, |tried, random, library, seen| {
        seen.add(tried.refusal.name());
        seen.add_cases(cases, tried);
        if tried.accepted() {
            let formula = tried.formula();
            seen.add(format!("{} records", tried.records));
            seen.add(format!("{} atoms", tried.atoms));
            formula.of_kind(ATOM).iter().for_each(|&r| seen.add(format!("p{}", formula.a(r))));
            count_kinds(seen, &Tree::new(&formula));
        }
        difference(tried, random, library)
    });
    comparison.tell(100, refusals);
    comparison.tell(20, names(cases));
    comparison.tell(100, kind_names().into_iter().filter(|name| !name.starts_with("back")).collect());
    comparison.require(1, (1..=MOST_RECORDS).filter(|&n| n != 2).map(|n| format!("{n} records")));
    comparison.require(1, (0..=MOST_ATOMS).map(|n| format!("{n} atoms")));
    comparison.require(1, (0..MOST_ATOMS).map(|n| format!("p{n}")));
    comparison
}

fn main() {
    let wrote = compare("compare the writer", drawn_writing, &WRITING_CASES, outcomes(&[NoSign, NoRoom]));
    let reading_refusals = [Accepted, NoSuchAtom, WrongSize, NoRoom, TooLong, NotTheForm].map(Refusal::name).to_vec();
    let read = compare("compare the reader", drawn_reading, &READING_CASES, reading_refusals);
    wrote.end("compare with the writer in Rust");
    read.end("compare with the reader in Rust");
}
