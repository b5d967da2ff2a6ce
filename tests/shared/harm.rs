//! Harm done to records, and records that no formula was drawn for.

use super::*;

/// Numbers that are far out of range, one of them with a low half in range.
pub fn far(random: &mut Random, low: u64) -> u64 {
    random.pick(&[33, 34, 64, 255, 256, 1 << 16, (1 << 32) + low, 1 << 32, 1 << 63, (1 << 63) + low, u64::MAX])
}

/// Some record, if any, of which `wanted` says yes.
pub fn some_record(random: &mut Random, formula: &Formula, wanted: impl Fn(usize) -> bool) -> Option<usize> {
    let found: Vec<usize> = (0..formula.count()).filter(|&r| wanted(r)).collect();
    if found.is_empty() { None } else { Some(random.pick(&found)) }
}

fn set_field(formula: &mut Formula, r: usize, second: bool, v: usize) {
    let at = FIELDS[second as usize];
    formula.bytes(r)[at..at + 2].copy_from_slice(&(v as u16).to_le_bytes());
}

fn has_children(formula: &Formula, r: usize) -> bool { matches!(formula.line(r), Some((_, Field::Child(_), _))) }

fn is_path(formula: &Formula, r: usize) -> bool { matches!(formula.line(r), Some((Sort::Path, ..))) }

/// Names another earlier record where record r names a child, of the same sort or of the other.
fn redirect(random: &mut Random, formula: &mut Formula, same: bool) {
    let Some(r) = some_record(random, formula, |r| has_children(formula, r)) else { return };
    let (_, in_a, in_b) = formula.line(r).expect("it has children");
    let second = matches!(in_b, Field::Child(_)) && random.percent(50);
    let Field::Child(wanted) = (if second { in_b } else { in_a }) else { return };
    let others: Vec<usize> =
        (0..r).filter(|&q| formula.line(q).is_some_and(|(sort, ..)| (sort == wanted) == same)).collect();
    if !others.is_empty() {
        set_field(formula, r, second, random.pick(&others));
    }
}

/// Gives a record one child more, which has its place already: a star gets a second part, a step becomes a star.
fn name_again(random: &mut Random, formula: &mut Formula) {
    let Some(r) = some_record(random, formula, |r| matches!(formula.kind(r), STAR | STEP | BACK)) else { return };
    let paths: Vec<usize> = (0..r).filter(|&q| is_path(formula, q)).collect();
    if paths.is_empty() {
        return;
    }
    let star = formula.kind(r) == STAR;
    set_field(formula, r, star, random.pick(&paths));
    formula.set_kind(r, if star { random.pick(&[CHOICE, SEQUENCE]) } else { STAR });
}

/// One kind of harm to the records, which may or may not make them wrong.
pub fn damage_records(random: &mut Random, formula: &mut Formula) {
    let (n, size, atoms) = (formula.count(), formula.records.len(), formula.atoms as usize);
    match random.below(16) {
        // bytes
        0 if size > 0 => change(random.below(size), &mut formula.records, |byte| byte ^ 1 << random.below(8)),
        1 if size > 0 => change(random.below(size), &mut formula.records, |_| random.byte()),
        // the length
        2 => formula.records.truncate(size.saturating_sub(random.between(1, RECORD_SIZE - 1))),
        3 => formula.records.truncate(RECORD_SIZE * random.below(n + 1)),
        4 => (0..random.between(1, RECORD_SIZE - 1)).for_each(|_| formula.records.push(0)),
        5 => {
            let more = random.pick(&[(TRUE, 0), (STEP, 0), (FALSE, 0), (STAR, n.saturating_sub(1))]);
            formula.records.extend(record(more.0, more.1, 0));
        }
        6 => {
            let upto = random.pick(&[MOST_RECORDS, MOST_RECORDS + 1, MOST_RECORDS + 2, 300, 1000]);
            while formula.count() < upto {
                formula.records.extend(record(TRUE, 0, 0));
            }
        }
        // one record
        7 if n > 0 => {
            let r = random.below(n);
            let kinds = [STAR + 1, STAR + 2, NOT - 1, NOT, AND, NEXT, UNTIL, SINCE, SINCE + 1, 128, 255];
            formula.set_kind(r, random.pick(&kinds));
        }
        8 if n > 0 => {
            let r = random.below(n);
            change(random.pick(&[1, 1, 2, 3, 4, 5]), formula.bytes(r), |_| random.between(1, 255) as u8);
        }
        9 => {
            let Some(r) = some_record(random, formula, |r| has_children(formula, r)) else { return };
            let second = random.percent(50);
            let old = if second { formula.b(r) } else { formula.a(r) };
            set_field(formula, r, second, random.pick(&[r, r + 1, n, 255, 256, 256 + old, 65535]));
        }
        10 => {
            let Some(r) = some_record(random, formula, |r| formula.kind(r) == ATOM) else { return };
            let others = [atoms, atoms.wrapping_add(1), 32, 255, 256 + formula.a(r), 65535];
            set_field(formula, r, false, random.pick(&others));
        }
        11 => redirect(random, formula, false),
        12 => redirect(random, formula, true),
        // One place more, so that a record has two and none has lost its own.
        13 | 14 => name_again(random, formula),
        // The records up to some path.
        15 => {
            let Some(r) = some_record(random, formula, |r| is_path(formula, r)) else { return };
            formula.records.truncate(RECORD_SIZE * (r + 1));
        }
        _ => {}
    }
}

/// Records that no formula was drawn for: core kinds, one past them, shorthands if they are asked for; small fields.
pub fn scattered_records(random: &mut Random, shorthands: bool) -> Vec<u8> {
    let kinds: Vec<u8> =
        if shorthands { (FALSE..=STAR + 1).chain(NOT..=SINCE).collect() } else { (FALSE..=STAR + 1).collect() };
    let mut records = vec![];
    for r in 0..random.between(1, 8) {
        let kind = random.pick(&kinds);
        let (_, in_a, in_b) = line(kind, shorthands).unwrap_or((Sort::Formula, Field::Nothing, Field::Nothing));
        let mut drawn = |field| match field {
            Field::Nothing => random.percent(3) as usize,
            Field::AtomNumber => random.below(4),
            Field::Child(_) => random.below(r + 1),
        };
        let (a, b) = (drawn(in_a), drawn(in_b));
        records.extend(record(kind, a, b));
    }
    records
}
