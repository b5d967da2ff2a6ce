//! What the rules of pasturequill_translate say against the values that pasturequill_value gives, over small formulas.
//!
//! All fillings of the labels are searched: exactly one meets all rules but the last, its labels of formulas are the
//! values, and with the last rule there is one exactly if the formula is worth 2. All inputs are from a fixed seed.

mod shared;

use shared::*;

// ---- fillings of the labels

/// The records in an order in which a search soon knows what each rule speaks of: first what a path goes on with.
fn search_order(formula: &Formula, r: usize, order: &mut Vec<usize>) {
    let star = formula.kind(r) == STAR;
    order.extend(star.then_some(r));
    children(formula, r).iter().rev().for_each(|&child| search_order(formula, child, order));
    order.extend((!star).then_some(r));
}

/// A search over all values of the labels at all instants, given the atoms' cells.
struct Search<'a> {
    width: usize,
    cells: Vec<u8>,
    /// The labels' cells, in the order in which they are filled.
    order: Vec<usize>,
    /// For each cell in that order, the rules and their instants that speak of it and of cells before it alone.
    due: Vec<Vec<(&'a [u16], usize)>>,
    found: Vec<Vec<u8>>,
}

impl<'a> Search<'a> {
    fn new(formula: &Formula, instants: usize, atom_cells: &[u8], rules: &'a [u16]) -> Search<'a> {
        let atoms = formula.atoms as usize;
        let width = atoms + formula.count();
        let mut cells = vec![0; width * instants];
        for k in 0..instants {
            cells[k * width..k * width + atoms].copy_from_slice(&atom_cells[k * atoms..(k + 1) * atoms]);
        }
        let mut records = vec![];
        search_order(formula, formula.count() - 1, &mut records);
        let order: Vec<usize> =
            records.iter().flat_map(|r| (0..instants).map(move |k| k * width + atoms + r)).collect();
        let mut due = vec![vec![]; order.len()];
        for rule in rules.chunks_exact(RULE_SIZE) {
            for k in instants_of(rule[0], instants) {
                let turn = |literal: Literal| {
                    let column = literal.symbol.checked_sub(SYMBOL_COLUMN)? as usize;
                    let instant = if literal.previous { k - 1 } else { k };
                    order.iter().position(|&filled| filled == instant * width + column)
                };
                let last = literals(rule).filter_map(turn).max().expect("each rule speaks of a label");
                due[last].push((rule, k));
            }
        }
        Search { width, cells, order, due, found: vec![] }
    }

    /// Keeps every filling that meets all rules.
    fn fill(&mut self, filled: usize) {
        if filled == self.order.len() {
            self.found.push(self.cells.clone());
            return;
        }
        for value in 0..3 {
            self.cells[self.order[filled]] = value;
            if self.due[filled].iter().all(|&(rule, k)| holds_at(self.width, &self.cells, rule, k)) {
                self.fill(filled + 1);
            }
        }
    }
}

fn fillings(formula: &Formula, instants: usize, atom_cells: &[u8], rules: &[u16]) -> Vec<Vec<u8>> {
    let mut search = Search::new(formula, instants, atom_cells, rules);
    search.fill(0);
    search.found
}

/// The rules that the library writes for a formula; none where it refuses.
fn library_rules(library: &mut Library, formula: &Formula) -> Result<Vec<u16>, String> {
    let room = vec![0; WORD_SIZE * MOST_RULE_WORDS];
    let outcome = library.call(Service::Translate, [formula.atoms, 0], &[&formula.records, &room])?;
    Ok(as_words(&outcome.slices[1][..WORD_SIZE * RULE_SIZE * outcome.results[1] as usize]))
}

/// What the rules of a formula say over a trace that is not so, if anything; else the formula's value.
fn unmeant(library: &mut Library, formula: &Formula, instants: usize, cells: &[u8]) -> Result<u64, String> {
    let n = formula.count();
    let room = vec![9; n * instants];
    let valued = library.call(Service::Value, [formula.atoms, instants as u64], &[&formula.records, cells, &room])?;
    let (refusal, value) = (valued.results[0], valued.results[1]);
    let table = &valued.slices[2];
    if refusal != 0 {
        return Err(format!("valuing refuses it with {refusal}"));
    }
    let rules = library_rules(library, formula)?;
    if rules.len() < RULE_SIZE {
        return Err("no rules".to_string());
    }
    let all_but_last = fillings(formula, instants, cells, &rules[..rules.len() - RULE_SIZE]);
    let [filling] = all_but_last.as_slice() else {
        return Err(format!("{} fillings meet all rules but the last", all_but_last.len()));
    };
    let (atoms, width) = (formula.atoms as usize, formula.atoms as usize + n);
    for r in (0..n).filter(|&r| sort(formula, r) == Sort::Formula) {
        for k in 0..instants {
            let (label, value) = (filling[k * width + atoms + r], table[r * instants + k]);
            if label != value {
                return Err(format!("the label of record {r} is {label} at instant {k}, where the value is {value}"));
            }
        }
    }
    let all = fillings(formula, instants, cells, &rules).len();
    if all != (value == 2) as usize {
        return Err(format!("{all} fillings meet all rules, where the value is {value}"));
    }
    Ok(value)
}

// ---- the run

/// A formula, how many instants there are, and the cells of its atoms.
type Input = (Formula, usize, Vec<u8>);

fn drawn(random: &mut Random, _: usize) -> Input {
    let size = random.pick(&[1, 3, 4, 4, 5, 5, 5, 6, 6, 7, 7, 8]);
    let atoms = random.pick(&[0, 1, 2, 2]);
    let instants = random.pick(&[1, 2, 2, 3, 3]);
    let formula = formula_over(random, size, true, 0, atoms);
    (formula, instants, random_cells(random, atoms, instants))
}

fn main() {
    let mut comparison =
        Comparison::of("compare the fillings", 12_000, drawn, |(formula, instants, cells), _, library, seen| {
            count_kinds(seen, &Tree::new(formula));
            seen.add(format!("{instants} instants"));
            let value = unmeant(library, formula, *instants, cells);
            value.map(|value| seen.add(format!("value {value}"))).err()
        });
    comparison.tell(100, (1..=3).map(|instants| format!("{instants} instants")).collect());
    comparison.tell(100, (0..3).map(|value| format!("value {value}")).collect());
    comparison.tell(100, kind_names());
    comparison.end("compare the fillings of the rules with the values");
}
