//! A formula's tree, for the comparisons that need to climb it: each record's parent, and what a path stands under.

use super::*;

/// A formula whose records are a tree, with each record's parent.
pub struct Tree<'a> { pub formula: &'a Formula, parents: Vec<Option<usize>> }

impl Tree<'_> {
    pub fn new(formula: &Formula) -> Tree<'_> {
        let mut parents = vec![None; formula.count()];
        for r in 0..formula.count() {
            for child in children(formula, r) {
                parents[child] = Some(r);
            }
        }
        Tree { formula, parents }
    }

    pub fn parent(&self, path: usize) -> usize { self.parents[path].expect("a path has a parent") }

    /// The diamond or box that a path stands under.
    pub fn modality(&self, path: usize) -> u8 {
        let above = self.parent(path);
        match self.formula.kind(above) {
            kind @ (DIAMOND | BOX) => kind,
            _ => self.modality(above),
        }
    }

    /// Whether a path is part of a star's body, its tests' formulas left aside.
    pub fn in_star(&self, path: usize) -> bool {
        let above = self.parent(path);
        match self.formula.kind(above) {
            STAR => true,
            CHOICE | SEQUENCE => self.in_star(above),
            _ => false,
        }
    }

    /// Whether a record is another one or stands below it.
    pub fn is_within(&self, r: usize, other: usize) -> bool {
        r == other || self.parents[r].is_some_and(|above| self.is_within(above, other))
    }
}

// ---- kinds, paths by what they stand under

const KINDS: [&str; 11] =
    ["false", "true", "atom", "diamond", "box", "step", "back", "test", "choice", "sequence", "star"];

fn under(kind: u8, modality: u8) -> String { format!("{} under a {}", KINDS[kind as usize], KINDS[modality as usize]) }

pub fn kind_names() -> Vec<String> {
    let formulas = (FALSE..=BOX).map(|kind| KINDS[kind as usize].to_string());
    formulas.chain((STEP..=STAR).flat_map(|kind| [under(kind, DIAMOND), under(kind, BOX)])).collect()
}

pub fn count_kinds(seen: &mut Seen, tree: &Tree) {
    for r in 0..tree.formula.count() {
        let kind = tree.formula.kind(r);
        seen.add(if kind >= STEP { under(kind, tree.modality(r)) } else { KINDS[kind as usize].to_string() });
    }
}
