//! Formulas and paths of core kinds as trees, for the comparisons of services that write one: a tree's records in
//! postorder.

use super::*;

/// A formula or path of core kinds alone.
#[derive(Debug)]
pub struct Core { pub kind: u8, pub atom: usize, pub parts: Vec<Core> }

pub fn leaf(kind: u8) -> Core { Core { kind, atom: 0, parts: vec![] } }
pub fn core_atom(atom: usize) -> Core { Core { atom, ..leaf(ATOM) } }
pub fn one(kind: u8, part: Core) -> Core { Core { kind, atom: 0, parts: vec![part] } }
pub fn two(kind: u8, first: Core, second: Core) -> Core { Core { kind, atom: 0, parts: vec![first, second] } }

impl Core {
    /// Writes the records of the first part, of the second, and then the tree's own; gives the number of the last.
    fn write(&self, records: &mut Vec<Record>) -> usize {
        let parts: Vec<usize> = self.parts.iter().map(|part| part.write(records)).collect();
        let part = |i: usize| parts.get(i).copied();
        records.push(record(self.kind, part(0).unwrap_or(self.atom), part(1).unwrap_or(0)));
        records.len() - 1
    }

    /// All records, in postorder.
    pub fn records(&self) -> Vec<Record> {
        let mut records = vec![];
        self.write(&mut records);
        records
    }
}
