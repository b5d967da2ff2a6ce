//! What the comparisons of the services over records that write and count share: their inputs.

use super::*;

/// What is handed to the library; `room` counts bytes of records or words of rules.
#[derive(Debug)]
pub struct Input { pub formula: Formula, pub room: usize }

/// Records that no formula was drawn for, and any room.
pub fn scattered_input(random: &mut Random, shorthands: bool) -> Input {
    let atoms = random.below(4) as u64;
    let formula = Formula { records: scattered_records(random, shorthands), atoms, shorthands };
    Input { formula, room: random.below(200) }
}

/// Leaves room for what comes of a formula, where the records are one, but for an element or for more; `each` is how
/// many elements one record or rule has.
pub fn take_room(random: &mut Random, input: &mut Input, each: usize, needed: impl Fn(&Formula) -> usize) {
    let room = if is_formula(&input.formula) { needed(&input.formula) } else { input.room };
    input.room = room.saturating_sub(random.pick(&[1, 1, 1, 2, each - 1, each, each + 1, 2 * each]));
}
