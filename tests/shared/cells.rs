//! Random traces, for the comparisons of services over one.

use super::*;

/// Widths and instants that ask for no cells: their product is 0, at least in 64 bits.
pub const NO_CELLS: [(u64, u64); 7] =
    [(1 << 63, 2), (1 << 32, 1 << 32), (2, 1 << 63), (1 << 62, 4), (0, 1 << 63), (0, 33), (0, 0)];

pub fn random_instants(random: &mut Random) -> usize {
    match random.below(10) {
        0 => 1,
        1 | 2 => MOST_INSTANTS,
        3 => MOST_INSTANTS - 1,
        4 | 5 => random.between(2, 6),
        _ => random.between(1, MOST_INSTANTS),
    }
}

/// One of four kinds of harm to the cells of a trace.
pub fn damage_cells(random: &mut Random, cells: &mut Vec<u8>, width: u64, harm: usize) {
    match harm {
        0 => drop(cells.pop()),
        1 => cells.push(random.pick(&[0, 2, 3])),
        2 => cells.extend(vec![1; width.min(300) as usize]),
        _ if cells.is_empty() => {}
        _ => change(random.below(cells.len()), cells, |_| random.pick(&[3, 4, 128, 130, 254, 255])),
    }
}

/// Rows of cells, one row for each instant.
pub fn random_cells(random: &mut Random, columns: usize, instants: usize) -> Vec<u8> {
    const MIXES: [&[u8]; 8] =
        [&[0, 1, 2], &[0, 1, 2], &[0, 0, 0, 1, 2], &[0, 1, 2, 2, 2, 2, 2], &[1, 2], &[0, 2], &[0, 1], &[1, 1, 1, 1, 2]];
    let values = random.pick(&MIXES);
    // Either each cell is drawn by itself, or a column keeps its value for a while.
    let keeps = random.pick(&[0, 0, 60, 90]);
    let mut cells = vec![0; columns * instants];
    for k in 0..instants {
        for i in 0..columns {
            let kept = k > 0 && random.percent(keeps);
            cells[k * columns + i] = if kept { cells[(k - 1) * columns + i] } else { random.pick(values) };
        }
    }
    cells
}
