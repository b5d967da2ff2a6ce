//! Random formulas, in any legal order of records.

use super::*;

/// How a formula grows: how often a path is a test, choice, sequence and star, how often a modality is a box and a move
/// goes back, and how sizes are split.
#[derive(Clone, Copy)]
struct Habit { paths: [usize; 4], boxes: usize, backs: usize, split: Split }

#[derive(Clone, Copy)]
enum Split { Anywhere, Halves, First, Second }

const fn habit(paths: [usize; 4], boxes: usize, backs: usize, split: Split) -> Habit {
    Habit { paths, boxes, backs, split }
}

const HABITS: [Habit; 12] = [
    habit([3, 3, 3, 3], 50, 50, Split::Anywhere),  // a bit of everything
    habit([2, 2, 4, 2], 30, 20, Split::Halves),    // bushy
    habit([2, 2, 2, 2], 50, 30, Split::First), // all grows in field a: deep chains of paths and of tests inside tests
    habit([2, 2, 2, 2], 50, 30, Split::Second), // all grows in field b: deep chains of modalities
    habit([1, 0, 0, 20], 40, 40, Split::First), // stars of stars of stars
    habit([12, 1, 1, 2], 50, 30, Split::Anywhere), // tests inside tests
    habit([1, 6, 1, 6], 40, 50, Split::Anywhere), // stars that turn round
    habit([8, 3, 0, 8], 40, 50, Split::Anywhere), // stars that stand still
    habit([4, 1, 8, 1], 50, 10, Split::Anywhere), // long sequences with tests on the way
    habit([2, 8, 3, 0], 60, 50, Split::Halves), // boxes over wide choices, no star
    habit([4, 1, 6, 4], 20, 0, Split::Second), // forward only, like until
    habit([4, 1, 6, 4], 20, 100, Split::First), // backward only, like since
];

/// What a path's place in a star asks of it: to go one way only, and to move, that is not to stand still.
#[derive(Clone, Copy)]
struct Way { only: Option<u8>, moves: bool }

/// A record that has no number yet; its children are other nodes.
struct Node { kind: u8, atom: u8, children: Vec<usize> }

/// A tame one grows only stars that translation takes. Of a hundred formulas `shorthands` are shorthands.
struct Grower<'a> {
    random: &'a mut Random,
    habit: Habit,
    tame: bool,
    shorthands: usize,
    atoms: usize,
    nodes: Vec<Node>,
}

impl Grower<'_> {
    fn add(&mut self, kind: u8, atom: u8, children: Vec<usize>) -> usize {
        self.nodes.push(Node { kind, atom, children });
        self.nodes.len() - 1
    }

    /// Two sizes that make up the whole, neither of them 0.
    fn parts(&mut self, whole: usize) -> (usize, usize) {
        let first = match self.habit.split {
            Split::Anywhere => self.random.between(1, whole - 1),
            Split::Halves => whole / 2,
            Split::First => whole - self.random.between(1, (whole - 1).min(3)),
            Split::Second => self.random.between(1, (whole - 1).min(3)),
        };
        (first, whole - first)
    }

    /// A formula of a given number of records; without shorthands there is none of two.
    fn formula(&mut self, size: usize) -> usize {
        if self.shorthands > 0 && (size == 2 || self.random.percent(self.shorthands)) {
            return self.shorthand(size);
        }
        if size == 1 {
            if self.atoms > 0 && self.random.percent(85) {
                let atom = self.random.below(self.atoms) as u8;
                return self.add(ATOM, atom, vec![]);
            }
            let kind = self.random.pick(&[FALSE, TRUE]);
            return self.add(kind, 0, vec![]);
        }
        let (first, second) = match self.parts(size - 1) {
            (first, 2) if self.shorthands == 0 => (first + 1, 1),
            sizes => sizes,
        };
        let kind = if self.random.percent(self.habit.boxes) { BOX } else { DIAMOND };
        let path = self.path(first, Way { only: None, moves: false });
        let end = self.formula(second);
        self.add(kind, 0, vec![path, end])
    }

    /// A formula of a given number of records, the last of them a shorthand.
    fn shorthand(&mut self, size: usize) -> usize {
        if size == 1 {
            let kind = self.random.pick(SHORTHANDS[0]);
            return self.add(kind, 0, vec![]);
        }
        if size == 2 || self.random.percent(50) {
            let kind = self.random.pick(SHORTHANDS[1]);
            let argument = self.formula(size - 1);
            return self.add(kind, 0, vec![argument]);
        }
        let kind = self.random.pick(SHORTHANDS[2]);
        let (first, second) = self.parts(size - 1);
        let (f, g) = (self.formula(first), self.formula(second));
        self.add(kind, 0, vec![f, g])
    }

    /// A path of a given number of records. One that must move is not of two: such a path is a test or a star.
    fn path(&mut self, size: usize, way: Way) -> usize {
        if size == 1 {
            let kind = self.move_within(way);
            return self.add(kind, 0, vec![]);
        }
        let [test, choice, sequence, star] = self.habit.paths;
        let test = if (size == 3 && self.shorthands == 0) || way.moves { 0 } else { test };
        let choice = if size == 2 || (way.moves && size == 4) { 0 } else { choice };
        let mut sequence = if size == 2 { 0 } else { sequence };
        let mut star = if (self.tame && size == 3) || way.moves { 0 } else { star };
        // Where a habit leaves nothing, a path of two records is a star, a longer one a sequence.
        if test + choice + sequence + star == 0 {
            (star, sequence) = if size == 2 { (1, 0) } else { (0, 1) };
        }
        let drawn = self.random.below(test + choice + sequence + star);
        if drawn < test {
            let tested = self.formula(size - 1);
            self.add(TEST, 0, vec![tested])
        } else if drawn < test + star {
            let pass = if self.tame { Way { only: Some(self.move_within(way)), moves: true } } else { way };
            let body = self.path(size - 1, pass);
            self.add(STAR, 0, vec![body])
        } else {
            let kind = if drawn < test + star + choice { CHOICE } else { SEQUENCE };
            let (first, second) = match (self.parts(size - 1), kind) {
                (sizes, _) if !way.moves => sizes,
                // Both arms move.
                ((2, second), CHOICE) => (1, second + 1),
                ((first, 2), CHOICE) => (first + 1, 1),
                // One of the parts moves, the other is free.
                ((2, 2), _) => (1, 3),
                (sizes, _) => sizes,
            };
            let one_free = way.moves && kind == SEQUENCE;
            let first_free = one_free && second != 2 && (first == 2 || self.random.percent(50));
            let within = |free: bool| Way { moves: way.moves && !free, ..way };
            let (p, q) = (self.path(first, within(first_free)), self.path(second, within(one_free && !first_free)));
            self.add(kind, 0, vec![p, q])
        }
    }

    fn move_within(&mut self, way: Way) -> u8 {
        let drawn = if self.random.percent(self.habit.backs) { BACK } else { STEP };
        way.only.unwrap_or(drawn)
    }
}

/// The nodes as records in a random legal order. Places are given out from the last: the root's first, then that of a
/// node whose parent has its place. The newest such node gives postorder, the oldest level after level, any one any.
fn laid_out(random: &mut Random, nodes: &[Node], root: usize) -> Vec<u8> {
    let order = random.below(4);
    let mut place = vec![0; nodes.len()];
    let mut open = vec![root];
    for r in (0..nodes.len()).rev() {
        let taken = match order {
            0 => open.len() - 1,
            1 => 0,
            _ => random.below(open.len()),
        };
        let node = open.remove(taken);
        place[node] = r;
        open.extend(&nodes[node].children);
    }
    let mut records = vec![[0; RECORD_SIZE]; nodes.len()];
    for (i, node) in nodes.iter().enumerate() {
        let child = |c: usize| node.children.get(c).map_or(0, |&child| place[child]);
        let a = if node.kind == ATOM { node.atom as usize } else { child(0) };
        records[place[i]] = record(node.kind, a, child(1));
    }
    records.concat()
}

/// A formula of a given number of records, over any number of atoms.
pub fn random_formula(random: &mut Random, size: usize, tame: bool, shorthands: usize) -> Formula {
    let atoms = match random.below(10) {
        0 => 0,
        1 => MOST_ATOMS,
        2 | 3 => random.between(1, MOST_ATOMS),
        _ => random.between(1, 4),
    };
    formula_over(random, size, tame, shorthands, atoms)
}

/// A formula of `records` records, over `atoms` atoms.
pub fn formula_over(random: &mut Random, size: usize, tame: bool, shorthands: usize, atoms: usize) -> Formula {
    let habit = random.pick(&HABITS);
    let mut grower = Grower { random: &mut *random, habit, tame, shorthands, atoms, nodes: vec![] };
    let root = grower.formula(size);
    let nodes = grower.nodes;
    Formula { records: laid_out(random, &nodes, root), atoms: atoms as u64, shorthands: shorthands > 0 }
}

/// A number of records that a formula can have: every one but two.
pub fn random_size(random: &mut Random) -> usize {
    let size = match random.below(1000) {
        0..=599 => random.between(1, 12),
        600..=899 => random.between(13, 40),
        900..=969 => random.between(41, 120),
        970..=989 => random.between(121, MOST_RECORDS - 1),
        _ => MOST_RECORDS,
    };
    if size == 2 { 3 } else { size }
}
