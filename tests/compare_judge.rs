//! pasturequill_judge against a judge that was written apart from it, over random inputs, accepted and refused.
//!
//! The judge follows the specification sentence by sentence: what a literal is worth, where a rule is looked at, when
//! it holds, which rule is the first that fails, and what is refused. Every input is drawn from a fixed seed. Compared
//! are all four numbers of the answer, and that nothing in or around the rules and cells was written to.

mod shared;

use shared::*;

/// What is handed to the library.
#[derive(Debug)]
struct Input { rules: Vec<u16>, width: u64, instants: u64, cells: Vec<u8> }

impl Input {
    /// The whole rules among the words.
    fn whole_rules(&self) -> impl Iterator<Item = &[u16]> { self.rules.chunks_exact(RULE_SIZE) }
    fn count(&self) -> usize { self.rules.len() / RULE_SIZE }
}

// ---- rules over a filled trace (Specification, Translation and Judging)

/// The first instant at which a rule fails, if it does at all.
fn failing(width: usize, instants: usize, cells: &[u8], rule: &[u16]) -> Option<usize> {
    instants_of(rule[0], instants).find(|&k| !holds_at(width, cells, rule, k))
}

/// The first rule that fails, and its first failing instant.
fn first_failure(input: &Input) -> Option<(usize, usize)> {
    input.whole_rules().enumerate().find_map(|(i, rule)| {
        failing(input.width as usize, input.instants as usize, &input.cells, rule).map(|k| (i, k))
    })
}

// ---- what is refused (Specification, Refusals)

/// Why an input is refused.
#[derive(Clone, Copy, PartialEq, Debug)]
enum Cause { Width, Instants, CellCount, NotSixes, TooManyRules, Place, Symbol, Previous, CellOver2 }

impl Cause {
    fn refusal(self) -> Refusal {
        match self {
            Cause::Width | Cause::Instants | Cause::CellCount => WrongSize,
            Cause::CellOver2 => WrongCell,
            _ => WrongRules,
        }
    }
}

/// The literals of a rule that speak of the previous instant where they may not.
fn misplaced(rule: &[u16]) -> impl Iterator<Item = Literal> + '_ {
    literals(rule).filter(|found| found.previous && rule[0] != AT_LATER)
}

/// Every cause that there is, whatever the others are.
fn causes(input: &Input) -> Vec<Cause> {
    let (width, instants) = (input.width as u128, input.instants as u128);
    let past = |rule: &[u16]| literals(rule).any(|found| found.symbol as u128 >= SYMBOL_COLUMN as u128 + width);
    let found = [
        (Cause::Width, width > MOST_COLUMNS as u128),
        (Cause::Instants, instants < 1 || instants > MOST_INSTANTS as u128),
        (Cause::CellCount, input.cells.len() as u128 != width * instants),
        (Cause::NotSixes, input.rules.len() % RULE_SIZE != 0),
        (Cause::TooManyRules, input.rules.len() > MOST_RULE_WORDS),
        (Cause::Place, input.whole_rules().any(|rule| rule[0] > AT_LAST)),
        (Cause::Symbol, input.whole_rules().any(past)),
        (Cause::Previous, input.whole_rules().any(|rule| misplaced(rule).next().is_some())),
        (Cause::CellOver2, input.cells.iter().any(|&cell| cell > 2)),
    ];
    found.iter().filter(|(_, there)| *there).map(|&(cause, _)| cause).collect()
}

/// An input, every cause to refuse it, and what must come back: the refusal, whether all rules hold, the first rule
/// that fails, and its first failing instant.
#[derive(Debug)]
struct Tried { input: Input, causes: Vec<Cause>, answer: [u64; 4] }

/// Sizes, then rules, then cells; else yes, or the first failure.
fn tried(input: Input) -> Tried {
    let causes = causes(&input);
    let order = [WrongSize, WrongRules, WrongCell];
    let refused = order.into_iter().find(|&refusal| causes.iter().any(|cause| cause.refusal() == refusal));
    let answer = match refused {
        Some(refusal) => [refusal as u64, 0, 0, 0],
        None => first_failure(&input).map_or([0, 1, 0, 0], |(i, k)| [0, 0, i as u64, k as u64]),
    };
    Tried { input, causes, answer }
}

// ---- random rules

/// A rule without literals, which fails: its body is true and its head false.
fn unused(place: u16) -> [u16; RULE_SIZE] {
    [place, SYMBOL_TRUE, SYMBOL_TRUE, SYMBOL_FALSE, SYMBOL_FALSE, SYMBOL_FALSE]
}

/// What rules are drawn over.
struct Drawn<'a> { random: &'a mut Random, width: usize, instants: usize, cells: Vec<u8> }

impl Drawn<'_> {
    fn word(&mut self, place: u16) -> u16 {
        let symbol = if self.width == 0 || self.random.percent(15) {
            self.random.pick(&[SYMBOL_FALSE, SYMBOL_TRUE])
        } else {
            SYMBOL_COLUMN + self.random.below(self.width) as u16
        };
        let previous = if place == AT_LATER && self.random.percent(40) { MARK_PREVIOUS } else { 0 };
        let negated = if self.random.percent(30) { MARK_NOT } else { 0 };
        symbol + previous + negated
    }

    /// Some words of a body and a head, the others unused; now and then a rule that leaves none unused.
    fn rule(&mut self) -> [u16; RULE_SIZE] {
        let place = self.random.pick(&[AT_EVERY, AT_EVERY, AT_FIRST, AT_LATER, AT_LATER, AT_LAST]);
        let (mut body, mut head) = (self.random.between(0, 2), self.random.between(0, 3));
        if self.random.percent(10) {
            (body, head) = (2, 3);
        }
        let mut rule = unused(place);
        for at in (1..1 + body).chain(3..3 + head) {
            rule[at] = self.word(place);
        }
        rule
    }

    fn failing(&self, rule: &[u16]) -> Option<usize> { failing(self.width, self.instants, &self.cells, rule) }

    /// A rule that holds at all its instants: one of a few that were drawn, or one made so that it does.
    fn holding_rule(&mut self) -> [u16; RULE_SIZE] {
        for _ in 0..6 {
            let rule = self.rule();
            if self.failing(&rule).is_none() {
                return rule;
            }
        }
        let mut rule = self.rule();
        let (in_body, in_head) = (self.random.between(1, 2), self.random.between(3, 5));
        match self.random.below(3) {
            0 => rule[in_body] = SYMBOL_FALSE,
            1 => rule[in_head] = SYMBOL_TRUE,
            _ => {
                rule[in_body] = self.word(rule[0]);
                rule[in_head] = rule[in_body];
            }
        }
        rule
    }

    /// A rule that fails: of a few that do, any one or the one that fails latest.
    fn failing_rule(&mut self) -> [u16; RULE_SIZE] {
        let latest = self.random.percent(50);
        let mut found = unused(self.random.pick(&[AT_EVERY, AT_FIRST, AT_LAST]));
        let mut instant = None;
        for _ in 0..20 {
            let rule = self.rule();
            let k = self.failing(&rule);
            if k.is_some() && (instant.is_none() || (latest && k > instant)) {
                (found, instant) = (rule, k);
            }
        }
        found
    }

    /// A number of rules: any ones, all holding, or all holding up to one that fails, with any ones after it.
    fn rules(&mut self, n: usize) -> Vec<u16> {
        let hold = match self.random.below(10) {
            0 => 0,
            1..=4 => n,
            5 | 6 if n > 0 => n - 1,
            _ => self.random.below(n + 1),
        };
        let mut rules: Vec<u16> = (0..hold).flat_map(|_| self.holding_rule()).collect();
        if hold < n && self.random.percent(90) {
            rules.extend(self.failing_rule());
        }
        while rules.len() < RULE_SIZE * n {
            rules.extend(self.rule());
        }
        rules
    }
}

fn random_count(random: &mut Random) -> usize {
    match random.below(1000) {
        0..=39 => 0,
        40..=649 => random.between(1, 8),
        650..=929 => random.between(9, 60),
        930..=969 => random.between(61, 400),
        970..=984 => random.between(401, MOST_RULES - 1),
        _ => MOST_RULES,
    }
}

/// An input that is accepted.
fn accepted_input(random: &mut Random) -> Input {
    let width = match random.below(20) {
        0 => 0,
        1 => MOST_COLUMNS,
        2 => MOST_COLUMNS - 1,
        3..=6 => random.between(0, MOST_COLUMNS),
        _ => random.between(1, 12),
    };
    let instants = random_instants(random);
    let n = random_count(random);
    let cells = random_cells(random, width, instants);
    let mut drawn = Drawn { random, width, instants, cells };
    let rules = drawn.rules(n);
    Input { rules, width: width as u64, instants: instants as u64, cells: drawn.cells }
}

// ---- damage

/// Some word of the body or head of one of so many rules.
fn some_literal(random: &mut Random, rules: usize) -> usize {
    RULE_SIZE * random.below(rules) + random.between(1, RULE_SIZE - 1)
}

/// As many cells as width and instants ask for, most of the time, where that is few enough.
fn fit_cells_mostly(random: &mut Random, input: &mut Input) {
    let fitted = random.percent(80);
    if fitted && input.width <= 1000 && input.instants <= 64 {
        input.cells.resize((input.width * input.instants) as usize, 1);
    } else if fitted && (input.width == 0 || input.instants == 0) {
        input.cells.clear();
    }
}

/// One kind of harm, which may or may not make the input wrong: what must come of it is for `tried` to say.
fn damage(random: &mut Random, input: &mut Input) {
    let (n, words) = (input.count(), input.rules.len());
    match random.below(27) {
        // the number of words
        0 => input.rules.truncate(words.saturating_sub(random.between(1, RULE_SIZE - 1))),
        1 => (0..random.between(1, RULE_SIZE - 1)).for_each(|_| input.rules.push(0)),
        2 => {
            let upto = random.pick(&[MOST_RULES, MOST_RULES + 1, MOST_RULES + 1, MOST_RULES + 2, 1100, 3000]);
            let last = input.whole_rules().last().map_or(vec![0; RULE_SIZE], |rule| rule.to_vec());
            while input.count() < upto {
                input.rules.extend(&last);
            }
        }
        harm @ 3..=15 if words > 0 => damage_word(random, &mut input.rules, input.width, harm),
        // a body that is true and a head that is false
        16 if n > 0 => {
            let at = RULE_SIZE * random.below(n);
            let place = input.rules[at];
            input.rules[at..at + RULE_SIZE].copy_from_slice(&unused(place));
        }
        // sizes, with as many cells as they ask for or not
        17 => {
            let far = [1 << 32, (1 << 32) + input.width, 1 << 63, u64::MAX, u64::MAX - 1];
            input.width = random.pick(&[&[288, 288, 289, 300, 1000, 65_535], &far[..]].concat());
            fit_cells_mostly(random, input);
        }
        18 => {
            let far = [1 << 32, (1 << 32) + input.instants, 1 << 63, u64::MAX];
            input.instants = random.pick(&[&[0, 0, 33, 33, 34, 64, 256], &far[..]].concat());
            fit_cells_mostly(random, input);
        }
        19 => {
            (input.width, input.instants) = random.pick(&[&NO_CELLS[..], &[(288, 0)]].concat());
            input.cells.clear();
        }
        // cells, wrong or others
        harm @ 20..=24 => damage_cells(random, &mut input.cells, input.width, harm - 20),
        25 | 26 if !input.cells.is_empty() => {
            change(random.below(input.cells.len()), &mut input.cells, |_| random.below(3) as u8)
        }
        _ => {}
    }
}

/// One of thirteen kinds of harm to a word, and to a rule's only where there is a whole one.
fn damage_word(random: &mut Random, words: &mut [u16], width: u64, harm: usize) {
    let n = words.len() / RULE_SIZE;
    match harm {
        // any word
        3 | 4 => change(random.below(words.len()), words, |word| word ^ 1 << random.below(16)),
        5 => change(random.below(words.len()), words, |_| random.next() as u16),
        _ if n == 0 => {}
        // the place, wrong or another one
        6 | 7 => change(RULE_SIZE * random.below(n), words, |old| {
            random.pick(&[4, 5, 7, 255, 256, 256 | old, MARK_PREVIOUS | old, MARK_NOT | old, u16::MAX])
        }),
        8 => change(RULE_SIZE * random.below(n), words, |_| random.below(AT_LAST as usize + 1) as u16),
        // the symbol: the first that is past the last column, and others
        9 | 10 => change(some_literal(random, n), words, |old| {
            let past = SYMBOL_COLUMN + (width % 10_000) as u16;
            let marks = old - literal(old).symbol;
            marks + random.pick(&[past, past, past + 1, 289, 290, 512, MARK_PREVIOUS - 1])
        }),
        // the marks
        11 => change(some_literal(random, n), words, |word| word ^ MARK_NOT),
        12 | 13 => change(some_literal(random, n), words, |word| word | MARK_PREVIOUS),
        _ => change(some_literal(random, n), words, |_| {
            let [no, yes] = [SYMBOL_FALSE + MARK_PREVIOUS, SYMBOL_TRUE + MARK_PREVIOUS];
            random.pick(&[no, yes, MARK_NOT + no, MARK_NOT + yes, MARK_NOT + no, MARK_NOT + yes])
        }),
    }
}

/// Words that no rule was drawn for: any ones, or small numbers with marks.
fn scattered_input(random: &mut Random) -> Input {
    let mut input = accepted_input(random);
    let words = if random.percent(80) { RULE_SIZE * random.between(1, 3) } else { random.between(1, 20) };
    let any = random.percent(30);
    let symbols = SYMBOL_COLUMN as usize + input.width as usize + random.below(2);
    input.rules = (0..words)
        .map(|at| match at % RULE_SIZE {
            _ if any => random.next() as u16,
            0 => random.below(AT_LAST as usize + 2) as u16,
            _ => {
                let symbol = random.below(symbols) as u16;
                symbol + random.pick(&[0, 0, 0, MARK_NOT, MARK_PREVIOUS, MARK_NOT + MARK_PREVIOUS])
            }
        })
        .collect();
    input
}

fn random_input(random: &mut Random) -> Input {
    if random.percent(5) {
        return scattered_input(random);
    }
    let input = accepted_input(random);
    damaged(random, input, damage)
}

// ---- the call

/// Calls the library on an input and says what is wrong with the outcome, if anything is.
fn difference(Tried { input, answer, .. }: &Tried, library: &mut Library) -> Option<String> {
    let lent = [Lent::to_read("rules", &as_bytes(&input.rules)), Lent::to_read("cells", &input.cells)];
    library.difference(Service::Judge, [input.width, input.instants], &lent, answer)
}

// ---- the run

impl Tried {
    fn caused(&self, refusal: Refusal) -> bool { self.causes.iter().any(|cause| cause.refusal() == refusal) }
    fn judged(&self) -> bool { self.causes.is_empty() }
    /// A yes to a given number of rules.
    fn yes(&self, rules: impl Fn(usize) -> bool) -> bool { self.answer[1] == 1 && rules(self.input.count()) }
    /// A no at a rule and an instant that are such.
    fn no(&self, at: impl Fn(usize, usize) -> bool) -> bool {
        matches!(self.answer, [0, 0, i, k] if at(i as usize, k as usize))
    }
    fn no_by(&self, place: u16) -> bool { self.no(|i, _| self.input.rules[RULE_SIZE * i] == place) }
}

const REFUSED: [Case<Tried>; 13] = [
    ("wrong size by the width alone", |t| t.causes == [Cause::Width]),
    ("wrong size by the instants alone", |t| t.causes == [Cause::Instants]),
    ("wrong size by the number of cells alone", |t| t.causes == [Cause::CellCount]),
    ("wrong rules by words that are no sixes alone", |t| t.causes == [Cause::NotSixes]),
    ("wrong rules by too many alone", |t| t.causes == [Cause::TooManyRules]),
    ("wrong rules by a place alone", |t| t.causes == [Cause::Place]),
    ("wrong rules by a symbol alone", |t| t.causes == [Cause::Symbol]),
    ("wrong rules by previous alone", |t| t.causes == [Cause::Previous]),
    ("wrong rules by previous on constants alone", |t| {
        let mut found = t.input.whole_rules().flat_map(misplaced);
        t.causes == [Cause::Previous] && found.all(|literal| literal.symbol < SYMBOL_COLUMN)
    }),
    ("wrong cell alone", |t| t.causes == [Cause::CellOver2]),
    ("wrong size before wrong rules", |t| t.caused(WrongSize) && t.caused(WrongRules)),
    ("wrong size before wrong cell", |t| t.caused(WrongSize) && t.caused(WrongCell)),
    ("wrong rules before wrong cell", |t| !t.caused(WrongSize) && t.caused(WrongRules) && t.caused(WrongCell)),
];

const JUDGED: [Case<Tried>; 20] = [
    ("yes", |t| t.yes(|_| true)),
    ("yes to no rules", |t| t.yes(|n| n == 0)),
    ("yes to 100 rules or more", |t| t.yes(|n| n >= 100)),
    ("no at rule 0, instant 0", |t| t.no(|i, k| i == 0 && k == 0)),
    ("no at rule 0, a later instant", |t| t.no(|i, k| i == 0 && k > 0)),
    ("no at a later rule, instant 0", |t| t.no(|i, k| i > 0 && k == 0)),
    ("no at a later rule, a later instant", |t| t.no(|i, k| i > 0 && k > 0)),
    ("no at the last of several rules", |t| t.no(|i, _| i > 0 && i + 1 == t.input.count())),
    ("no at the last of several instants", |t| t.no(|_, k| k > 0 && k as u64 + 1 == t.input.instants)),
    ("no after 100 rules or more", |t| t.no(|i, _| i >= 100)),
    ("no by a rule for every instant", |t| t.no_by(AT_EVERY)),
    ("no by one for the first", |t| t.no_by(AT_FIRST)),
    ("no by one for the later ones", |t| t.no_by(AT_LATER)),
    ("no by one for the last", |t| t.no_by(AT_LAST)),
    ("a constant with both marks", |t| {
        let marked = |found: Literal| found.symbol < SYMBOL_COLUMN && found.previous && found.negated;
        t.judged() && t.input.whole_rules().flat_map(literals).any(marked)
    }),
    ("no columns", |t| t.judged() && t.input.width == 0),
    ("287 columns", |t| t.judged() && t.input.width == MOST_COLUMNS as u64),
    ("1 instant", |t| t.judged() && t.input.instants == 1),
    ("32 instants", |t| t.judged() && t.input.instants == MOST_INSTANTS as u64),
    ("1,021 rules", |t| t.judged() && t.input.count() == MOST_RULES),
];

fn main() {
    let drawn = |random: &mut Random, _| tried(random_input(random));
    let mut comparison = Comparison::of("compare the judge", 60_000, drawn, |tried, _, library, seen| {
        seen.add_cases(&REFUSED, tried);
        seen.add_cases(&JUDGED, tried);
        if tried.judged() {
            seen.add(format!("width {}", tried.input.width));
        }
        difference(tried, library)
    });
    comparison.tell(100, names(&REFUSED));
    comparison.tell(100, names(&JUDGED));
    comparison.require(1, (0..=MOST_COLUMNS).map(|width| format!("width {width}")));
    comparison.end("compare with the judge in Rust");
}
