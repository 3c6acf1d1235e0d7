// Random questions of up to five tables, and their lines.
use crate::numbers::Numbers;
use crate::question::{Question, Test, Tie};

const FULL: u64 = 16_777_215;
const MOST: u64 = 65_535;

#[derive(Clone, Copy)]
enum Shape {
    None,
    Chain,
    Star,
    Cycle,
    Clique,
    Tree,
    Random,
}

const SHAPES: [Shape; 13] = [
    Shape::None,
    Shape::Chain,
    Shape::Chain,
    Shape::Star,
    Shape::Star,
    Shape::Cycle,
    Shape::Cycle,
    Shape::Clique,
    Shape::Clique,
    Shape::Tree,
    Shape::Tree,
    Shape::Random,
    Shape::Random,
];

// What numbers a question favours.
#[derive(Clone, Copy)]
enum Taste {
    Tiny,
    Middle,
    Large,
    Full,
    Mixed,
}

const TASTES: [Taste; 9] = [
    Taste::Tiny,
    Taste::Tiny,
    Taste::Middle,
    Taste::Middle,
    Taste::Large,
    Taste::Large,
    Taste::Full,
    Taste::Mixed,
    Taste::Mixed,
];

fn rows(numbers: &mut Numbers, taste: Taste) -> u32 {
    let found = match taste {
        Taste::Tiny => numbers.below(13),
        Taste::Middle => numbers.from_to(1, 5_000),
        Taste::Large => numbers.from_to(100_000, FULL),
        Taste::Full => FULL,
        Taste::Mixed => {
            let large = numbers.below(FULL + 1);
            let small = numbers.below(200);
            numbers.pick(&[0, 1, 2, small, small, large, large, FULL])
        }
    };
    found as u32
}

fn cost(numbers: &mut Numbers, taste: Taste) -> u16 {
    let found = match taste {
        Taste::Tiny => numbers.below(10),
        Taste::Middle => numbers.below(1_000),
        Taste::Large => numbers.below(MOST + 1),
        Taste::Full => MOST,
        Taste::Mixed => {
            let (any, small) = (numbers.below(MOST + 1), numbers.below(20));
            numbers.pick(&[0, 0, small, small, any, any, MOST])
        }
    };
    found as u16
}

// p and q.
fn selectivity(numbers: &mut Numbers) -> (u16, u16) {
    let any = numbers.from_to(1, MOST);
    let small = numbers.from_to(1, 10);
    let (p, q) = match numbers.below(16) {
        0 => (0, 1),
        1 => (0, any),
        2 | 3 => (1, 1),
        4 => (any, any),
        5..=7 => (1, small),
        8 => (small - 1, small),
        9 => (1, any),
        10 => (1, MOST),
        11 => (MOST - 1, MOST),
        12 => (any, MOST),
        13 => (small, MOST),
        _ => (numbers.below(any + 1), any),
    };
    (p as u16, q as u16)
}

// Whether a shape ties two places, the lower first.
fn tied(numbers: &mut Numbers, shape: Shape, low: usize, high: usize, count: usize) -> bool {
    match shape {
        Shape::None | Shape::Tree => false,
        Shape::Chain => high == low + 1,
        Shape::Star => low == 0,
        Shape::Cycle => high == low + 1 || (low == 0 && high == count - 1),
        Shape::Clique => true,
        Shape::Random => numbers.one_in(2),
    }
}

// The pairs of tables that are tied, either one first.
fn pairs(numbers: &mut Numbers, shape: Shape, count: usize) -> Vec<(usize, usize)> {
    let mut order: Vec<usize> = (0..count).collect();
    numbers.shuffle(&mut order);
    let mut found = vec![];
    for high in 1..count {
        for low in 0..high {
            if tied(numbers, shape, low, high, count) {
                found.push((order[low], order[high]));
            }
        }
        if let Shape::Tree = shape {
            found.push((order[numbers.below(high as u64) as usize], order[high]));
        }
    }
    for pair in &mut found {
        if numbers.one_in(2) {
            *pair = (pair.1, pair.0);
        }
    }
    numbers.shuffle(&mut found);
    found
}

fn add_ties(numbers: &mut Numbers, question: &mut Question, taste: Taste) {
    let shape = numbers.pick(&SHAPES);
    let full = matches!(taste, Taste::Full) && numbers.one_in(2);
    for (table, other) in pairs(numbers, shape, question.rows.len()) {
        let (p, q) = if full { (1, 1) } else { selectivity(numbers) };
        question.ties.push(Tie {
            table,
            other,
            p,
            q,
            cost: cost(numbers, taste),
        });
    }
}

fn add_tests(numbers: &mut Numbers, question: &mut Question, taste: Taste) {
    let mut tables: Vec<usize> = (0..question.rows.len()).collect();
    numbers.shuffle(&mut tables);
    tables.truncate(numbers.below(tables.len() as u64 + 1) as usize);
    for table in tables {
        let (p, q) = selectivity(numbers);
        question.tests.push(Test {
            table,
            p,
            q,
            cost: cost(numbers, taste),
            kind: numbers.below(2) as u16,
        });
    }
}

// A question of up to so many tables.
pub fn question(numbers: &mut Numbers, most: usize) -> Question {
    if most >= 4 && numbers.one_in(40) {
        return near_the_limit(numbers);
    }
    let count = match numbers.below(100) {
        0 => 0,
        1..=4 => 1,
        5..=19 => 2,
        20..=44 => 3,
        45..=72 => 4,
        _ => 5,
    };
    let mut question = Question::default();
    let taste = numbers.pick(&TASTES);
    for _ in 0..count.min(most) {
        question.rows.push(rows(numbers, taste));
    }
    let taste = numbers.pick(&TASTES);
    add_ties(numbers, &mut question, taste);
    let taste = numbers.pick(&TASTES);
    add_tests(numbers, &mut question, taste);
    question
}

// Three tables in a chain whose least price under Clock is the limit itself, with the tests' costs as they stand here.
pub fn at_the_limit() -> Question {
    let full = FULL as u32;
    let tie = |table, other| Tie {
        table,
        other,
        p: 1,
        q: 1,
        cost: 65_535,
    };
    let test = |table, cost| Test {
        table,
        p: 1,
        q: 1,
        cost,
        kind: 1,
    };
    Question {
        rows: vec![full, 257, full],
        ties: vec![tie(0, 1), tie(1, 2)],
        tests: vec![test(0, 65_535), test(1, 254), test(2, 253)],
    }
}

// The same with small changes, so that prices lie on both sides of the limit.
fn near_the_limit(numbers: &mut Numbers) -> Question {
    let mut question = at_the_limit();
    let change = |numbers: &mut Numbers, cost: u16| {
        let moved = cost as i64 + numbers.below(7) as i64 - 3;
        moved.clamp(0, MOST as i64) as u16
    };
    question.tests[1].cost = change(numbers, 254);
    question.tests[2].cost = change(numbers, 253);
    if numbers.one_in(3) {
        question.rows[1] = numbers.from_to(255, 259) as u32;
    }
    if numbers.one_in(3) {
        question.ties[0].cost = change(numbers, 65_535);
    }
    if numbers.one_in(2) {
        question.rows.push(numbers.below(12) as u32);
        question.ties.push(Tie {
            table: numbers.below(3) as usize,
            other: 3,
            p: 1,
            q: numbers.from_to(1, 2) as u16,
            cost: numbers.below(2) as u16,
        });
    }
    question
}

// A question of six to eleven tables, with small numbers; the eleventh may have too many rows besides.
pub fn wide(numbers: &mut Numbers) -> Question {
    let count = numbers.from_to(6, 11) as usize;
    let mut question = Question::default();
    for _ in 0..count {
        question.rows.push(numbers.from_to(1, 500) as u32);
    }
    if count == 11 && numbers.one_in(2) {
        question.rows[10] += 1 << 24;
    }
    add_ties(numbers, &mut question, Taste::Tiny);
    add_tests(numbers, &mut question, Taste::Middle);
    if numbers.one_in(2) {
        question.tests.truncate(3);
    }
    question
}

pub fn table_line(rows: u32) -> String {
    format!("01{rows:08X}")
}

pub fn tie_line(tie: &Tie) -> String {
    let Tie {
        table,
        other,
        p,
        q,
        cost,
    } = tie;
    format!("02{table:02X}{other:02X}{p:04X}{q:04X}{cost:04X}")
}

pub fn test_line(test: &Test) -> String {
    let Test {
        table,
        p,
        q,
        cost,
        kind,
    } = test;
    format!("03{table:02X}{p:04X}{q:04X}{cost:04X}{kind:02X}")
}

// A correction with any text.
pub fn correction_line(table: usize, text: &[u8]) -> String {
    let spelled: String = text.iter().map(|byte| format!("{byte:02X}")).collect();
    format!("04{table:02X}{spelled}")
}

// The text of so many thousandths.
pub fn reading(number: i64) -> String {
    let minus = if number < 0 { "-" } else { "" };
    let size = number.abs();
    format!("{minus}{}.{:03}", size / 1000, size % 1000)
}

// The question's lines, the end included.
pub fn lines(question: &Question) -> Vec<String> {
    let mut lines: Vec<String> = question.rows.iter().map(|&rows| table_line(rows)).collect();
    lines.extend(question.ties.iter().map(tie_line));
    lines.extend(question.tests.iter().map(test_line));
    lines.push("05".into());
    lines
}

// Lines with ties, tests and corrections in any order; each correction stands after its test.
pub fn mixed_lines(numbers: &mut Numbers, question: &Question) -> Vec<String> {
    let mut lines: Vec<String> = question.ties.iter().map(tie_line).collect();
    for test in &question.tests {
        let from = numbers.below(lines.len() as u64 + 1) as usize;
        lines.insert(from, test_line(test));
        add_corrections(numbers, &mut lines, test, from + 1);
    }
    let tables = question.rows.iter().map(|&rows| table_line(rows));
    tables.chain(lines).chain(["05".into()]).collect()
}

// None to three corrections of a test, in their order, that keep its cost within the range.
fn add_corrections(numbers: &mut Numbers, lines: &mut Vec<String>, test: &Test, mut from: usize) {
    let mut cost = test.cost as i64;
    for _ in 0..numbers.pick(&[0, 0, 1, 2, 3]) {
        let any = numbers.below(MOST + 1) as i64;
        let aim = numbers.pick(&[0, any, any, MOST as i64, cost, (cost + 1).min(MOST as i64)]);
        from = numbers.from_to(from as u64, lines.len() as u64) as usize;
        lines.insert(
            from,
            correction_line(test.table, reading(aim - cost).as_bytes()),
        );
        (cost, from) = (aim, from + 1);
    }
}

// The lines as the bytes of an input.
pub fn input(lines: &[String]) -> Vec<u8> {
    lines
        .iter()
        .flat_map(|line| format!("{line}\n").into_bytes())
        .collect()
}
