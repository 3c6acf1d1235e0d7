// Inputs that are damaged in some way.
use crate::numbers::Numbers;
use crate::question::{Test, Tie};
use crate::random;

const MOST_BYTES: usize = 8192;

const TEXTS: [&str; 24] = [
    "-0.000", "0.000", ".250", "-.250", "00.250", "05.000", "100.000", "0.25", "0.2500", "0.", "1",
    "0,250", "+0.250", "--0.250", " 0.250", "0.250 ", "-00.001", "99.999", "-99.999", "-5.00",
    "12345", "1.2.3", "..000", "-1.000",
];

type Lines = Vec<Vec<u8>>;

fn place(numbers: &mut Numbers, length: usize) -> usize {
    numbers.below(length as u64) as usize
}

// A line with its 0A.
fn ended(line: String) -> Vec<u8> {
    format!("{line}\n").into_bytes()
}

// A random question's lines, damaged once or twice.
pub fn input(numbers: &mut Numbers) -> Vec<u8> {
    match numbers.below(40) {
        0 => return random_bytes(numbers),
        1 => return random_frames(numbers),
        2 => return long(numbers),
        _ => {}
    }
    let question = random::question(numbers, 4);
    let lines = random::mixed_lines(numbers, &question);
    let mut lines: Lines = lines.into_iter().map(ended).collect();
    for _ in 0..numbers.from_to(1, 2) {
        if !lines.is_empty() {
            damage(numbers, &mut lines);
        }
    }
    let mut bytes = lines.concat();
    if numbers.one_in(25) {
        bytes.truncate(place(numbers, bytes.len() + 1));
    }
    bytes
}

fn damage(numbers: &mut Numbers, lines: &mut Lines) {
    let (at, to) = (place(numbers, lines.len()), place(numbers, lines.len()));
    match numbers.below(22) {
        0..=3 => change_digit(numbers, &mut lines[at]),
        4 => change_byte(numbers, &mut lines[at]),
        5 => cut(numbers, &mut lines[at]),
        6 => lines.swap(at, to),
        7 => lines.insert(to, lines[at].clone()),
        8 => drop(lines.remove(at)),
        9 => lower(numbers, lines, at),
        10 => with_return(numbers, lines, at),
        11 => drop(lines.pop()),
        12 => drop(lines.last_mut().and_then(Vec::pop)),
        13 => add_after_end(numbers, lines),
        14 => lines.insert(at, b"\n".to_vec()),
        15 => add_text(numbers, lines),
        16 => lines.insert(at, ended(frame(numbers))),
        17..=20 => add_call(numbers, lines),
        _ => grow(numbers, &mut lines[at]),
    }
}

fn change_digit(numbers: &mut Numbers, line: &mut [u8]) {
    let at = place(numbers, line.len());
    if line[at] != b'\n' {
        line[at] = numbers.pick(b"0123456789ABCDEF");
    }
}

fn change_byte(numbers: &mut Numbers, line: &mut [u8]) {
    let (at, any) = (place(numbers, line.len()), numbers.below(256) as u8);
    line[at] = numbers.pick(&[any, any, b' ', b'g', b'G', b'/', b':', b'@', b'`', b'\r', 0]);
}

// Takes characters off a line's end, sometimes whole pairs.
fn cut(numbers: &mut Numbers, line: &mut Vec<u8>) {
    let mut keep = place(numbers, line.len());
    if numbers.one_in(2) {
        keep &= !1;
    }
    line.truncate(keep);
    line.push(b'\n');
}

fn lower(numbers: &mut Numbers, lines: &mut Lines, at: usize) {
    match numbers.one_in(2) {
        true => lines
            .iter_mut()
            .for_each(|line| line.make_ascii_lowercase()),
        false => lines[at].make_ascii_lowercase(),
    }
}

// 0D before 0A.
fn with_return(numbers: &mut Numbers, lines: &mut Lines, at: usize) {
    let put = |line: &mut Vec<u8>| line.insert(line.len().saturating_sub(1), b'\r');
    match numbers.one_in(2) {
        true => lines.iter_mut().for_each(put),
        false => put(&mut lines[at]),
    }
}

fn add_after_end(numbers: &mut Numbers, lines: &mut Lines) {
    let any = frame(numbers);
    let line = match numbers.below(4) {
        0 => "05".into(),
        1 => random::table_line(7),
        2 => String::new(),
        _ => any,
    };
    lines.push(ended(line));
}

// A correction with a text that may have the wrong form.
fn add_text(numbers: &mut Numbers, lines: &mut Lines) {
    let length = numbers.from_to(4, 8);
    let made: Vec<u8> = (0..length)
        .map(|_| numbers.pick(b"0123456789.-.00"))
        .collect();
    let listed = numbers.pick(&TEXTS).as_bytes().to_vec();
    let text = if numbers.one_in(3) { made } else { listed };
    let table = numbers.below(4) as usize;
    let at = lines.len() - 1 - place(numbers, lines.len().min(4));
    lines.insert(at, ended(random::correction_line(table, &text)));
}

// A call that has often one cause of refusal, or several, shortly before the end.
fn add_call(numbers: &mut Numbers, lines: &mut Lines) {
    let (table, other) = (numbers.below(5) as usize, numbers.below(5) as usize);
    let (p, q) = numbers.pick(&[
        (1, 2),
        (1, 1),
        (0, 1),
        (0, 0),
        (1, 0),
        (2, 1),
        (65_535, 65_534),
    ]);
    let cost = numbers.pick(&[0, 9, 65_535]);
    let kind = numbers.pick(&[0, 1, 1, 2, 255]);
    let tie = Tie {
        table,
        other,
        p,
        q,
        cost,
    };
    let test = Test {
        table,
        p,
        q,
        cost,
        kind,
    };
    let change = numbers.pick(&[0, 1, -1, 65_535, -65_535, 65_536, -65_536, 99_999, -99_999]);
    let text = random::reading(change);
    let line = match numbers.below(8) {
        0..=2 => random::tie_line(&tie),
        3..=5 => random::test_line(&test),
        _ => random::correction_line(table, text.as_bytes()),
    };
    let at = lines.len() - 1 - place(numbers, lines.len().min(2));
    lines.insert(at, ended(line));
}

// A line longer by a character, a pair or two pairs.
fn grow(numbers: &mut Numbers, line: &mut Vec<u8>) {
    let at = place(numbers, line.len());
    for _ in 0..numbers.pick(&[1, 2, 2, 4]) {
        line.insert(at, numbers.pick(b"00010203456789AF"));
    }
}

// A frame of any kind, mostly of the right length, with numbers that are often small.
fn frame(numbers: &mut Numbers) -> String {
    let kind = numbers.below(7);
    let right = [4, 4, 8, 8, numbers.from_to(6, 8), 0, 3][kind as usize];
    let length = if numbers.one_in(6) {
        numbers.below(11)
    } else {
        right
    };
    let mut line = format!("{kind:02X}");
    for _ in 0..length {
        let any = numbers.below(256);
        let byte = numbers.pick(&[0, 0, 0, 1, 1, 2, 3, any]);
        line.push_str(&format!("{byte:02X}"));
    }
    line
}

fn random_frames(numbers: &mut Numbers) -> Vec<u8> {
    let tables = numbers.below(4);
    let mut lines: Vec<String> = (0..tables).map(|_| random::table_line(9)).collect();
    for _ in 0..numbers.below(4) {
        lines.push(frame(numbers));
    }
    lines.push("05".into());
    random::input(&lines)
}

fn random_bytes(numbers: &mut Numbers) -> Vec<u8> {
    let length = numbers.below(200);
    match numbers.one_in(2) {
        true => (0..length).map(|_| numbers.below(256) as u8).collect(),
        false => (0..length)
            .map(|_| numbers.pick(b"0123456789ABCDEF05\n\n"))
            .collect(),
    }
}

// An input of just the most bytes, or of more.
fn long(numbers: &mut Numbers) -> Vec<u8> {
    let first = ["0100000064", "0300000100029C4001"];
    let (up, down) = (
        random::correction_line(0, b"0.001"),
        random::correction_line(0, b"-0.001"),
    );
    let mut lines: Vec<String> = first.map(String::from).into();
    let mut left = MOST_BYTES - random::input(&lines).len() - "05\n".len();
    let (single, pair) = (up.len() + 1, up.len() + down.len() + 2);
    while left % single != 0 {
        lines.extend([up.clone(), down.clone()]);
        left -= pair;
    }
    lines.extend(vec![up; left / single]);
    lines.push("05".into());
    let mut bytes = random::input(&lines);
    match numbers.below(4) {
        0 => {}
        1 => bytes.insert(0, b'0'),
        2 => bytes.push(b'\n'),
        _ => bytes.extend(vec![b'x'; numbers.from_to(1, 9_000) as usize]),
    }
    bytes
}
