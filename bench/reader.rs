// What a program makes of its input, up to solve.
use crate::question::{Question, Test, Tie};

const MOST_BYTES: usize = 8192;
const MOST_TABLES: usize = 10;
const MOST_ROWS: u32 = 16_777_215;

// The question and the number of the line that ends it, or the fault line.
pub type Read = Result<(Question, usize), String>;

// A fault line.
pub fn fault(layer: u8, number: u8, line: usize) -> String {
    format!("FF{layer:02X}{number:02X}{line:04X}\n")
}

#[derive(Clone, Copy, PartialEq, Eq)]
enum Turn {
    Tables,
    Predicates,
    Ended,
}

// A frame's numbers; a correction keeps the characters of its reading.
enum Frame<'a> {
    Table(u32),
    Tie(Tie),
    Test(Test),
    Correction(usize, &'a [u8]),
    End,
}

// A refusal with its layer.
struct Refused(u8, u8);

pub fn read(input: &[u8]) -> Read {
    if input.len() > MOST_BYTES {
        return Err(fault(1, 25, 0));
    }
    let (mut question, mut turn) = (Question::default(), Turn::Tables);
    let (mut lines, mut end) = (0, 0);
    for line in input.split_inclusive(|&byte| byte == b'\n') {
        lines += 1;
        judge(line, &mut turn, &mut question)
            .map_err(|Refused(layer, number)| fault(layer, number, lines))?;
        if turn == Turn::Ended {
            end = lines;
        }
    }
    if turn != Turn::Ended {
        return Err(fault(2, 24, lines + 1));
    }
    Ok((question, end))
}

// One line through all its steps.
fn judge(line: &[u8], turn: &mut Turn, question: &mut Question) -> Result<(), Refused> {
    let bytes = bytes_of(line).ok_or(Refused(1, 21))?;
    let frame = frame_of(&bytes).ok_or(Refused(2, 22))?;
    *turn = turn_after(*turn, &frame).ok_or(Refused(2, 23))?;
    let called = match frame {
        Frame::Table(rows) => add_table(question, rows),
        Frame::Tie(tie) => add_tie(question, tie),
        Frame::Test(test) => add_test(question, test),
        Frame::Correction(table, text) => {
            let number = reading(text).ok_or(Refused(2, 20))?;
            correct(question, table, number)
        }
        Frame::End => Ok(()),
    };
    called.map_err(|number| Refused(3, number))
}

fn digit(character: u8) -> Option<u8> {
    match character {
        b'0'..=b'9' => Some(character - b'0'),
        b'A'..=b'F' => Some(character - b'A' + 10),
        _ => None,
    }
}

// The bytes that a line spells.
fn bytes_of(line: &[u8]) -> Option<Vec<u8>> {
    let characters = line.strip_suffix(b"\n")?;
    if characters.is_empty() || characters.len() % 2 == 1 {
        return None;
    }
    let pair = |pair: &[u8]| Some(digit(pair[0])? << 4 | digit(pair[1])?);
    characters.chunks(2).map(pair).collect()
}

fn frame_of(bytes: &[u8]) -> Option<Frame<'_>> {
    let wide = |high: u8, low: u8| u16::from_be_bytes([high, low]);
    match *bytes {
        [1, a, b, c, d] => Some(Frame::Table(u32::from_be_bytes([a, b, c, d]))),
        [2, table, other, a, b, c, d, e, f] => Some(Frame::Tie(Tie {
            table: table as usize,
            other: other as usize,
            p: wide(a, b),
            q: wide(c, d),
            cost: wide(e, f),
        })),
        [3, table, a, b, c, d, e, f, kind] => Some(Frame::Test(Test {
            table: table as usize,
            p: wide(a, b),
            q: wide(c, d),
            cost: wide(e, f),
            kind: kind as u16,
        })),
        [4, table, ref text @ ..] if (5..=7).contains(&text.len()) => {
            Some(Frame::Correction(table as usize, text))
        }
        [5] => Some(Frame::End),
        _ => None,
    }
}

fn turn_after(turn: Turn, frame: &Frame) -> Option<Turn> {
    match (turn, frame) {
        (Turn::Ended, _) => None,
        (_, Frame::End) => Some(Turn::Ended),
        (Turn::Tables, Frame::Table(_)) => Some(Turn::Tables),
        (Turn::Predicates, Frame::Table(_)) => None,
        _ => Some(Turn::Predicates),
    }
}

// The thousandths that a reading means.
fn reading(text: &[u8]) -> Option<i32> {
    let (minus, rest) = match text {
        [b'-', rest @ ..] => (true, rest),
        _ => (false, text),
    };
    let point = rest.iter().position(|&byte| byte == b'.')?;
    let (whole, part) = (&rest[..point], &rest[point + 1..]);
    let needless = whole.len() == 2 && whole[0] == b'0';
    if !(1..=2).contains(&whole.len()) || needless || part.len() != 3 {
        return None;
    }
    let mut number = 0;
    for &byte in whole.iter().chain(part) {
        if !byte.is_ascii_digit() {
            return None;
        }
        number = number * 10 + (byte - b'0') as i32;
    }
    match minus {
        true if number == 0 => None,
        true => Some(-number),
        false => Some(number),
    }
}

fn add_table(question: &mut Question, rows: u32) -> Result<(), u8> {
    if question.rows.len() == MOST_TABLES {
        return Err(1);
    }
    if rows > MOST_ROWS {
        return Err(2);
    }
    question.rows.push(rows);
    Ok(())
}

fn add_tie(question: &mut Question, tie: Tie) -> Result<(), u8> {
    let tables = question.rows.len();
    let pair = |tie: &Tie| (tie.table.min(tie.other), tie.table.max(tie.other));
    if tie.table >= tables || tie.other >= tables {
        return Err(3);
    }
    if tie.table == tie.other {
        return Err(4);
    }
    if tie.q == 0 || tie.p > tie.q {
        return Err(5);
    }
    if question.ties.iter().any(|old| pair(old) == pair(&tie)) {
        return Err(6);
    }
    question.ties.push(tie);
    Ok(())
}

fn add_test(question: &mut Question, test: Test) -> Result<(), u8> {
    if test.table >= question.rows.len() {
        return Err(3);
    }
    if test.q == 0 || test.p > test.q {
        return Err(5);
    }
    if test.kind > 1 {
        return Err(7);
    }
    if question.tests.iter().any(|old| old.table == test.table) {
        return Err(8);
    }
    question.tests.push(test);
    Ok(())
}

fn correct(question: &mut Question, table: usize, number: i32) -> Result<(), u8> {
    if table >= question.rows.len() {
        return Err(3);
    }
    let mut tests = question.tests.iter_mut();
    let test = tests.find(|test| test.table == table).ok_or(9)?;
    test.cost = u16::try_from(test.cost as i32 + number).map_err(|_| 10)?;
    Ok(())
}
