// What solve and the programs must give, and whether they give it.
use crate::exhaustive::{Model, Parts, Price, Search, WIDEST};
use crate::library::Call;
use crate::numbers::Numbers;
use crate::programs;
use crate::question::{Lists, Outcome, Question, Solution};
use crate::reader::{self, fault};
use std::fmt::Debug;

// The rows that each program provides.
const ROWS: usize = 2187;

// What solve must give: the plan, its price and the tries.
struct Answer {
    plan: Vec<u8>,
    price: Price,
    tries: u64,
}

pub fn same<T: PartialEq + Debug>(what: &str, expected: T, came: T) -> Result<(), String> {
    if expected == came {
        return Ok(());
    }
    Err(format!("{what}\nexpected: {expected:?}\ncame: {came:?}"))
}

// What solve must give for a question of up to five tables, in lists of so many entries.
fn solved(search: &mut Search, parts: &Parts, model: Model, rows: usize) -> Result<Answer, u64> {
    let (all, tested) = (parts.all(), parts.tested);
    if parts.count == 0 {
        return Err(11);
    }
    if rows < parts.rows().count() {
        return Err(12);
    }
    search.run(parts);
    let price = search.least(all, tested).ok_or(13u64)?;
    if price.past(model) {
        return Err(14);
    }
    Ok(Answer {
        plan: search.plan(parts, all, tested, model),
        price,
        tries: parts.tries(|tables, tests| search.has_plan(tables, tests)),
    })
}

// What a program must write for the answer.
fn written(answer: &Answer, model: Model) -> String {
    let mut text = String::new();
    for pair in answer.plan.chunks(2) {
        text += &format!("{:02X}{:02X}\n", pair[0], pair[1]);
    }
    text += &format!("1E{}\n", answer.price.spelled(model));
    text + &format!("1F{:016X}\n", answer.tries)
}

// What a program must write for a question of up to five tables that ends at the line.
pub fn output(search: &mut Search, parts: &Parts, line: usize, model: Model) -> String {
    match solved(search, parts, model, ROWS) {
        Ok(answer) => written(&answer, model),
        Err(number) => fault(4, number as u8, line),
    }
}

// The plan, the price and the tries in a program's output, as far as they can be read.
fn parsed(output: &str) -> Option<(Vec<u8>, &str, &str)> {
    let mut lines: Vec<&str> = output.lines().collect();
    let tries = lines.pop()?.strip_prefix("1F")?;
    let price = lines.pop()?.strip_prefix("1E")?;
    let byte = |text: Option<&str>| u8::from_str_radix(text?, 16).ok();
    let mut plan = vec![];
    for line in lines {
        plan.extend([byte(line.get(0..2))?, byte(line.get(2..4))?]);
    }
    Some((plan, price, tries))
}

// The refusal in a program's output, or 0.
fn refusal_in(output: &str) -> u64 {
    let number = output.strip_prefix("FF").and_then(|rest| rest.get(2..4));
    number.map_or(0, |hex| u64::from_str_radix(hex, 16).unwrap_or(0))
}

// Whether the plan in an output is valid and has the price and the tries beside it.
fn holds(parts: &Parts, output: &str, model: Model, tries: u64) -> Result<(), String> {
    let (plan, price, told) = parsed(output).ok_or("the output is no plan")?;
    let found = parts.check(&plan).ok_or("the plan is not valid")?;
    same(
        "price of the told plan",
        found.spelled(model).as_str(),
        price,
    )?;
    same("tries", format!("{tries:016X}").as_str(), told)
}

// A question too wide to search: refusals before the search, else only that the plan holds.
fn wide(parts: &Parts, line: usize, model: Model, came: &str) -> Result<(), String> {
    if parts.rows().count() > ROWS {
        return same("output", &*fault(4, 12, line), came);
    }
    if !parts.connected(parts.all()) {
        return same("output", &*fault(4, 13, line), came);
    }
    let connected: Vec<bool> = (0..=parts.all()).map(|set| parts.connected(set)).collect();
    let tries = parts.tries(|tables, _| connected[tables]);
    holds(parts, came, model, tries)
}

// Whether an output is what a program must write.
fn judge(search: &mut Search, input: &[u8], model: Model, came: &str) -> Result<(), String> {
    let (question, line) = match reader::read(input) {
        Ok(read) => read,
        Err(expected) => return same("output", &*expected, came),
    };
    let parts = Parts::new(&question);
    if parts.count > WIDEST {
        return wide(&parts, line, model, came);
    }
    let expected = output(search, &parts, line, model);
    if refusal_in(&expected) == 0 {
        let tries = parts.tries(|tables, _| parts.connected(tables));
        holds(&parts, came, model, tries)
            .map_err(|why| format!("{why}\nexpected output:\n{expected}"))?;
    }
    same("output", &*expected, came)
}

// Runs a program and judges its output; answers the refusal, or 0.
pub fn program(search: &mut Search, input: &[u8], model: Model) -> Result<u64, String> {
    let came = programs::run(model, input)?;
    judge(search, input, model, &came).map_err(|why| format!("{why}\noutput:\n{came}"))?;
    Ok(refusal_in(&came))
}

// The lists after the library's solve: sizes, choices and least prices of all rows, and nothing after them.
fn lists_hold(search: &Search, parts: &Parts, lists: &Lists) -> Result<(), String> {
    let mut expected = Lists::marked(lists.sizes.len());
    for (place, (tables, tests)) in parts.rows().enumerate() {
        expected.sizes[place] = search.size(tables, tests) as u32;
        expected.choices[place] = search.choice(parts, tables, tests, Model::Clock);
        if let Some(least) = search.least(tables, tests) {
            expected.prices[place] = least.clock;
        }
    }
    same("sizes", &expected.sizes, &lists.sizes)?;
    same("choices", &expected.choices, &lists.choices)?;
    same("prices", &expected.prices, &lists.prices)
}

// Makes one of the lists too short.
fn shorten(numbers: &mut Numbers, lists: &mut Lists, rows: usize) {
    match numbers.below(3) {
        0 => lists.prices.truncate(rows - 1),
        1 => lists.sizes.truncate(rows - 1),
        _ => lists.choices.truncate(rows - 1),
    }
}

// Whether the library gives what it must.
pub fn library(
    search: &mut Search,
    numbers: &mut Numbers,
    question: &Question,
) -> Result<u64, String> {
    let parts = Parts::new(question);
    let rows = parts.rows().count();
    let mut lists = Lists::marked(rows + 3);
    if numbers.one_in(50) {
        shorten(numbers, &mut lists, rows);
    }
    let lent = lists
        .prices
        .len()
        .min(lists.sizes.len())
        .min(lists.choices.len());
    let came = Call::new(question).solve(&mut lists);
    let answer = solved(search, &parts, Model::Clock, lent);
    let expected = expected_outcome(&parts, &answer)?;
    if let Ok(told) = &came {
        let price = parts.check(&told.plan).map(|price| price.clock);
        same(
            "price of the told plan, if it is valid",
            price,
            Some(told.price),
        )
        .map_err(|why| format!("{why}\nexpected: {expected:?}"))?;
    }
    same("outcome", &expected, &came)?;
    match came {
        Err(11 | 12) => untouched(&lists)?,
        _ => lists_hold(search, &parts, &lists)?,
    }
    Ok(came.err().unwrap_or(0))
}

// The outcome that the answer stands for; it must agree with what the handbook says of connected tables.
fn expected_outcome(parts: &Parts, answer: &Result<Answer, u64>) -> Result<Outcome, String> {
    let connected = parts.connected(parts.all());
    match answer {
        Ok(_) | Err(14) => same("connected", true, connected)?,
        Err(13) => same("connected", false, connected)?,
        _ => {}
    }
    Ok(answer
        .as_ref()
        .map_err(|&number| number)
        .map(|answer| Solution {
            price: answer.price.clock,
            tries: answer.tries,
            plan: answer.plan.clone(),
        }))
}

fn untouched(lists: &Lists) -> Result<(), String> {
    let marked = Lists::marked(1);
    let kept = lists.prices.iter().all(|price| *price == marked.prices[0])
        && lists.sizes.iter().all(|size| *size == marked.sizes[0])
        && lists
            .choices
            .iter()
            .all(|choice| *choice == marked.choices[0]);
    same("lists as they were", true, kept)
}
