// Compares the library and both programs with the search through all plans.
use crate::damage;
use crate::exhaustive::{Parts, Search, WIDEST};
use crate::itself::{SAMPLES, every_string, samples};
use crate::judge::{library, program};
use crate::numbers::Numbers;
use crate::programs::{self, MODELS};
use crate::random;
use std::collections::BTreeMap;
use std::time::Instant;

// Starting a process takes long, so the programs get few inputs for each hundred questions of the library.
const ASKED: u64 = 3;
const DAMAGED: u64 = 3;
// And one wide question for so many.
const WIDE: u64 = 300;

const SMALL: u64 = 60;

// How often each refusal came, and plans as 0.
#[derive(Default)]
struct Counts(BTreeMap<u64, u64>);

impl Counts {
    fn add(&mut self, refusal: u64) {
        *self.0.entry(refusal).or_default() += 1;
    }

    fn told(&self) -> String {
        let part = |(&refusal, &many): (&u64, &u64)| match refusal {
            0 => format!("{many} with a plan"),
            _ => format!("{many} refused by {refusal}"),
        };
        self.0.iter().map(part).collect::<Vec<_>>().join(", ")
    }
}

// Both programs with one input.
fn both(search: &mut Search, input: &[u8], counts: &mut [Counts; 2]) -> Result<(), String> {
    for (model, counts) in MODELS.into_iter().zip(counts) {
        let refusal = program(search, input, model)
            .map_err(|why| format!("program {}: {why}", programs::name(model)))?;
        counts.add(refusal);
    }
    Ok(())
}

// A difference, with the input it came with.
fn difference(seed: u64, what: &str, number: u64, input: &[u8], why: &str) -> String {
    let shown = match std::str::from_utf8(input) {
        Ok(text) if !text.contains('\r') => text.to_string(),
        _ => format!("(as a byte string) {}\n", input.escape_ascii()),
    };
    format!("DIFFERENCE: {what} {number}, seed {seed}\n{shown}{why}")
}

fn compare_search(search: &mut Search, seed: u64) -> Result<(), String> {
    samples(search)?;
    let mut numbers = Numbers::new(seed);
    let (mut number, mut strings) = (0, 0);
    while number < SMALL {
        let question = random::question(&mut numbers, 3);
        if question.rows.len() + question.tests.len() > 5 {
            continue;
        }
        strings += every_string(search, &question).map_err(|why| {
            let input = random::input(&random::lines(&question));
            difference(seed, "small question", number, &input, &why)
        })?;
        number += 1;
    }
    println!(
        "the search itself: {} samples of the handbook; {SMALL} small questions, all strings of pairs tried, {strings} valid plans",
        SAMPLES.len()
    );
    Ok(())
}

fn compare_library(search: &mut Search, questions: u64, seed: u64) -> Result<(), String> {
    let (start, mut numbers) = (Instant::now(), Numbers::new(seed));
    let (mut counts, mut tables) = (Counts::default(), [0; WIDEST + 1]);
    let (mut priced, mut plans) = (0, 0);
    for number in 0..questions {
        let question = match number {
            0 => random::at_the_limit(),
            _ => random::question(&mut numbers, WIDEST),
        };
        let refusal = library(search, &mut numbers, &question).map_err(|why| {
            let input = random::input(&random::lines(&question));
            difference(seed, "question to the library", number, &input, &why)
        })?;
        counts.add(refusal);
        tables[question.rows.len()] += 1;
        if !matches!(refusal, 11 | 12) {
            let parts = Parts::new(&question);
            priced += search.priced_count(&parts);
            plans += search.plan_count(&parts);
        }
    }
    println!(
        "the library under Clock: {questions} questions, {priced} plans priced ({plans} with swapped sides); outcome, plan, price, tries and all rows the same, in {} s",
        start.elapsed().as_secs()
    );
    println!(
        "  {}; by number of tables, from 0: {tables:?}",
        counts.told()
    );
    Ok(())
}

// Gives so many inputs to both programs.
fn compare_programs(
    search: &mut Search,
    many: u64,
    seed: u64,
    what: &str,
    mut input: impl FnMut(&mut Numbers) -> Vec<u8>,
) -> Result<(), String> {
    let (start, mut numbers) = (Instant::now(), Numbers::new(seed));
    let mut counts = [Counts::default(), Counts::default()];
    for number in 0..many {
        let input = input(&mut numbers);
        both(search, &input, &mut counts)
            .map_err(|why| difference(seed, what, number, &input, &why))?;
    }
    println!(
        "both programs as processes, {many} inputs ({what}), {} runs: output as expected, in {} s",
        2 * many,
        start.elapsed().as_secs()
    );
    for (model, counts) in MODELS.into_iter().zip(&counts) {
        println!("  {}: {}", programs::name(model), counts.told());
    }
    Ok(())
}

fn asked(numbers: &mut Numbers) -> Vec<u8> {
    let question = random::question(numbers, WIDEST);
    random::input(&random::mixed_lines(numbers, &question))
}

fn asked_wide(numbers: &mut Numbers) -> Vec<u8> {
    let question = random::wide(numbers);
    random::input(&random::lines(&question))
}

pub fn compare(questions: u64, seed: u64) -> Result<(), String> {
    println!("seed {seed}");
    let search = &mut Search::new();
    compare_search(search, seed)?;
    compare_library(search, questions, seed)?;
    let share = |many: u64| (questions * many).div_ceil(100);
    compare_programs(search, share(ASKED), seed, "question", asked)?;
    compare_programs(search, share(DAMAGED), seed, "damaged input", damage::input)?;
    println!(
        "next, too wide to search: refusals, or that the plan is valid, its price and the tries"
    );
    let wide = questions.div_ceil(WIDE);
    compare_programs(search, wide, seed, "question of 6 to 11 tables", asked_wide)?;
    println!("no difference");
    Ok(())
}
