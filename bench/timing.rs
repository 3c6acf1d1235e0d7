// The library's solve beside a plain one: what both give, and how long they take.
use crate::library::Call;
use crate::plain;
use crate::question::{Lists, Outcome, Question, Test, Tie};
use std::hint::black_box;
use std::time::{Duration, Instant};

const TABLES: usize = 10;
const SHAPES: [&str; 4] = ["chain", "star", "cycle", "clique"];
const TESTS: [usize; 4] = [0, 5, 7, 10];

// Whether a shape ties two tables, the lower first.
fn ties(shape: &str, low: usize, high: usize) -> bool {
    match shape {
        "chain" => high == low + 1,
        "star" => low == 0,
        "cycle" => high == low + 1 || (low == 0 && high == TABLES - 1),
        _ => true,
    }
}

fn shaped(shape: &str, tests: usize) -> Question {
    let rows = (0..TABLES).map(|i| 900 + 137 * i as u32).collect();
    let mut question = Question {
        rows,
        ties: vec![],
        tests: vec![],
    };
    for low in 0..TABLES {
        for high in low + 1..TABLES {
            if ties(shape, low, high) {
                let (q, cost) = (200 + 31 * (low + high) as u16, 1 + (low * high % 7) as u16);
                question.ties.push(Tie {
                    table: low,
                    other: high,
                    p: 1,
                    q,
                    cost,
                });
            }
        }
    }
    for table in 0..tests {
        let (q, cost) = (2 + table as u16 % 5, 40 + 90 * (table as u16 % 4));
        question.tests.push(Test {
            table,
            p: 1,
            q,
            cost,
            kind: table as u16 % 2,
        });
    }
    question
}

// Numbers that look random, the same in every run.
struct Numbers(u64);

impl Numbers {
    fn below(&mut self, limit: u64) -> u64 {
        self.0 = self
            .0
            .wrapping_mul(6364136223846793005)
            .wrapping_add(1442695040888963407);
        (self.0 >> 33) % limit
    }
}

fn random(numbers: &mut Numbers) -> Question {
    let tables = 1 + numbers.below(6) as usize;
    let most = [10, 5_000, 16_777_216][numbers.below(3) as usize];
    let rows = (0..tables).map(|_| numbers.below(most) as u32).collect();
    let mut question = Question {
        rows,
        ties: vec![],
        tests: vec![],
    };
    for table in 0..tables {
        for other in 0..table {
            if numbers.below(3) > 0 {
                let q = 1 + numbers.below(300) as u16;
                let (p, cost) = (
                    numbers.below(q as u64 + 1) as u16,
                    numbers.below(65_536) as u16,
                );
                question.ties.push(Tie {
                    table,
                    other,
                    p,
                    q,
                    cost,
                });
            }
        }
        if numbers.below(2) > 0 {
            let q = 1 + numbers.below(9) as u16;
            let (p, cost) = (
                numbers.below(q as u64 + 1) as u16,
                numbers.below(1_000) as u16,
            );
            question.tests.push(Test {
                table,
                p,
                q,
                cost,
                kind: numbers.below(2) as u16,
            });
        }
    }
    question
}

// Whether both give the same lists and the same outcome; some entries more than there are rows stay as they are.
fn agree(question: &Question) -> Result<Outcome, String> {
    let entries = question.working_rows() + 3;
    let (mut ours, mut theirs) = (Lists::marked(entries), Lists::marked(entries));
    let (found, expected) = (
        Call::new(question).solve(&mut ours),
        plain::solve(question, &mut theirs),
    );
    if found != expected {
        return Err(format!(
            "the library gives {found:?}, plain Rust {expected:?}"
        ));
    }
    if ours.choices != theirs.choices {
        return Err("the choices differ".into());
    }
    if ours.sizes != theirs.sizes {
        return Err("the sizes differ".into());
    }
    if ours.prices != theirs.prices {
        return Err("the prices differ".into());
    }
    Ok(found)
}

// The shortest of several runs, in milliseconds.
fn best(mut run: impl FnMut()) -> f64 {
    let (mut shortest, mut spent, mut runs) = (Duration::MAX, Duration::ZERO, 0);
    while runs < 3 || (spent < Duration::from_secs(1) && runs < 200) {
        let start = Instant::now();
        run();
        let took = start.elapsed();
        shortest = shortest.min(took);
        spent += took;
        runs += 1;
    }
    shortest.as_secs_f64() * 1e3
}

// Compares what both give.
pub fn compare() -> Result<(), String> {
    let mut numbers = Numbers(7);
    let mut refused = 0;
    for number in 0..500 {
        let outcome = agree(&random(&mut numbers))
            .map_err(|why| format!("random question {number}: {why}"))?;
        refused += outcome.is_err() as u32;
    }
    println!("500 random questions: the same ({refused} refused)");
    for shape in SHAPES {
        for tests in TESTS {
            agree(&shaped(shape, tests))
                .and_then(|outcome| outcome.map_err(|number| format!("refused by {number}")))
                .map_err(|why| format!("{shape} with {tests} tests: {why}"))?;
        }
    }
    println!(
        "{} shapes: the same choices, sizes, prices, tries and plan",
        SHAPES.len() * TESTS.len()
    );
    Ok(())
}

// Times both.
pub fn measure() {
    println!("{TABLES} tables; best of 3 runs or more; the lists are not cleared between runs");
    println!("shape   tests   rows     tries  library ms   plain ms   ratio");
    for shape in SHAPES {
        for tests in TESTS {
            let question = shaped(shape, tests);
            let rows = question.working_rows();
            let (call, mut lists) = (Call::new(&question), Lists::marked(rows));
            let tries = call.solve(&mut lists).map_or(0, |found| found.tries);
            let ours = best(|| drop(black_box(call.solve(&mut lists))));
            let theirs = best(|| drop(black_box(plain::solve(black_box(&question), &mut lists))));
            let ratio = ours / theirs;
            println!(
                "{shape:<7} {tests:>5} {rows:>6} {tries:>9} {ours:>11.2} {theirs:>10.2} {ratio:>7.2}"
            );
        }
    }
}
