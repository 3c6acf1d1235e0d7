// Solve in plain Rust, as the handbook has it.
use crate::question::{Lists, Outcome, Question, Solution};

const SETS: usize = 1024;
const CEILING: u64 = 16_777_215;

// The bits of the second number at the places of the first, close together, for numbers below 32.
const CLOSE: [[u8; 32]; 32] = close();

const fn close() -> [[u8; 32]; 32] {
    let mut table = [[0; 32]; 32];
    let mut mask = 0;
    while mask < 32 {
        let mut bits = 0;
        while bits < 32 {
            let (mut place, mut at) = (0, 0);
            while place < 5 {
                if mask >> place & 1 == 1 {
                    table[mask][bits] |= ((bits >> place & 1) << at) as u8;
                    at += 1;
                }
                place += 1;
            }
            bits += 1;
        }
        mask += 1;
    }
    table
}

// The contracted number of a set of tests among those of the mask.
fn contracted(tests: usize, mask: usize) -> usize {
    let (low, high) = (mask & 31, mask >> 5);
    let below = CLOSE[low][tests & 31] as usize;
    let above = CLOSE[high][tests >> 5 & 31] as usize;
    below | above << low.count_ones()
}

// The subsets of a mask in ascending order, the empty one first.
fn subsets(mask: usize) -> impl Iterator<Item = usize> {
    let mut next = Some(0);
    std::iter::from_fn(move || {
        let set = next?;
        next = (set != mask).then(|| set.wrapping_sub(mask) & mask);
        Some(set)
    })
}

// The members of a set in ascending order.
fn members(mut set: usize) -> impl Iterator<Item = usize> {
    std::iter::from_fn(move || {
        (set != 0).then(|| {
            let lowest = set.trailing_zeros() as usize;
            set &= set - 1;
            lowest
        })
    })
}

#[derive(Clone, Copy, Default)]
struct Tie {
    p: u64,
    q: u64,
    cost: u32,
}

#[derive(Clone, Copy, Default)]
struct Test {
    p: u64,
    q: u64,
    cost: u64,
}

// A question's tables, and what of each set of tables is worked out once.
struct Solver {
    count: usize,
    rows: [u64; 10],
    ties: [[Option<Tie>; 10]; 10],
    tests: [Test; 10],
    tested: usize,
    // the place of the set's first row
    first: [u32; SETS],
    // the costs of all ties within the set
    inside: [u32; SETS],
    // all tables that are tied to one of the set
    neighbours: [u16; SETS],
}

impl Solver {
    fn new(question: &Question) -> Solver {
        let mut solver = Solver {
            count: question.rows.len(),
            rows: [0; 10],
            ties: [[None; 10]; 10],
            tests: [Test::default(); 10],
            tested: 0,
            first: [0; SETS],
            inside: [0; SETS],
            neighbours: [0; SETS],
        };
        for (table, &rows) in question.rows.iter().enumerate() {
            solver.rows[table] = rows as u64;
        }
        for tie in &question.ties {
            let found = Tie {
                p: tie.p as u64,
                q: tie.q as u64,
                cost: tie.cost as u32,
            };
            solver.ties[tie.table][tie.other] = Some(found);
            solver.ties[tie.other][tie.table] = Some(found);
        }
        for test in &question.tests {
            solver.tests[test.table] = Test {
                p: test.p as u64,
                q: test.q as u64,
                cost: test.cost as u64,
            };
            solver.tested |= 1 << test.table;
        }
        solver.work_out_sets();
        solver
    }

    fn work_out_sets(&mut self) {
        let mut place = 0;
        for tables in 0..1usize << self.count {
            self.first[tables] = place;
            place += 1 << (tables & self.tested).count_ones();
            let Some(lowest) = members(tables).next() else {
                continue;
            };
            let rest = tables & (tables - 1);
            let (mut costs, mut tied) = (self.inside[rest], self.neighbours[rest]);
            for other in 0..self.count {
                if let Some(tie) = self.ties[lowest][other] {
                    tied |= 1 << other;
                    if rest >> other & 1 == 1 {
                        costs += tie.cost;
                    }
                }
            }
            self.inside[tables] = costs;
            self.neighbours[tables] = tied;
        }
    }

    // The place of the row of the tables and those of the tests that are on them.
    fn place(&self, tables: usize, tests: usize) -> usize {
        self.first[tables] as usize + contracted(tests, tables & self.tested)
    }

    // The size of a row from that of the row without the lowest table.
    fn size(&self, tables: usize, tests: usize, sizes: &[u32]) -> u32 {
        if tables == 0 {
            return 1;
        }
        let lowest = tables.trailing_zeros() as usize;
        let rest = tables & (tables - 1);
        let mut base = self.rows[lowest];
        if tests >> lowest & 1 == 1 {
            let test = self.tests[lowest];
            base = (base * test.p).div_ceil(test.q);
        }
        let mut size = base * sizes[self.place(rest, tests)] as u64;
        for other in members(rest) {
            if let Some(tie) = self.ties[lowest][other] {
                size = (size * tie.p).div_ceil(tie.q);
            }
        }
        size.min(CEILING) as u32
    }

    // Fills the row, and answers the tries it took.
    fn fill(&self, tables: usize, tests: usize, place: usize, lists: &mut Lists) -> u64 {
        let size = self.size(tables, tests, &lists.sizes);
        lists.sizes[place] = size;
        if tables.is_power_of_two() && tests == 0 {
            lists.prices[place] = self.rows[tables.trailing_zeros() as usize];
            lists.choices[place] = 1;
            return 0;
        }
        let (mut tries, mut choice, mut best) = (0, 0, 0);
        let mut candidate = |price: u64, number: usize| {
            tries += 1;
            if choice == 0 || price < best {
                (choice, best) = (number as u16, price);
            }
        };
        for left in subsets(tables) {
            let right = tables ^ left;
            if self.neighbours[left] as usize & right == 0 {
                continue;
            }
            let (a, b) = (self.place(left, tests), self.place(right, tests));
            if lists.choices[a] == 0 || lists.choices[b] == 0 {
                continue;
            }
            let costs = self.inside[tables] - self.inside[left] - self.inside[right];
            let pairs = lists.sizes[a] as u64 * lists.sizes[b] as u64;
            let parts = lists.prices[a] as u128 + lists.prices[b] as u128;
            let price = parts + size as u128 + pairs as u128 * costs as u128;
            candidate(price.min(u64::MAX as u128) as u64, 4096 + left);
        }
        for test in members(tests) {
            let part = self.place(tables, tests ^ 1 << test);
            if lists.choices[part] != 0 {
                let added = lists.sizes[part] as u64 * self.tests[test].cost;
                candidate(lists.prices[part].saturating_add(added), 256 + test);
            }
        }
        lists.choices[place] = choice;
        if choice != 0 {
            lists.prices[place] = best;
        }
        tries
    }

    // Writes the plan of a row in postorder.
    fn read_off(&self, tables: usize, tests: usize, choices: &[u16], plan: &mut Vec<u8>) {
        match choices[self.place(tables, tests)] as usize {
            1 => plan.extend([0x10, tables.trailing_zeros() as u8]),
            choice if choice < 4096 => {
                let test = choice - 256;
                self.read_off(tables, tests ^ 1 << test, choices, plan);
                plan.extend([0x11, test as u8]);
            }
            choice => {
                let left = choice - 4096;
                let right = tables ^ left;
                self.read_off(left, tests & left, choices, plan);
                self.read_off(right, tests & right, choices, plan);
                plan.extend([0x12, 0]);
            }
        }
    }
}

pub fn solve(question: &Question, lists: &mut Lists) -> Outcome {
    if question.rows.is_empty() {
        return Err(11);
    }
    let rows = question.working_rows();
    if lists.prices.len() < rows || lists.sizes.len() < rows || lists.choices.len() < rows {
        return Err(12);
    }
    let solver = Solver::new(question);
    let all = (1usize << solver.count) - 1;
    let (mut place, mut tries) = (0, 0);
    for tables in 0..=all {
        for tests in subsets(tables & solver.tested) {
            tries += solver.fill(tables, tests, place, lists);
            place += 1;
        }
    }
    let last = solver.place(all, solver.tested);
    if lists.choices[last] == 0 {
        return Err(13);
    }
    if lists.prices[last] == u64::MAX {
        return Err(14);
    }
    let mut plan = Vec::with_capacity(58);
    solver.read_off(all, solver.tested, &lists.choices, &mut plan);
    Ok(Solution {
        price: lists.prices[last],
        tries,
        plan,
    })
}
