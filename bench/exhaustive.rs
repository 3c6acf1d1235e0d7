// All valid plans of a question, each with its price under both models.
use crate::question::Question;
use std::mem::take;

// The most tables of a question that is searched.
pub const WIDEST: usize = 5;

const CEILING: u64 = 16_777_215;
const MOST_FETCHES: u64 = 4_294_967_295;

#[derive(Clone, Copy, PartialEq, Eq)]
pub enum Model {
    Clock,
    FetchesFirst,
}

// Fetches come first in the order, then ms.
#[derive(Clone, Copy, PartialEq, Eq, PartialOrd, Ord, Debug)]
struct Fetches {
    fetches: u32,
    ms: u64,
}

// A plan's price under both models.
#[derive(Clone, Copy, PartialEq, Eq, Debug)]
pub struct Price {
    pub clock: u64,
    fetches: Fetches,
}

fn limited(ms: u128) -> u64 {
    ms.min(u64::MAX as u128) as u64
}

fn counted(fetches: u64, ms: u64) -> Fetches {
    if fetches >= MOST_FETCHES {
        return Fetches {
            fetches: u32::MAX,
            ms: u64::MAX,
        };
    }
    Fetches {
        fetches: fetches as u32,
        ms,
    }
}

fn bare_price(rows: u64) -> Price {
    Price {
        clock: rows,
        fetches: counted(0, rows),
    }
}

fn test_price(input: Price, size: u64, test: Predicate) -> Price {
    let step = size as u128 * test.cost as u128;
    let fetched = if test.kind == 1 { size } else { 0 };
    let before = input.fetches;
    Price {
        clock: limited(input.clock as u128 + step),
        fetches: counted(
            before.fetches as u64 + fetched,
            limited(before.ms as u128 + step),
        ),
    }
}

// The step is the result's size and the pairs of rows times the costs of the ties across.
fn join_price(left: Price, right: Price, step: u128) -> Price {
    let (a, b) = (left.fetches, right.fetches);
    Price {
        clock: limited(left.clock as u128 + right.clock as u128 + step),
        fetches: counted(
            a.fetches as u64 + b.fetches as u64,
            limited(a.ms as u128 + b.ms as u128 + step),
        ),
    }
}

impl Price {
    pub fn past(&self, model: Model) -> bool {
        match model {
            Model::Clock => self.clock == u64::MAX,
            Model::FetchesFirst => self.fetches == counted(MOST_FETCHES, 0),
        }
    }

    pub fn same(&self, other: &Price, model: Model) -> bool {
        match model {
            Model::Clock => self.clock == other.clock,
            Model::FetchesFirst => self.fetches == other.fetches,
        }
    }

    // The price's bytes in hexadecimal.
    pub fn spelled(&self, model: Model) -> String {
        match model {
            Model::Clock => format!("{:016X}", self.clock),
            Model::FetchesFirst => format!("{:08X}{:016X}", self.fetches.fetches, self.fetches.ms),
        }
    }

    // The lesser under each model by itself.
    fn lesser(self, other: Price) -> Price {
        Price {
            clock: self.clock.min(other.clock),
            fetches: self.fetches.min(other.fetches),
        }
    }
}

// A tie or a test.
#[derive(Clone, Copy)]
struct Predicate {
    p: u64,
    q: u64,
    cost: u64,
    kind: u16,
}

// The subsets of a set, by ascending number.
pub fn subsets(set: usize) -> impl Iterator<Item = usize> {
    (0..=set).filter(move |part| part & !set == 0)
}

fn members(set: usize) -> impl Iterator<Item = usize> {
    (0..10).filter(move |member| set >> member & 1 == 1)
}

// A question's parts by table.
pub struct Parts {
    pub count: usize,
    rows: Vec<u64>,
    ties: [[Option<Predicate>; 10]; 10],
    tests: [Option<Predicate>; 10],
    pub tested: usize,
}

// One way to make the plan of a row.
#[derive(Clone, Copy)]
enum Candidate {
    Join(usize),
    Test(usize),
}

impl Parts {
    pub fn new(question: &Question) -> Parts {
        let mut parts = Parts {
            count: question.rows.len(),
            rows: question.rows.iter().map(|&rows| rows as u64).collect(),
            ties: [[None; 10]; 10],
            tests: [None; 10],
            tested: 0,
        };
        for tie in &question.ties {
            let found = predicate(tie.p, tie.q, tie.cost, 0);
            parts.ties[tie.table][tie.other] = Some(found);
            parts.ties[tie.other][tie.table] = Some(found);
        }
        for test in &question.tests {
            parts.tests[test.table] = Some(predicate(test.p, test.q, test.cost, test.kind));
            parts.tested |= 1 << test.table;
        }
        parts
    }

    pub fn all(&self) -> usize {
        (1 << self.count) - 1
    }

    // Every set of tables with every set of tests on them, in the order of the working rows.
    pub fn rows(&self) -> impl Iterator<Item = (usize, usize)> {
        (0..=self.all())
            .flat_map(|tables| subsets(tables & self.tested).map(move |tests| (tables, tests)))
    }

    fn base(&self, table: usize, tests: usize) -> u64 {
        let rows = self.rows[table];
        match self.tests[table] {
            Some(test) if tests >> table & 1 == 1 => (rows * test.p).div_ceil(test.q),
            _ => rows,
        }
    }

    // The size of a set of tables, from its lowest table and the size of the rest.
    pub fn size(&self, tables: usize, tests: usize) -> u64 {
        let Some(lowest) = members(tables).next() else {
            return 1;
        };
        let rest = tables ^ 1 << lowest;
        let mut size = self.base(lowest, tests) as u128 * self.size(rest, tests) as u128;
        for other in members(rest) {
            if let Some(tie) = self.ties[lowest][other] {
                size = (size * tie.p as u128).div_ceil(tie.q as u128);
            }
        }
        size.min(CEILING as u128) as u64
    }

    // The summed costs of the ties across, or none where no tie links the sides.
    fn across(&self, left: usize, right: usize) -> Option<u64> {
        let pairs = members(left).flat_map(|a| members(right).map(move |b| (a, b)));
        let costs = pairs.filter_map(|(a, b)| self.ties[a][b].map(|tie| tie.cost));
        costs.fold(None, |sum, cost| Some(sum.unwrap_or(0) + cost))
    }

    // Whether ties connect the tables of a set that is not empty.
    pub fn connected(&self, tables: usize) -> bool {
        let Some(first) = members(tables).next() else {
            return false;
        };
        let mut reached = 1 << first;
        for _ in 0..self.count {
            for table in members(tables) {
                if self.across(reached, 1 << table).is_some() {
                    reached |= 1 << table;
                }
            }
        }
        reached == tables
    }

    // The candidates of a row, in their order.
    fn candidates(&self, tables: usize, tests: usize) -> impl Iterator<Item = Candidate> {
        let joins = subsets(tables)
            .filter(move |&left| self.across(left, tables ^ left).is_some())
            .map(Candidate::Join);
        joins.chain(members(tests).map(Candidate::Test))
    }

    // The candidates over all rows whose parts all have plans.
    pub fn tries(&self, has_plan: impl Fn(usize, usize) -> bool) -> u64 {
        let tried = |tables: usize, tests: usize, candidate| match candidate {
            Candidate::Join(left) => {
                let right = tables ^ left;
                has_plan(left, tests & left) && has_plan(right, tests & right)
            }
            Candidate::Test(test) => has_plan(tables, tests ^ 1 << test),
        };
        let of_row = |(tables, tests)| {
            let candidates = self.candidates(tables, tests);
            candidates.filter(|&one| tried(tables, tests, one)).count() as u64
        };
        self.rows().map(of_row).sum()
    }

    // The price of the plan that the bytes spell, or none if they spell no valid plan of the question.
    pub fn check(&self, bytes: &[u8]) -> Option<Price> {
        let mut unjoined: Vec<Part> = vec![];
        if bytes.len() % 2 == 1 {
            return None;
        }
        for pair in bytes.chunks(2) {
            let made = match (pair[0], pair[1] as usize) {
                (0x10, table) => self.bare(table)?,
                (0x11, test) => self.tested_part(unjoined.pop()?, test)?,
                (0x12, 0) => {
                    let right = unjoined.pop()?;
                    self.joined(unjoined.pop()?, right)?
                }
                _ => return None,
            };
            unjoined.push(made);
        }
        match unjoined[..] {
            [whole] if whole.tables == self.all() && whole.tests == self.tested => {
                Some(whole.price)
            }
            _ => None,
        }
    }

    fn bare(&self, table: usize) -> Option<Part> {
        Some(Part {
            tables: 1 << table,
            tests: 0,
            price: bare_price(*self.rows.get(table)?),
        })
    }

    fn tested_part(&self, input: Part, table: usize) -> Option<Part> {
        let test = (*self.tests.get(table)?)?;
        if input.tables >> table & 1 == 0 || input.tests >> table & 1 == 1 {
            return None;
        }
        Some(Part {
            tables: input.tables,
            tests: input.tests | 1 << table,
            price: test_price(input.price, self.size(input.tables, input.tests), test),
        })
    }

    fn joined(&self, left: Part, right: Part) -> Option<Part> {
        let costs = self.across(left.tables, right.tables)?;
        if left.tables & right.tables != 0 {
            return None;
        }
        let (tables, tests) = (left.tables | right.tables, left.tests | right.tests);
        let pairs = self.size(left.tables, left.tests) as u128
            * self.size(right.tables, right.tests) as u128;
        let step = self.size(tables, tests) as u128 + pairs * costs as u128;
        Some(Part {
            tables,
            tests,
            price: join_price(left.price, right.price, step),
        })
    }
}

fn predicate(p: u16, q: u16, cost: u16, kind: u16) -> Predicate {
    Predicate {
        p: p as u64,
        q: q as u64,
        cost: cost as u64,
        kind,
    }
}

// A piece of a plan: its tables, its tests and its price.
#[derive(Clone, Copy)]
struct Part {
    tables: usize,
    tests: usize,
    price: Price,
}

// The prices of all valid plans, by tables and tests, and what is known of each row.
pub struct Search {
    plans: Vec<Vec<Price>>,
    sizes: Vec<u64>,
    least: Vec<Option<Price>>,
}

fn at(tables: usize, tests: usize) -> usize {
    tables << WIDEST | tests
}

impl Search {
    pub fn new() -> Search {
        let entries = 1 << (2 * WIDEST);
        Search {
            plans: vec![vec![]; entries],
            sizes: vec![0; entries],
            least: vec![None; entries],
        }
    }

    // Goes through all plans of a question of up to five tables.
    pub fn run(&mut self, parts: &Parts) {
        for (tables, tests) in parts.rows() {
            let row = at(tables, tests);
            self.sizes[row] = parts.size(tables, tests);
            let mut plans = take(&mut self.plans[row]);
            plans.clear();
            if tables.count_ones() == 1 && tests == 0 {
                plans.push(bare_price(self.sizes[row]));
            }
            self.add_joins(parts, tables, tests, &mut plans);
            self.add_tests(parts, tables, tests, &mut plans);
            self.least[row] = plans.iter().copied().reduce(Price::lesser);
            self.plans[row] = plans;
        }
    }

    // Every plan of the one side with every plan of the other.
    // Swapping the sides does not change the price, so the lowest table stays on the left.
    fn add_joins(&self, parts: &Parts, tables: usize, tests: usize, plans: &mut Vec<Price>) {
        let lowest = tables & tables.wrapping_neg();
        for left in subsets(tables).filter(|left| left & lowest != 0) {
            let right = tables ^ left;
            let Some(step) = self.join_step(parts, left, right, tests) else {
                continue;
            };
            for &a in &self.plans[at(left, tests & left)] {
                let others = self.plans[at(right, tests & right)].iter();
                plans.extend(others.map(|&b| join_price(a, b, step)));
            }
        }
    }

    // Every plan without the test, with the test put on it.
    fn add_tests(&self, parts: &Parts, tables: usize, tests: usize, plans: &mut Vec<Price>) {
        for table in members(tests) {
            let input = at(tables, tests ^ 1 << table);
            let (size, test) = (self.sizes[input], parts.tests[table]);
            if let Some(test) = test {
                let inputs = self.plans[input].iter();
                plans.extend(inputs.map(|&price| test_price(price, size, test)));
            }
        }
    }

    fn join_step(&self, parts: &Parts, left: usize, right: usize, tests: usize) -> Option<u128> {
        let costs = parts.across(left, right)?;
        let pairs = self.sizes[at(left, tests & left)] as u128
            * self.sizes[at(right, tests & right)] as u128;
        Some(self.sizes[at(left | right, tests)] as u128 + pairs * costs as u128)
    }

    // The number of valid plans that were priced, those with swapped sides left out.
    pub fn priced_count(&self, parts: &Parts) -> u64 {
        self.plans[at(parts.all(), parts.tested)].len() as u64
    }

    // The number of all valid plans: the sides of each join may be swapped.
    pub fn plan_count(&self, parts: &Parts) -> u64 {
        self.priced_count(parts) << parts.count.saturating_sub(1)
    }

    pub fn has_plan(&self, tables: usize, tests: usize) -> bool {
        !self.plans[at(tables, tests)].is_empty()
    }

    pub fn size(&self, tables: usize, tests: usize) -> u64 {
        self.sizes[at(tables, tests)]
    }

    // The least price of a row, under each model by itself.
    pub fn least(&self, tables: usize, tests: usize) -> Option<Price> {
        self.least[at(tables, tests)]
    }

    // The first candidate that gives the least price of the row from the least prices of its parts.
    fn kept(&self, parts: &Parts, tables: usize, tests: usize, model: Model) -> Option<Candidate> {
        let least = self.least(tables, tests)?;
        let mut candidates = parts.candidates(tables, tests);
        candidates.find(|&one| {
            let price = self.priced(parts, tables, tests, one);
            price.is_some_and(|price| price.same(&least, model))
        })
    }

    fn priced(&self, parts: &Parts, tables: usize, tests: usize, one: Candidate) -> Option<Price> {
        match one {
            Candidate::Join(left) => {
                let right = tables ^ left;
                let step = self.join_step(parts, left, right, tests)?;
                let (a, b) = (
                    self.least(left, tests & left)?,
                    self.least(right, tests & right)?,
                );
                Some(join_price(a, b, step))
            }
            Candidate::Test(test) => {
                let input = tests ^ 1 << test;
                let price = self.least(tables, input)?;
                Some(test_price(
                    price,
                    self.size(tables, input),
                    parts.tests[test]?,
                ))
            }
        }
    }

    // The code of what a row keeps.
    pub fn choice(&self, parts: &Parts, tables: usize, tests: usize, model: Model) -> u16 {
        match self.kept(parts, tables, tests, model) {
            Some(Candidate::Join(left)) => 4096 + left as u16,
            Some(Candidate::Test(test)) => 256 + test as u16,
            None => self.has_plan(tables, tests) as u16,
        }
    }

    // The bytes of the plan that a row keeps.
    pub fn plan(&self, parts: &Parts, tables: usize, tests: usize, model: Model) -> Vec<u8> {
        match self.kept(parts, tables, tests, model) {
            Some(Candidate::Join(left)) => {
                let right = tables ^ left;
                let mut plan = self.plan(parts, left, tests & left, model);
                plan.extend(self.plan(parts, right, tests & right, model));
                plan.extend([0x12, 0]);
                plan
            }
            Some(Candidate::Test(test)) => {
                let mut plan = self.plan(parts, tables, tests ^ 1 << test, model);
                plan.extend([0x11, test as u8]);
                plan
            }
            None => members(tables)
                .flat_map(|table| [0x10, table as u8])
                .collect(),
        }
    }
}
