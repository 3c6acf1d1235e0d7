// A question, the lists it is solved in, and what solving gives.

#[derive(Clone, Copy)]
pub struct Tie {
    pub table: usize,
    pub other: usize,
    pub p: u16,
    pub q: u16,
    pub cost: u16,
}

#[derive(Clone, Copy)]
pub struct Test {
    pub table: usize,
    pub p: u16,
    pub q: u16,
    pub cost: u16,
    pub kind: u16,
}

#[derive(Clone, Default)]
pub struct Question {
    pub rows: Vec<u32>,
    pub ties: Vec<Tie>,
    pub tests: Vec<Test>,
}

// A price, a size and a choice for each working row.
#[derive(PartialEq, Eq)]
pub struct Lists {
    pub prices: Vec<u64>,
    pub sizes: Vec<u32>,
    pub choices: Vec<u16>,
}

#[derive(PartialEq, Eq, Debug)]
pub struct Solution {
    pub price: u64,
    pub tries: u64,
    pub plan: Vec<u8>,
}

// A solution, or the refusal's number.
pub type Outcome = Result<Solution, u64>;

impl Question {
    // 2 for each table without a test, times 3 for each with one.
    pub fn working_rows(&self) -> usize {
        let tested = self.tests.len() as u32;
        2usize.pow(self.rows.len() as u32 - tested) * 3usize.pow(tested)
    }
}

impl Lists {
    // Filled with values that no row can have.
    pub fn marked(entries: usize) -> Lists {
        Lists {
            prices: vec![0xAAAA_AAAA_AAAA_AAAA; entries],
            sizes: vec![0xAAAA_AAAA; entries],
            choices: vec![0xAAAA; entries],
        }
    }
}
