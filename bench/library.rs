// The library's solve, through its exported call.
use crate::question::{Lists, Outcome, Question, Solution};

#[repr(C)]
struct Told {
    refusal: u64,
    price: u64,
    tries: u64,
    len: u64,
    bytes: [u8; 58],
}

unsafe extern "C" {
    fn bench_solve(
        rows: *const u32,
        rows_len: usize,
        ties: *const u16,
        ties_len: usize,
        tests: *const u16,
        tests_len: usize,
        prices: *mut u64,
        prices_len: usize,
        sizes: *mut u32,
        sizes_len: usize,
        choices: *mut u16,
        choices_len: usize,
        told: *mut Told,
    );
}

// A question as the call takes it.
pub struct Call {
    rows: Vec<u32>,
    ties: Vec<u16>,
    tests: Vec<u16>,
}

impl Call {
    pub fn new(question: &Question) -> Call {
        let mut ties = Vec::new();
        for tie in &question.ties {
            ties.extend([tie.table as u16, tie.other as u16, tie.p, tie.q, tie.cost]);
        }
        let mut tests = Vec::new();
        for test in &question.tests {
            tests.extend([test.table as u16, test.p, test.q, test.cost, test.kind]);
        }
        Call {
            rows: question.rows.clone(),
            ties,
            tests,
        }
    }

    pub fn solve(&self, lists: &mut Lists) -> Outcome {
        let mut told = Told {
            refusal: 0,
            price: 0,
            tries: 0,
            len: 0,
            bytes: [0; 58],
        };
        // The pointers are of slices of the lengths beside them, all apart from each other, and of a struct laid out as the library's.
        unsafe {
            bench_solve(
                self.rows.as_ptr(),
                self.rows.len(),
                self.ties.as_ptr(),
                self.ties.len(),
                self.tests.as_ptr(),
                self.tests.len(),
                lists.prices.as_mut_ptr(),
                lists.prices.len(),
                lists.sizes.as_mut_ptr(),
                lists.sizes.len(),
                lists.choices.as_mut_ptr(),
                lists.choices.len(),
                &mut told,
            );
        }
        if told.refusal != 0 {
            return Err(told.refusal);
        }
        Ok(Solution {
            price: told.price,
            tries: told.tries,
            plan: told.bytes[..told.len as usize].to_vec(),
        })
    }
}
