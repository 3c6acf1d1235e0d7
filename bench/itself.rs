// The reader and the search against the handbook's samples, and the search against all strings of pairs.
use crate::exhaustive::{Model, Parts, Price, Search};
use crate::judge::{output, same};
use crate::programs::MODELS;
use crate::question::Question;
use crate::reader;

// The search itself: the valid plans among all strings of pairs of a small question are those it counts, with the same least price.
pub fn every_string(search: &mut Search, question: &Question) -> Result<u64, String> {
    let parts = Parts::new(question);
    search.run(&parts);
    let mut pairs = vec![[0x12, 0]];
    pairs.extend((0..parts.count).map(|table| [0x10, table as u8]));
    pairs.extend(question.tests.iter().map(|test| [0x11, test.table as u8]));
    let length = (2 * parts.count + question.tests.len()).saturating_sub(1);
    let (mut valid, mut least) = (0, [None::<Price>; 2]);
    for mut number in 0..pairs.len().pow(length as u32) {
        let mut bytes = vec![];
        for _ in 0..length {
            bytes.extend(pairs[number % pairs.len()]);
            number /= pairs.len();
        }
        if let Some(price) = parts.check(&bytes) {
            valid += 1;
            for (model, least) in MODELS.into_iter().zip(&mut least) {
                *least = Some(least.map_or(price, |old| cheapest(old, price, model)));
            }
        }
    }
    same("valid plans", search.plan_count(&parts), valid)?;
    let found = search.least(parts.all(), parts.tested);
    for (model, least) in MODELS.into_iter().zip(least) {
        let spelled = |price: Option<Price>| price.map(|price| price.spelled(model));
        same("least price", spelled(found), spelled(least))?;
    }
    Ok(valid)
}

// Prices of one model have the order of their bytes.
fn cheapest(old: Price, new: Price, model: Model) -> Price {
    if new.spelled(model) < old.spelled(model) {
        return new;
    }
    old
}

// Inputs of the handbook with what both programs write.
pub const SAMPLES: [(&str, &str, &str); 12] = [
    (
        "0100000064 010000000A 020001000100640001 0300000100029C4001 05",
        "1000 1001 1200 1100 1E0000000000061EE0 1F0000000000000006",
        "1000 1001 1200 1100 1E0000000A0000000000061EE0 1F0000000000000006",
    ),
    (
        "0100000064 010000000A 02000100010064003C 030000010002006401 05",
        "1000 1100 1001 1200 1E0000000000009CB3 1F0000000000000006",
        "1000 1001 1200 1100 1E0000000A000000000000EEC0 1F0000000000000006",
    ),
    (
        "0100FFFFFF 0100FFFFFF 0100FFFFFF 02000100010001FFFF 02010200010001FFFF 05",
        "FF040E0006",
        "1000 1001 1002 1200 1200 1E00000000FFFFFFFFFFFFFFFF 1F0000000000000008",
    ),
    (
        "0100000064 03000001000200FA00 04002D302E323530 05",
        "1000 1100 1E0000000000000064 1F0000000000000001",
        "1000 1100 1E000000000000000000000064 1F0000000000000001",
    ),
    (
        "0100000064 03000001000200FA00 04002D302E303030 05",
        "FF02140003",
        "FF02140003",
    ),
    (
        "0100000064 03000001000200FA00 04002D302E323531 05",
        "FF030A0003",
        "FF030A0003",
    ),
    ("05", "FF040B0001", "FF040B0001"),
    ("0100000064", "FF02180002", "FF02180002"),
    ("010000000a", "FF01150001", "FF01150001"),
    ("05 05", "FF02170002", "FF02170002"),
    ("0101000000 05", "FF03020001", "FF03020001"),
    ("0100000003 0100000004 05", "FF040D0003", "FF040D0003"),
];

// The reader and the search against the handbook's samples.
pub fn samples(search: &mut Search) -> Result<(), String> {
    for (lines, clock, fetches_first) in SAMPLES {
        let input = lines.replace(' ', "\n") + "\n";
        for (model, expected) in MODELS.into_iter().zip([clock, fetches_first]) {
            let came = match reader::read(input.as_bytes()) {
                Ok((question, line)) => output(search, &Parts::new(&question), line, model),
                Err(line) => line,
            };
            same("sample", expected.replace(' ', "\n") + "\n", came)
                .map_err(|why| format!("{input}{why}"))?;
        }
    }
    Ok(())
}
