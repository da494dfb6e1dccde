use super::{holding, run_case, write};
use crate::checker::Checker;
use crate::requests;
use crate::rng::Rng;
use beamsatchel_model::{Read, Request, Test, TestAndWrite};

/// Reply space of exactly the reply, one byte less, one more and none, for 0 to 16 entries inside the
/// data, across its end and past it, on outcomes 0 and 8.
pub fn run(rng: &mut Rng, checker: &mut Checker) {
    let data = rng.letters(100);
    let container = holding(700, data);
    for entries in 0..=16 {
        for _ in 0..20 {
            let reads: Vec<Read> = (0..entries)
                .map(|_| Read {
                    offset: rng.below(130) as i32,
                    length: rng.below(80) as u32,
                })
                .collect();
            let tests = |opcode| TestAndWrite {
                tests: reads
                    .iter()
                    .map(|read| Test {
                        offset: read.offset,
                        length: read.length,
                        opcode,
                        specimen: Vec::new(),
                    })
                    .collect(),
                ..write(3, b"Z".to_vec())
            };
            for request in [
                Request::Read(reads.clone()),
                Request::TestAndWrite(tests(5)),
                Request::TestAndWrite(tests(1)),
            ] {
                let length = requests::reply_length(&request, &container);
                let bytes = requests::encode(&request);
                for space in [length.saturating_sub(1), length, length + 1, 0, 4 * entries] {
                    let number = run_case(checker, &container.to_bytes(), bytes.clone(), space);
                    assert_eq!(number == 7, space < length);
                }
            }
        }
    }
}
