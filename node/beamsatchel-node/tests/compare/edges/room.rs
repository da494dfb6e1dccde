use super::{fresh, run_case, write};
use crate::checker::Checker;
use crate::containers::MAX_LENGTH;
use crate::requests;
use beamsatchel_model::{Request, TestAndWrite, LONGEST_REQUEST};

/// Data up to the buffer's end and one byte past it: by one write, past a gap, with a cut.
pub fn run(checker: &mut Checker) {
    for length in [472, 473, 474, 481, 482, 600, MAX_LENGTH - 1, MAX_LENGTH] {
        let most = length as i64 - 472;
        for last in [most - 1, most, most + 1, most + 2] {
            // What one request can write.
            if !(1..=LONGEST_REQUEST as i64 - 48).contains(&last) {
                continue;
            }
            let full = write(0, vec![b'A'; last as usize]);
            let after_gap = write(last as i32 - 1, vec![b'A']);
            let far = TestAndWrite {
                cut: Some(last as u32),
                ..write(i32::MAX, vec![b'A'])
            };
            for request in [full, after_gap, far] {
                let request = requests::encode(&Request::TestAndWrite(request));
                let number = run_case(checker, &fresh(length).to_bytes(), request, 0);
                assert_eq!(number, if last <= most { 0 } else { 11 });
            }
        }
    }
}
