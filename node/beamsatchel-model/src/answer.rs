/// The answer record.
#[derive(Clone, Copy, Debug, PartialEq, Eq)]
pub struct Answer {
    pub number: u32,
    pub node: [u8; 20],
    pub count: u64,
}

impl Answer {
    /// Outcome 0 with a count: reply bytes, or leases present after the request.
    pub fn done(count: usize) -> Answer {
        Answer {
            number: 0,
            node: [0; 20],
            count: count as u64,
        }
    }

    /// Outcome 8, the only refusal with a count: the reply is written.
    pub fn test_false(count: usize) -> Answer {
        Answer {
            number: 8,
            node: [0; 20],
            count: count as u64,
        }
    }

    /// Outcome 5, the only one with a node id: the one that accepted the write enabler.
    pub fn enabler_differs(node: [u8; 20]) -> Answer {
        Answer {
            number: 5,
            node,
            count: 0,
        }
    }

    /// Any other refusal.
    pub fn refused(number: u32) -> Answer {
        Answer {
            number,
            node: [0; 20],
            count: 0,
        }
    }
}
