//! Requests, byte by byte: the five kinds, taken apart. `None` is outcome 3.

use super::bytes::array_at;
use super::Lease;

/// The most bytes of a request.
pub const LONGEST_REQUEST: usize = 65_536;

#[derive(Clone, Debug, PartialEq, Eq)]
pub enum Request {
    TestAndWrite(TestAndWrite),
    Add(Lease),
    Renew { token: [u8; 32], expiry: u32 },
    Cancel { token: [u8; 32] },
    Read(Vec<Read>),
}

#[derive(Clone, Debug, PartialEq, Eq)]
pub struct TestAndWrite {
    pub enabler: [u8; 32],
    pub tests: Vec<Test>,
    pub writes: Vec<Write>,
    /// The new length, with the cut flag set.
    pub cut: Option<u32>,
}

#[derive(Clone, Debug, PartialEq, Eq)]
pub struct Test {
    pub offset: i32,
    pub length: u32,
    /// 1 to 6: lt, le, eq, ne, ge, gt.
    pub opcode: u8,
    pub specimen: Vec<u8>,
}

#[derive(Clone, Debug, PartialEq, Eq)]
pub struct Write {
    pub offset: i32,
    pub data: Vec<u8>,
}

#[derive(Clone, Debug, PartialEq, Eq)]
pub struct Read {
    pub offset: i32,
    pub length: u32,
}

impl Request {
    pub fn from_bytes(request: &[u8]) -> Option<Request> {
        if request.len() > LONGEST_REQUEST {
            return None;
        }
        let mut rest = Rest(request);
        let parsed = match rest.byte()? {
            1 => Request::TestAndWrite(rest.test_and_write()?),
            2 => Request::Add(rest.owned_lease()?),
            3 => Request::Renew {
                token: rest.array()?,
                expiry: rest.u32()?,
            },
            4 => Request::Cancel {
                token: rest.array()?,
            },
            5 => Request::Read(rest.reads()?),
            _ => return None,
        };
        // Nothing follows the last body.
        rest.0.is_empty().then_some(parsed)
    }
}

/// The bytes of a request that are not taken yet.
struct Rest<'a>(&'a [u8]);

impl<'a> Rest<'a> {
    /// Kind 1: two counts, the cut, the enabler; a table of tests and one of writes; then the
    /// bodies in the order of the entries. Without the flag there is no new length.
    fn test_and_write(&mut self) -> Option<TestAndWrite> {
        let [test_count, write_count, flag] = self.array()?;
        let new_length = self.u32()?;
        let cut = match (flag, new_length) {
            (0, 0) => None,
            (1, _) => Some(new_length),
            _ => return None,
        };
        let enabler = self.array()?;
        if test_count > 16 || write_count > 16 {
            return None;
        }
        let mut tests = Vec::new();
        let mut specimen_lengths = Vec::new();
        for _ in 0..test_count {
            // A test names its specimen by the length alone.
            let (offset, length) = (self.i32()?, self.u32()?);
            let [opcode, zero] = self.array()?;
            if !(1..=6).contains(&opcode) || zero != 0 {
                return None;
            }
            specimen_lengths.push(self.u16()?);
            tests.push(Test {
                offset,
                length,
                opcode,
                specimen: Vec::new(),
            });
        }
        let mut writes = Vec::new();
        let mut data_lengths = Vec::new();
        for _ in 0..write_count {
            // So does a write its data.
            writes.push(Write {
                offset: self.i32()?,
                data: Vec::new(),
            });
            data_lengths.push(self.u32()?);
        }
        for (test, length) in tests.iter_mut().zip(specimen_lengths) {
            test.specimen = self.take(usize::from(length))?.to_vec();
        }
        for (write, length) in writes.iter_mut().zip(data_lengths) {
            write.data = self.take(length as usize)?.to_vec();
        }
        Some(TestAndWrite {
            enabler,
            tests,
            writes,
            cut,
        })
    }

    /// Kind 2: a lease record, which must have an owner.
    fn owned_lease(&mut self) -> Option<Lease> {
        let lease = Lease::from_record(self.take(92)?);
        (lease.owner != 0).then_some(lease)
    }

    /// Kind 5: a count, two bytes that must be zero, and the table of reads.
    fn reads(&mut self) -> Option<Vec<Read>> {
        let [count, zero, another] = self.array()?;
        if count > 16 || zero != 0 || another != 0 {
            return None;
        }
        (0..count)
            .map(|_| {
                Some(Read {
                    offset: self.i32()?,
                    length: self.u32()?,
                })
            })
            .collect()
    }

    fn take(&mut self, count: usize) -> Option<&'a [u8]> {
        let (taken, rest) = self.0.split_at_checked(count)?;
        self.0 = rest;
        Some(taken)
    }

    fn array<const N: usize>(&mut self) -> Option<[u8; N]> {
        Some(array_at(self.take(N)?, 0))
    }

    fn byte(&mut self) -> Option<u8> {
        Some(self.take(1)?[0])
    }

    fn u16(&mut self) -> Option<u16> {
        Some(u16::from_be_bytes(self.array()?))
    }

    fn u32(&mut self) -> Option<u32> {
        Some(u32::from_be_bytes(self.array()?))
    }

    fn i32(&mut self) -> Option<i32> {
        Some(i32::from_be_bytes(self.array()?))
    }
}
