//! Requests as bytes, for a slot with this node id and this enabler; and leases of which all bytes follow from the
//! owner.

pub const NODE: [u8; 20] = [7; 20];
pub const ENABLER: [u8; 32] = [0xEE; 32];

/// An offset, a length, an opcode and a specimen.
pub type Test<'a> = (i32, u32, u8, &'a [u8]);

/// An offset and new data.
pub type Write<'a> = (i32, &'a [u8]);

/// A kind 1 request.
pub fn test_and_write(tests: &[Test], writes: &[Write], cut: Option<u32>) -> Vec<u8> {
    let counts = [tests.len() as u8, writes.len() as u8];
    let mut request = vec![1, counts[0], counts[1], u8::from(cut.is_some())];
    request.extend(cut.unwrap_or(0).to_be_bytes());
    request.extend(ENABLER);
    for (offset, length, opcode, specimen) in tests {
        request.extend(offset.to_be_bytes());
        request.extend(length.to_be_bytes());
        request.extend([*opcode, 0]);
        request.extend((specimen.len() as u16).to_be_bytes());
    }
    for (offset, data) in writes {
        request.extend(offset.to_be_bytes());
        request.extend((data.len() as u32).to_be_bytes());
    }
    tests
        .iter()
        .for_each(|(.., specimen)| request.extend(*specimen));
    writes.iter().for_each(|(_, data)| request.extend(*data));
    request
}

/// A kind 1 request without tests.
pub fn write(writes: &[Write], cut: Option<u32>) -> Vec<u8> {
    test_and_write(&[], writes, cut)
}

/// A kind 1 request with one write.
pub fn write_at(offset: usize, data: &[u8], cut: Option<usize>) -> Vec<u8> {
    write(&[(offset as i32, data)], cut.map(|length| length as u32))
}

/// A kind 1 request with one write at the end.
pub fn append(data: &[u8]) -> Vec<u8> {
    write(&[(-1, data)], None)
}

/// A kind 2 request: the lease of an owner, with expiry 7 and tokens of bytes that are the owner's number.
pub fn add(owner: u8) -> Vec<u8> {
    let mut request = vec![2, 0, 0, 0, owner, 0, 0, 0, 7];
    request.extend([owner; 64]);
    request.extend(NODE);
    request
}

/// A kind 4 request for that lease.
pub fn cancel(owner: u8) -> Vec<u8> {
    [&[4][..], &[owner; 32]].concat()
}

/// A kind 5 request: offsets and lengths.
pub fn reads(entries: &[(i32, u32)]) -> Vec<u8> {
    let mut request = vec![5, entries.len() as u8, 0, 0];
    for (offset, length) in entries {
        request.extend(offset.to_be_bytes());
        request.extend(length.to_be_bytes());
    }
    request
}
