use beamsatchel_model::{Request, TestAndWrite};

/// The bytes of a request.
pub fn encode(request: &Request) -> Vec<u8> {
    match request {
        Request::TestAndWrite(request) => encode_test_and_write(request),
        Request::Add(lease) => [&[2][..], &lease.to_record()].concat(),
        Request::Renew { token, expiry } => [&[3][..], token, &expiry.to_be_bytes()].concat(),
        Request::Cancel { token } => [&[4][..], token].concat(),
        Request::Read(reads) => {
            let mut bytes = vec![5, reads.len() as u8, 0, 0];
            for read in reads {
                bytes.extend(read.offset.to_be_bytes());
                bytes.extend(read.length.to_be_bytes());
            }
            bytes
        }
    }
}

fn encode_test_and_write(request: &TestAndWrite) -> Vec<u8> {
    let mut bytes = vec![1, request.tests.len() as u8, request.writes.len() as u8];
    bytes.push(u8::from(request.cut.is_some()));
    bytes.extend(request.cut.unwrap_or(0).to_be_bytes());
    bytes.extend(request.enabler);
    for test in &request.tests {
        bytes.extend(test.offset.to_be_bytes());
        bytes.extend(test.length.to_be_bytes());
        bytes.extend([test.opcode, 0]);
        bytes.extend((test.specimen.len() as u16).to_be_bytes());
    }
    for write in &request.writes {
        bytes.extend(write.offset.to_be_bytes());
        bytes.extend((write.data.len() as u32).to_be_bytes());
    }
    request
        .tests
        .iter()
        .for_each(|test| bytes.extend(&test.specimen));
    request
        .writes
        .iter()
        .for_each(|write| bytes.extend(&write.data));
    bytes
}
