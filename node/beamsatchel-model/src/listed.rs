//! The never-written list beside a container: one request on both.

use super::bytes::u64_at;
use super::{apply, place, Answer, Container, NeverWritten, Request, LENGTHS};

/// Applies a request to a container and the list that is kept for it. Only a done request changes the container, and of
/// these only a test-and-write the list.
pub fn apply_listed(
    buffer: &mut [u8],
    list: &mut [u8],
    request: &[u8],
    reply: &mut [u8],
) -> Answer {
    // 1, 2: about the buffer alone.
    if !LENGTHS.contains(&buffer.len()) {
        return Answer::refused(1);
    }
    let Some(container) = Container::from_bytes(buffer) else {
        return Answer::refused(2);
    };
    // 16: right behind them, whatever the request is.
    let Some(unwritten) = NeverWritten::from_bytes(list, &container.data) else {
        return Answer::refused(16);
    };
    // 3 to 11: as without a list. Nothing is changed yet, since 13 may follow.
    let (mut buffer_after, mut reply_after) = (buffer.to_vec(), reply.to_vec());
    let answer = apply(&mut buffer_after, request, &mut reply_after);
    if let (0, Some(Request::TestAndWrite(asked))) = (answer.number, Request::from_bytes(request)) {
        let size = container.data.len() as u64;
        let places = place(&asked.writes, size).expect("or it was refused with 4");
        let unwritten = unwritten.after(&places, u64_at(&buffer_after, 84));
        // 13: more rows than a list has. Sizes and rows on the way do not count.
        let Some(list_after) = unwritten.to_bytes() else {
            return Answer::refused(13);
        };
        list.copy_from_slice(&list_after);
    }
    buffer.copy_from_slice(&buffer_after);
    reply.copy_from_slice(&reply_after);
    answer
}

/// The same with container and list lent for reading only: what is no read counts as the empty request.
pub fn read_listed(buffer: &[u8], list: &[u8], request: &[u8], reply: &mut [u8]) -> Answer {
    let request = match Request::from_bytes(request) {
        Some(Request::Read(_)) => request,
        _ => &[],
    };
    apply_listed(&mut buffer.to_vec(), &mut list.to_vec(), request, reply)
}

#[cfg(test)]
mod tests {
    use super::*;
    use crate::create;

    const EMPTY: [u8; 2_052] = [0; 2_052];

    fn fresh(length: usize) -> Vec<u8> {
        let mut buffer = vec![0; length];
        assert_eq!(create(&mut buffer, &[7; 20], &[0xEE; 32]).number, 0);
        buffer
    }

    /// A test-and-write without tests.
    fn write(writes: &[(i32, &[u8])], cut: Option<u32>) -> Vec<u8> {
        let mut request = vec![1, 0, writes.len() as u8, u8::from(cut.is_some())];
        request.extend(cut.unwrap_or(0).to_be_bytes());
        request.extend([0xEE; 32]);
        for (offset, data) in writes {
            request.extend(offset.to_be_bytes());
            request.extend((data.len() as u32).to_be_bytes());
        }
        writes.iter().for_each(|(_, data)| request.extend(*data));
        request
    }

    #[test]
    fn p6_lists_all_that_is_kept() {
        let request = write(&[(2_147_483_647, b"A")], Some(10));
        let (mut buffer, mut list) = (fresh(482), EMPTY);
        assert_eq!(
            apply_listed(&mut buffer, &mut list, &request, &mut []).number,
            0
        );
        assert_eq!(list[..12], [0, 0, 0, 1, 0, 0, 0, 0, 0, 0, 0, 10]);
        assert!(list[12..].iter().all(|byte| *byte == 0));
        // No room comes first, and changes nothing.
        let (mut buffer, mut list) = (fresh(481), EMPTY);
        assert_eq!(
            apply_listed(&mut buffer, &mut list, &request, &mut []).number,
            11
        );
        assert_eq!((buffer, list), (fresh(481), EMPTY));
    }

    #[test]
    fn a_bad_list_comes_right_after_the_container() {
        let mut bad = EMPTY;
        bad[2_051] = 1;
        for (length, spoiled, list, number) in [
            (471, false, &bad[..], 1),
            (500, true, &bad, 2),
            (500, false, &bad, 16),
            (500, false, &bad[..2_051], 16),
            (500, false, &EMPTY, 3),
        ] {
            let mut buffer = fresh(length.max(472));
            buffer.truncate(length);
            buffer[0] ^= u8::from(spoiled);
            let mut list = list.to_vec();
            for request in [&[][..], &[6], &[1; 40]] {
                let answer = apply_listed(&mut buffer, &mut list, request, &mut []);
                assert_eq!(answer, Answer::refused(number));
                let answer = read_listed(&buffer, &list, request, &mut []);
                assert_eq!(answer, Answer::refused(number));
            }
        }
    }

    #[test]
    fn row_257_is_refused_and_nothing_changes() {
        let (mut buffer, mut list) = (fresh(1_200), EMPTY);
        for request in 0..16 {
            let gaps: Vec<(i32, &[u8])> = (0..16)
                .map(|gap| (2 * (16 * request + gap) + 1, &b"A"[..]))
                .collect();
            let answer = apply_listed(&mut buffer, &mut list, &write(&gaps, None), &mut []);
            assert_eq!(answer.number, 0);
        }
        assert_eq!(list[..4], [0, 0, 1, 0]);
        let before = (buffer.clone(), list);
        let one_more = write(&[(513, b"A")], None);
        let answer = apply_listed(&mut buffer, &mut list, &one_more, &mut []);
        assert_eq!(answer, Answer::refused(13));
        assert_eq!((&buffer, &list), (&before.0, &before.1));
        let one_less_too = write(&[(513, b"A"), (0, b"A")], None);
        let answer = apply_listed(&mut buffer, &mut list, &one_less_too, &mut []);
        assert_eq!((answer.number, &list[..4]), (0, &[0, 0, 1, 0][..]));
    }

    #[test]
    fn only_a_read_is_answered_on_what_is_lent_for_reading() {
        let buffer = fresh(500);
        for (request, number) in [
            (vec![5, 0, 0, 0], 0),
            (vec![5, 1, 0, 0, 0, 0, 0, 0, 0, 0, 0, 1], 7),
            (vec![5, 1, 0, 0, 0xFF, 0xFF, 0xFF, 0xFE, 0, 0, 0, 1], 4),
            (vec![5, 0, 0, 1], 3),
            (write(&[], None), 3),
            (vec![4; 33], 3),
        ] {
            assert_eq!(
                read_listed(&buffer, &EMPTY, &request, &mut []).number,
                number
            );
        }
    }
}
