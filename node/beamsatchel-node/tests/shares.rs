//! Shares, bare and in a container: each number of the header, and each part as the very slice. And shares that are
//! written.

#![deny(unfulfilled_lint_expectations, unreachable_patterns)]

mod common;

use beamsatchel_node::layout::share::{Header, MDMF, SDMF, VERSION};
use beamsatchel_node::{
    ffi, Container, Edition, Error, NewEdition, NewShare, NewShareError, Part, Reason, Share,
};
use common::{bad_new_share, bad_share, bounds, check_share, new_share, rising, share, slot};

/// Each getter, for [`share`] that begins at a place of the bytes.
fn each_getter(share: Share<'_>, edition: Edition, bytes: &[u8], start: usize) {
    assert_eq!(share.edition(), edition);
    assert_eq!(share.sequence_number(), 0x0102_0304_0506_0708);
    assert_eq!(share.root_hash(), rising::<32>(0x09));
    assert_eq!((share.k(), share.n()), (3, 10));
    assert_eq!(share.data_length(), 0x0302);
    assert_eq!(share.verification_key(), [0xB1; 5]);
    assert_eq!(share.signature(), [0xB2; 7]);
    assert_eq!(share.hash_chain().len(), 136);
    assert_eq!(share.hash_chain()[..3], [0, 30, 0xB3]);
    assert_eq!(share.encrypted_private_key(), [0xB6; 11]);
    match edition {
        Edition::Sdmf => {
            assert_eq!(share.iv(), Some(rising(0x60)));
            assert_eq!((share.segment_size(), share.segments()), (0x0303, 1));
            assert_eq!(share.block_tree(), [0xB4; 32]);
            assert_eq!(share.share_data(), [0xB5; 257]);
            assert_eq!(share.spare(), []);
        }
        Edition::Mdmf => {
            assert_eq!(share.iv(), None);
            assert_eq!((share.segment_size(), share.segments()), (0x0120, 3));
            assert_eq!(share.block_tree(), [0xB4; 224]);
            assert_eq!(share.share_data(), [0xB5; 305]);
            assert_eq!(share.spare(), [0xB7; 9]);
        }
    }

    // The caller's bytes, not equal ones elsewhere.
    let by_name = [
        (Part::VerificationKey, share.verification_key()),
        (Part::Signature, share.signature()),
        (Part::HashChain, share.hash_chain()),
        (Part::BlockTree, share.block_tree()),
        (Part::ShareData, share.share_data()),
        (Part::EncryptedPrivateKey, share.encrypted_private_key()),
        (Part::Spare, share.spare()),
    ];
    for (name, part) in by_name {
        assert_eq!(share.part(name).as_ptr_range(), part.as_ptr_range());
    }
    let bounds = bounds(edition);
    assert_eq!(share.parts().len(), edition.parts().len());
    for (place, (name, part)) in share.parts().enumerate() {
        assert_eq!(name, edition.parts()[place]);
        assert!(by_name.contains(&(name, part)));
        let place = start + bounds[place]..start + bounds[place + 1];
        assert_eq!(part.as_ptr_range(), bytes[place].as_ptr_range());
    }
    let all = &bytes[start..start + bounds[7]];
    assert_eq!(share.as_bytes().as_ptr_range(), all.as_ptr_range());
}

#[test]
fn a_bare_share() {
    for edition in Edition::ALL {
        let bytes = share(edition);
        each_getter(Share::check(&bytes).unwrap(), edition, &bytes, 0);
    }
}

#[test]
fn a_share_in_a_container() {
    for edition in Edition::ALL {
        let bytes = slot(2000, &share(edition));
        each_getter(Share::in_container(&bytes).unwrap(), edition, &bytes, 468);
        let opened = Container::open(&bytes[..]).unwrap();
        each_getter(opened.share().unwrap(), edition, &bytes, 468);
    }
}

/// A share without data, of k = N = 1, with keys and signature of a byte.
fn without_data(edition: NewEdition<'static>) -> NewShare<'static> {
    NewShare {
        k: 1,
        n: 1,
        data_length: 0,
        verification_key: b"K",
        signature: b"S",
        hash_chain: b"",
        block_tree: b"",
        share_data: b"",
        encrypted_private_key: b"P",
        edition,
        ..new_share(Edition::Sdmf)
    }
}

#[test]
fn segments_are_counted() {
    let iv = [0x49; 16];
    let mut space = [0; 1000];
    let written = without_data(NewEdition::Sdmf { iv }).write(&mut space);
    assert_eq!(written.unwrap().segments(), 0);
    let spare = b"";
    for (segment_size, data_length, segments, tree) in [
        (0, 0, 0, 0),
        (7, 0, 0, 0),
        (7, 1, 1, 32),
        (7, 7, 1, 32),
        (7, 8, 2, 96),
        (7, 14, 2, 96),
        (7, 15, 3, 224),
        (u64::MAX, 15, 1, 32),
        (1, 5, 5, 480),
    ] {
        let edition = NewEdition::Mdmf {
            segment_size,
            spare,
        };
        let share = NewShare {
            data_length,
            block_tree: &[7; 1000][..tree],
            share_data: &[8; 1000][..(16 * segments + data_length) as usize],
            ..without_data(edition)
        };
        let written = share.write(&mut space).unwrap();
        assert_eq!(written.segments(), segments, "{share:?}");
        assert_eq!(written.segment_size(), segment_size);
    }
}

/// Every field, as the tables of docs/RULES.md and of MDMF have them.
#[test]
fn headers_have_their_fields() {
    let fields = |header: &Header| {
        let numbers = [
            header.k,
            header.n,
            header.segment_size,
            header.data_length,
            header.len,
        ];
        let offsets: Vec<_> = header.offsets.iter().map(|it| (it.at, it.len)).collect();
        (header.iv, numbers, offsets)
    };
    let four_and_eight = [(75, 4), (79, 4), (83, 4), (87, 4), (91, 8), (99, 8)];
    assert_eq!(
        fields(&SDMF),
        (Some(41), [57, 58, 59, 67, 107], four_and_eight.to_vec())
    );
    let eight = [59, 67, 75, 83, 91, 99, 107, 115].map(|at| (at, 8));
    assert_eq!(fields(&MDMF), (None, [41, 42, 43, 51, 123], eight.to_vec()));
    for edition in Edition::ALL {
        // The last offsets are those of the last parts and the end. Each says what the check says.
        let (header, share) = (edition.header(), share(edition));
        let named: Vec<Part> = header.offsets.iter().filter_map(|it| it.part).collect();
        assert!(edition.parts().ends_with(&named));
        let bounds = &bounds(edition)[..=edition.parts().len()];
        for (field, bound) in header.offsets.iter().rev().zip(bounds.iter().rev()) {
            let bytes = &share[field.at..field.at + field.len];
            let there = bytes
                .iter()
                .fold(0, |at, byte| at << 8 | usize::from(*byte));
            assert_eq!(there, *bound, "{edition}, {field:?}");
        }
        assert_eq!(share[VERSION], edition.version());
    }
}

#[test]
fn editions_have_versions_and_names() {
    assert_eq!(Edition::ALL, [Edition::Sdmf, Edition::Mdmf]);
    assert_eq!(Edition::ALL.map(Edition::version), [0, 1]);
    assert_eq!(Edition::ALL.map(|it| it.to_string()), ["SDMF", "MDMF"]);
    assert_eq!(Edition::Sdmf.header(), &SDMF);
    assert_eq!(Edition::Mdmf.header(), &MDMF);
    assert_eq!(Edition::from_version(0), Some(Edition::Sdmf));
    assert_eq!(Edition::from_version(1), Some(Edition::Mdmf));
    for version in 2..=255 {
        assert_eq!(Edition::from_version(version), None);
    }
    let names = |edition: Edition| edition.parts().iter().map(Part::to_string).collect();
    let sdmf: Vec<String> = names(Edition::Sdmf);
    assert_eq!(
        sdmf,
        [
            "verification key",
            "signature",
            "hash chain",
            "block tree",
            "share data",
            "encrypted private key"
        ]
    );
    let mdmf: Vec<String> = names(Edition::Mdmf);
    assert_eq!(
        mdmf,
        [
            "encrypted private key",
            "hash chain",
            "signature",
            "verification key",
            "spare",
            "share data",
            "block tree"
        ]
    );
    assert_eq!(format!("{:<7}|", Part::Spare), "spare  |");
}

#[test]
fn each_refusal_has_its_number() {
    for (edition, number) in each_refusal() {
        // There is no share of a version that no edition has.
        let told = match number {
            22 => 0,
            _ => u32::from(edition.version()),
        };
        let bytes = bad_share(edition, number);
        let refusal = Share::check(&bytes).unwrap_err();
        assert_eq!(refusal.reason.number(), number);
        assert_eq!(refusal.accepted_by, None);
        let raw = ffi::check_share(&bytes);
        assert_eq!((raw.edition, raw.bounds), (told, [0; 8]));

        let bytes = slot(2000, &bytes);
        let refusal = Share::in_container(&bytes).unwrap_err();
        assert_eq!(refusal.reason.number(), number);
        let raw = ffi::check_container(&bytes);
        assert_eq!((raw.edition, raw.bounds), (told, [0; 8]));
    }
    // The container is judged first.
    for edition in Edition::ALL {
        let refusal = Share::in_container(&share(edition)).unwrap_err();
        assert_eq!(refusal.reason, Reason::NotWellFormed);
        let refusal = Share::in_container(&share(edition)[..200]).unwrap_err();
        assert_eq!(refusal.reason, Reason::BufferLength);
        let mut container = slot(2000, &share(edition));
        container[0] ^= 1;
        let raw = ffi::check_container(&container);
        assert_eq!((raw.number, raw.edition, raw.bounds), (2, 0, [0; 8]));
    }
}

fn each_refusal() -> impl Iterator<Item = (Edition, u32)> {
    let editions = Edition::ALL.into_iter();
    editions.flat_map(|edition| (21..=29).map(move |number| (edition, number)))
}

/// Every version at every length around both headers.
#[test]
fn the_header_is_that_of_the_version() {
    for version in 0..=255 {
        for length in 0..=130 {
            let mut bytes = vec![0; length];
            bytes.iter_mut().take(1).for_each(|byte| *byte = version);
            let number = match (version, length) {
                (_, ..107) => 21,
                // With k = 0.
                (0, _) => 23,
                (1, ..123) => 21,
                (1, _) => 23,
                _ => 22,
            };
            let edition = u32::from(version == 1 && length > 0);
            let checked = check_share(&bytes);
            assert_eq!((checked.number, checked.edition), (number, edition));
        }
    }
}

#[test]
fn shares_are_equal_where_their_bytes_are() {
    for edition in Edition::ALL {
        let (bytes, again) = (share(edition), share(edition));
        let first = Share::check(&bytes).unwrap();
        assert_eq!(first, Share::check(&again).unwrap());
        let (mut header, mut part) = (share(edition), share(edition));
        header[9] ^= 1;
        *part.last_mut().unwrap() ^= 1;
        assert_ne!(first, Share::check(&header).unwrap());
        assert_ne!(first, Share::check(&part).unwrap());
        // Where it lies is no part of it.
        let container = slot(2000, &bytes);
        assert_eq!(first, Share::in_container(&container).unwrap());
    }
}

#[test]
fn bytes_and_parts_outlive_the_share() {
    fn of(bytes: &[u8]) -> (&[u8], impl Iterator<Item = (Part, &[u8])>) {
        let share = Share::check(bytes).unwrap();
        (share.as_bytes(), share.parts())
    }
    for edition in Edition::ALL {
        let bytes = share(edition);
        let (all, parts) = of(&bytes);
        let parts: Vec<&[u8]> = parts.map(|(_, part)| part).collect();
        assert_eq!(all, bytes);
        assert_eq!(parts.concat(), bytes[edition.header().len..]);
    }
}

#[test]
fn debug_tells_numbers_and_lengths() {
    let words = |edition| format!("{:?}", Share::check(&share(edition)).unwrap());
    assert_eq!(
        words(Edition::Sdmf),
        "Share { edition: Sdmf, sequence_number: 72623859790382856, k: 3, n: 10, segment_size: 771, \
         data_length: 770, part_lens: [5, 7, 136, 32, 257, 11], .. }"
    );
    assert_eq!(
        words(Edition::Mdmf),
        "Share { edition: Mdmf, sequence_number: 72623859790382856, k: 3, n: 10, segment_size: 288, \
         data_length: 770, part_lens: [11, 136, 7, 5, 9, 305, 224], .. }"
    );
}

#[test]
fn a_share_is_written_from_numbers_and_parts() {
    for edition in Edition::ALL {
        let share = share(edition);
        for behind in [0, 1, 40] {
            let mut space = vec![0xEE; share.len() + behind];
            let start = space.as_ptr();
            let written = new_share(edition).write(&mut space).unwrap();
            assert_eq!(Share::check(written.as_bytes()), Ok(written));
            // The caller's space, not equal bytes elsewhere.
            assert_eq!(written.as_bytes().as_ptr(), start);
            each_getter(written, edition, written.as_bytes(), 0);
            assert_eq!(space[..share.len()], share);
            assert_eq!(space[share.len()..], vec![0xEE; behind]);
        }
    }
}

#[test]
fn a_share_says_how_much_space_it_takes() {
    for edition in Edition::ALL {
        let header = bounds(edition)[0];
        let needed = share(edition).len();
        assert_eq!(new_share(edition).written_len(), needed);
        let space = &mut [0xEE; 1000];
        for short in [0, 1, header - 1, header, needed - 1] {
            let refused = new_share(edition).write(&mut space[..short]);
            assert_eq!(refused, Err(NewShareError::Space));
        }
        assert_eq!(*space, [0xEE; 1000]);
        // Each part counts, also where the share would be refused.
        let long = [7; 50_000];
        let iv = [0; 16];
        let counted = NewShare {
            k: 0,
            verification_key: &long[..1],
            signature: &long[..20],
            hash_chain: &long[..300],
            block_tree: &long[..4000],
            share_data: &long,
            encrypted_private_key: &[],
            edition: match edition {
                Edition::Sdmf => NewEdition::Sdmf { iv },
                Edition::Mdmf => NewEdition::Mdmf {
                    segment_size: 0,
                    spare: &long[..5],
                },
            },
            ..new_share(edition)
        };
        let (order, spare) = match edition {
            Edition::Sdmf => (vec![1, 20, 300, 4000, 50_000, 0], 0),
            Edition::Mdmf => (vec![0, 300, 20, 1, 5, 50_000, 4000], 5),
        };
        assert_eq!(counted.written_len(), header + 54_321 + spare);
        let lengths: Vec<usize> = counted.parts().map(|(_, part)| part.len()).collect();
        assert_eq!(lengths, order);
        assert!(counted
            .parts()
            .map(|(name, _)| name)
            .eq(edition.parts().iter().copied()));
        assert_eq!(counted.part(Part::Spare).len(), spare);
    }
}

/// The reasons with their numbers and what they say.
const NOT_WRITTEN: [(NewShareError, u32, &str); 8] = [
    (NewShareError::Space, 7, "The space is shorter than the share."),
    (NewShareError::Coding, 23, "The share's k is 0 or above its N."),
    (
        NewShareError::SegmentSize,
        24,
        "The share's segment size would be 2^64 or more (SDMF), or is no multiple of k, or 0 with data (MDMF).",
    ),
    (
        NewShareError::Offsets,
        25,
        "The share's verification key, signature or private key is empty, \
         or an offset does not fit its field (SDMF).",
    ),
    (
        NewShareError::HashChain,
        26,
        "The hash chain is not c entries of 34 bytes (c least with 2^c at least N), \
         or a node number repeats or is 2 * 2^c - 1 or more.",
    ),
    (
        NewShareError::BlockTree,
        27,
        "The block tree is not 32 bytes long, nor empty with data length 0 (SDMF), \
         or not 32(2 * 2^d - 1), d least with 2^d at least the number of segments, nor empty without any (MDMF).",
    ),
    (
        NewShareError::ShareData,
        28,
        "The share data is not data length / k bytes long, rounded up, and 16 more for each segment (MDMF).",
    ),
    (
        NewShareError::SequenceNumber,
        29,
        "The share's sequence number is 2^64-1, which has no successor.",
    ),
];

#[test]
fn each_reason_not_to_write_has_its_number_and_sentence() {
    assert_eq!(NewShareError::ALL, NOT_WRITTEN.map(|(error, ..)| error));
    for (error, number, sentence) in NOT_WRITTEN {
        assert_eq!((error.number(), error.sentence()), (number, sentence));
        assert_eq!(NewShareError::from_number(number), Some(error));
        assert_eq!(error.to_string(), format!("{number}: {sentence}"));
        let error = Error::from(error);
        assert_eq!(error.to_string(), format!("{number}: {sentence}"));
    }
    // 263 is 7 in its last byte.
    for number in [0, 3, 6, 8, 21, 22, 30, 263, u32::MAX] {
        assert_eq!(NewShareError::from_number(number), None);
    }
}

#[test]
fn what_is_not_written_leaves_the_space() {
    for edition in Edition::ALL {
        for (error, number, _) in &NOT_WRITTEN[1..] {
            let mut space = [0xEE; 1000];
            let bad = bad_new_share(edition, *number);
            assert_eq!(bad.write(&mut space), Err(*error));
            // With too little space it is not told.
            let short = &mut space[..bad.written_len() - 1];
            assert_eq!(bad.write(short), Err(NewShareError::Space));
            assert_eq!(space, [0xEE; 1000]);
        }
    }
}

#[test]
fn a_checked_share_is_written_again() {
    for edition in Edition::ALL {
        let (bytes, container) = (share(edition), slot(2000, &share(edition)));
        for checked in [Share::check(&bytes), Share::in_container(&container)] {
            let again = NewShare::from(checked.unwrap());
            assert_eq!(again, new_share(edition));
            assert_eq!(again.edition.edition(), edition);
            let mut space = vec![0xEE; bytes.len() + 45];
            assert_eq!(again.write(&mut space).unwrap(), checked.unwrap());
            let (written, behind) = space.split_at(bytes.len());
            assert_eq!((written, behind), (&bytes[..], &[0xEE; 45][..]));
        }
    }
}

#[test]
fn debug_of_a_new_share_tells_numbers_and_lengths() {
    let [sdmf, mdmf] = Edition::ALL.map(new_share);
    assert_eq!(
        format!("{sdmf:?}"),
        "NewShare { edition: Sdmf { .. }, sequence_number: 72623859790382856, k: 3, n: 10, data_length: 770, \
         part_lens: [5, 7, 136, 32, 257, 11], .. }"
    );
    assert_eq!(
        format!("{mdmf:?}"),
        "NewShare { edition: Mdmf { segment_size: 288, .. }, sequence_number: 72623859790382856, k: 3, n: 10, \
         data_length: 770, part_lens: [11, 136, 7, 5, 9, 305, 224], .. }"
    );
    assert_eq!(
        format!("{:?}", sdmf.arguments()),
        "ShareArguments { edition: Sdmf { iv_len: 16, .. }, sequence_number: 72623859790382856, root_hash_len: 32, \
         k: 3, n: 10, data_length: 770, verification_key_len: 5, signature_len: 7, hash_chain_len: 136, \
         block_tree_len: 32, share_data_len: 257, encrypted_private_key_len: 11, .. }"
    );
    assert_eq!(
        format!("{:?}", mdmf.arguments()),
        "ShareArguments { edition: Mdmf { segment_size: 288, spare_len: 9, .. }, \
         sequence_number: 72623859790382856, root_hash_len: 32, k: 3, n: 10, data_length: 770, \
         verification_key_len: 5, signature_len: 7, hash_chain_len: 136, block_tree_len: 224, share_data_len: 305, \
         encrypted_private_key_len: 11, .. }"
    );
}

/// Each statement drops what must not be dropped, which the compiler has to say.
#[test]
fn dropping_is_warned_of() {
    #[expect(unused_must_use)]
    {
        new_share(Edition::Sdmf);
    }
    #[expect(unused_must_use)]
    {
        ffi::write_share(&new_share(Edition::Sdmf).arguments(), &mut []);
    }
}

/// More reasons may come: the last arm would be unreachable if that were not announced.
#[test]
fn more_may_come() {
    for (error, ..) in NOT_WRITTEN {
        match error {
            NewShareError::Space
            | NewShareError::Coding
            | NewShareError::SegmentSize
            | NewShareError::Offsets
            | NewShareError::HashChain
            | NewShareError::BlockTree
            | NewShareError::ShareData
            | NewShareError::SequenceNumber => {}
            _ => unreachable!(),
        }
    }
}
