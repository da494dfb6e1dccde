//! The write enabler and the tokens: equal only where every bit is, and never printed.

mod common;

use beamsatchel_node::{
    AddLease, CancelLease, CancelToken, Container, RenewLease, RenewalToken, TestAndWrite, View,
    WriteEnabler,
};
use common::{lease, rising, slot, ENABLER};

/// Every bit of one sort counts, alone and with others.
macro_rules! every_bit_counts {
    ($test:ident, $sort:ident) => {
        #[test]
        fn $test() {
            for bytes in [[0; 32], [0xFF; 32], rising(0x71)] {
                let secret = $sort::new(bytes);
                assert_eq!(secret, $sort::new(bytes));
                assert_eq!(secret.expose(), &bytes);
                for bit in 0..256 {
                    let mut other = bytes;
                    other[bit / 8] ^= 1 << (bit % 8);
                    assert_ne!(secret, $sort::new(other), "bit {bit}");
                    assert_ne!($sort::new(other), secret, "bit {bit}");
                    // The same difference once more elsewhere must not undo it.
                    other[(bit / 8 + 1) % 32] ^= 1 << (bit % 8);
                    assert_ne!(secret, $sort::new(other), "bit {bit} twice");
                }
                assert_ne!(secret, $sort::new(bytes.map(|byte| !byte)));
            }
        }
    };
}

every_bit_counts!(enablers_compare, WriteEnabler);
every_bit_counts!(renewal_tokens_compare, RenewalToken);
every_bit_counts!(cancel_tokens_compare, CancelToken);

#[test]
fn secrets_print_their_sort_alone() {
    let bytes = rising(0x71);
    let enabler = WriteEnabler::new(bytes);
    assert_eq!(format!("{enabler:?}"), "WriteEnabler(..)");
    let renewal = RenewalToken::new(bytes);
    assert_eq!(format!("{renewal:?}"), "RenewalToken(..)");
    let cancel = CancelToken::new(bytes);
    assert_eq!(format!("{cancel:?}"), "CancelToken(..)");
}

/// Two bytes of a secret side by side, as a list or in hex.
fn tells(text: &str, secret: &[u8; 32]) -> bool {
    let text = text.replace(['\n', ' '], "").to_lowercase();
    secret.windows(2).any(|pair| {
        let [left, right] = [pair[0], pair[1]];
        text.contains(&format!("{left},{right}"))
            || text.contains(&format!("{left:02x}{right:02x}"))
            || text.contains(&format!("{left:02x},{right:02x}"))
            || text.contains(&format!("{left:#x},{right:#x}"))
    })
}

/// Whatever holds a secret keeps it to itself, in one line or in many.
#[test]
fn nothing_prints_a_secret() {
    let bytes = slot(1000, &[1; 10]);
    let lease = lease(3);
    let slot = Container::open(&bytes[..]).unwrap();
    let add = AddLease(lease);
    let renew = RenewLease {
        token: lease.renewal,
        expiry: 1,
    };
    let cancel = CancelLease(lease.cancel);
    let write = TestAndWrite::new(ENABLER);
    let view = View::open(&bytes).unwrap();
    let leases: Vec<_> = view.leases().collect();
    for text in [
        format!("{slot:?} {view:?} {leases:?} {lease:?} {write:?} {add:?} {renew:?} {cancel:?}"),
        format!(
            "{slot:#?} {view:#?} {leases:#?} {lease:#?} {write:#?} {add:#?} {renew:#?} {cancel:#?}"
        ),
    ] {
        for secret in [
            ENABLER.expose(),
            lease.renewal.expose(),
            lease.cancel.expose(),
        ] {
            assert!(!tells(&text, secret), "{text}");
        }
    }
    // The search itself finds what is there.
    for text in [
        format!("{bytes:?}"),
        format!("{bytes:#?}"),
        format!("{bytes:02x?}"),
        format!("{bytes:#x?}"),
    ] {
        assert!(tells(&text, ENABLER.expose()));
    }
}
