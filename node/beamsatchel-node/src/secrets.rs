//! The write enabler and the tokens of leases: secrets of 32 bytes each.

use std::fmt;
use std::hint::black_box;

/// The bytes of any secret. They are not printed.
#[derive(Clone, Copy)]
struct Secret([u8; 32]);

impl PartialEq for Secret {
    /// Takes as long wherever the two differ, so that nobody can guess byte by byte.
    fn eq(&self, other: &Secret) -> bool {
        let pairs = self.0.iter().zip(&other.0);
        let differing = pairs.fold(0, |bits, (left, right)| bits | (left ^ right));
        black_box(differing) == 0
    }
}

impl Eq for Secret {}

impl fmt::Debug for Secret {
    fn fmt(&self, f: &mut fmt::Formatter<'_>) -> fmt::Result {
        f.write_str("..")
    }
}

/// A sort of secret, which is not to be taken for another sort.
macro_rules! secret {
    ($(#[$documentation:meta])* $name:ident) => {
        $(#[$documentation])*
        #[derive(Clone, Copy, Debug, PartialEq, Eq)]
        pub struct $name(Secret);

        impl $name {
            /// The secret with these bytes.
            pub const fn new(bytes: [u8; 32]) -> $name {
                $name(Secret(bytes))
            }

            /// Its bytes, for those who must have them.
            pub const fn expose(&self) -> &[u8; 32] {
                &self.0 .0
            }
        }
    };
}

secret! {
    /// What a test-and-write must show: that of the container, which create was given.
    ///
    /// ```
    /// use beamsatchel_node::WriteEnabler;
    ///
    /// let enabler = WriteEnabler::new([1; 32]);
    /// assert_eq!(format!("{enabler:?}"), "WriteEnabler(..)");
    /// assert_eq!(enabler.expose(), &[1; 32]);
    /// ```
    WriteEnabler
}

secret! {
    /// What renews a lease. It does not cancel it.
    ///
    /// ```
    /// use beamsatchel_node::RenewalToken;
    ///
    /// let token = RenewalToken::new([1; 32]);
    /// assert_eq!(format!("{token:?}"), "RenewalToken(..)");
    /// assert_eq!(token.expose(), &[1; 32]);
    /// ```
    RenewalToken
}

secret! {
    /// What cancels a lease. It does not renew it.
    ///
    /// ```
    /// use beamsatchel_node::CancelToken;
    ///
    /// let token = CancelToken::new([1; 32]);
    /// assert_eq!(format!("{token:?}"), "CancelToken(..)");
    /// assert_eq!(token.expose(), &[1; 32]);
    /// ```
    CancelToken
}
