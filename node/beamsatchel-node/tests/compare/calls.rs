//! What was called, and which outcomes it can have.

use crate::rng::Rng;
use beamsatchel_node::Edition;

/// What a request asks for, by its first byte.
#[derive(Clone, Copy, Debug, PartialEq, Eq, PartialOrd, Ord)]
pub enum Kind {
    TestAndWrite,
    Add,
    Renew,
    Cancel,
    Read,
    Unknown,
}

impl Kind {
    pub const ALL: [Kind; 6] = [
        Kind::TestAndWrite,
        Kind::Add,
        Kind::Renew,
        Kind::Cancel,
        Kind::Read,
        Kind::Unknown,
    ];

    pub fn of_request(request: &[u8]) -> Kind {
        match request.first() {
            Some(1) => Kind::TestAndWrite,
            Some(2) => Kind::Add,
            Some(3) => Kind::Renew,
            Some(4) => Kind::Cancel,
            Some(5) => Kind::Read,
            _ => Kind::Unknown,
        }
    }
}

/// What was called: a request by its kind, the check of a share by the edition that it tells.
#[derive(Clone, Copy, Debug, PartialEq, Eq, PartialOrd, Ord)]
pub enum Call {
    Create,
    Apply(Kind),
    /// Beside a never-written list.
    ApplyListed(Kind),
    /// Beside one, and both lent for reading only.
    ReadListed(Kind),
    BareShare(Edition),
    ShareInContainer(Edition),
    WriteShare(Edition),
}

impl Call {
    pub fn all() -> Vec<Call> {
        let of_kinds = [Call::Apply, Call::ApplyListed, Call::ReadListed]
            .into_iter()
            .flat_map(|call| Kind::ALL.map(call));
        let of_editions = [Call::BareShare, Call::ShareInContainer, Call::WriteShare]
            .into_iter()
            .flat_map(|call| Edition::ALL.map(call));
        let create = std::iter::once(Call::Create);
        create.chain(of_kinds).chain(of_editions).collect()
    }

    /// Those that look at the data and reply with pieces of it.
    pub const LOOKING: [Call; 2] = [Call::Apply(Kind::TestAndWrite), Call::Apply(Kind::Read)];

    /// The outcomes that it can have, in the order in which they are judged, by the last column of the outcome table
    /// and the rules for lists and shares. Where no share is looked at, or one of another version, no edition is told
    /// but SDMF.
    pub fn outcomes(self) -> &'static [u32] {
        match self {
            Call::Create => &[0, 1, 3, 12],
            Call::Apply(kind) => match kind {
                Kind::TestAndWrite => &[0, 1, 2, 3, 4, 5, 7, 8, 11],
                Kind::Add => &[0, 1, 2, 3, 10, 11],
                Kind::Renew | Kind::Cancel => &[0, 1, 2, 3, 9],
                Kind::Read => &[0, 1, 2, 3, 4, 7],
                Kind::Unknown => &[1, 2, 3],
            },
            Call::ApplyListed(kind) => match kind {
                Kind::TestAndWrite => &[0, 1, 2, 16, 3, 4, 5, 7, 8, 11, 13],
                Kind::Add => &[0, 1, 2, 16, 3, 10, 11],
                Kind::Renew | Kind::Cancel => &[0, 1, 2, 16, 3, 9],
                Kind::Read => &[0, 1, 2, 16, 3, 4, 7],
                Kind::Unknown => &[1, 2, 16, 3],
            },
            Call::ReadListed(kind) => match kind {
                Kind::Read => &[0, 1, 2, 16, 3, 4, 7],
                _ => &[1, 2, 16, 3],
            },
            Call::BareShare(Edition::Sdmf) => &[0, 21, 22, 23, 24, 25, 26, 27, 28, 29],
            Call::ShareInContainer(Edition::Sdmf) => &[0, 1, 2, 21, 22, 23, 24, 25, 26, 27, 28, 29],
            Call::BareShare(Edition::Mdmf) | Call::ShareInContainer(Edition::Mdmf) => {
                &[0, 21, 23, 24, 25, 26, 27, 28, 29]
            }
            Call::WriteShare(_) => &[0, 3, 7, 23, 24, 25, 26, 27, 28, 29],
        }
    }

    /// Whether pairs are to be met without slack and beside it, or there is no container that could have it.
    pub fn slacks(self) -> &'static [Beside] {
        match self {
            Call::Create | Call::BareShare(_) | Call::WriteShare(_) => &[Beside::NoSlack],
            _ => &[Beside::NoSlack, Beside::Slack],
        }
    }

    /// The pairs of refusals that can apply together, the one that is judged first before the other: for one call, any
    /// two of them. What is laid out as MDMF may have another version, or lie in a container that is refused.
    pub fn pairs(self) -> Vec<(u32, u32)> {
        let outcomes = match self {
            Call::BareShare(_) => Call::BareShare(Edition::Sdmf).outcomes(),
            Call::ShareInContainer(_) => Call::ShareInContainer(Edition::Sdmf).outcomes(),
            _ => self.outcomes(),
        };
        let refusals: Vec<u32> = outcomes
            .iter()
            .copied()
            .filter(|number| *number != 0)
            .collect();
        let mut pairs = Vec::new();
        for (place, first) in refusals.iter().enumerate() {
            pairs.extend(refusals[place + 1..].iter().map(|second| (*first, *second)));
        }
        pairs
    }
}

/// Whether the container of a pair of outcomes has slack.
#[derive(Clone, Copy, Debug, PartialEq, Eq, PartialOrd, Ord)]
pub enum Beside {
    NoSlack,
    Slack,
}

impl Beside {
    /// So much slack.
    pub fn some(self, rng: &mut Rng) -> usize {
        match self {
            Beside::NoSlack => 0,
            Beside::Slack => rng.pick(&[1, 2, 7, 8, 92, 100]),
        }
    }
}
