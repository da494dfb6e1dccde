//! Containers: well formed by their parts, and damaged in each way.

use crate::rng::Rng;
use beamsatchel_model::{Container, Lease};

/// The most bytes of the buffers here, for the sake of time; `long` has the longer ones.
pub const MAX_LENGTH: usize = 65_536;
/// The most data in them.
pub const MAX_DATA: usize = MAX_LENGTH - 472;

/// Tokens are few, so that requests meet them, several leases have the same, and the zero token
/// occurs.
pub fn token(rng: &mut Rng) -> [u8; 32] {
    if rng.chance(85) {
        [rng.below(6) as u8; 32]
    } else {
        rng.array()
    }
}

pub fn lease(rng: &mut Rng) -> Lease {
    Lease {
        owner: if rng.chance(80) {
            rng.within(1..=3) as u32
        } else {
            rng.next() as u32 | 1
        },
        expiry: expiry(rng),
        renewal: token(rng),
        cancel: token(rng),
        node: rng.array(),
    }
}

pub fn expiry(rng: &mut Rng) -> u32 {
    if rng.chance(80) {
        rng.below(4) as u32
    } else {
        rng.pick(&[0x7FFF_FFFF, 0x8000_0000, u32::MAX, 1000])
    }
}

/// How a container is to be laid out.
#[derive(Clone, Copy)]
pub struct Sizes {
    /// Bytes of data.
    pub data: usize,
    /// Zeros between the data and the count.
    pub slack: usize,
    /// Extra places.
    pub extras: usize,
    /// Bytes behind the extras, as far as `MAX_LENGTH` goes.
    pub room: usize,
}

/// A well-formed container of any sort: mostly small, now and then long or with many leases.
pub fn any(rng: &mut Rng) -> Container {
    let extras = match rng.below(100) {
        0..60 => 0,
        60..92 => rng.within(1..=3),
        92..97 => rng.within(4..=59),
        _ => 60,
    };
    let data = match rng.below(1000) {
        0..150 => 0,
        150..600 => rng.within(1..=20),
        600..995 => rng.within(1..=400),
        _ => rng.within(400..=MAX_LENGTH - 472 - 92 * extras),
    };
    let room = match rng.below(100) {
        0..50 => rng.pick(&[0, 1, 2, 3, 91, 92, 93]),
        50..99 => rng.within(0..=400),
        _ => MAX_LENGTH,
    };
    let slack = slack(rng).min(MAX_LENGTH - 472 - data - 92 * extras);
    let empty_percent = rng.pick(&[0, 0, 30, 60]);
    let sizes = Sizes {
        data,
        slack,
        extras,
        room,
    };
    with(rng, sizes, empty_percent)
}

/// None, little, as much as a lease or two take, or more.
pub fn slack(rng: &mut Rng) -> usize {
    match rng.below(100) {
        0..40 => 0,
        40..70 => rng.within(1..=10),
        70..80 => rng.pick(&[91, 92, 93, 184]),
        80..99 => rng.within(1..=400),
        _ => rng.within(400..=MAX_LENGTH),
    }
}

/// A container with such sizes, and about so many empty places of a hundred.
pub fn with(rng: &mut Rng, sizes: Sizes, empty_percent: usize) -> Container {
    let Sizes {
        data,
        slack,
        extras,
        room,
    } = sizes;
    let mut places: Vec<Option<Lease>> = (0..4 + extras)
        .map(|_| (!rng.chance(empty_percent)).then(|| lease(rng)))
        .collect();
    if extras == 0 && rng.chance(25) {
        places = vec![None; 4];
    }
    let last = places.len() - 1;
    if extras > 0 && places[last].is_none() {
        places[last] = Some(lease(rng));
    }
    Container {
        length: MAX_LENGTH.min(472 + data + slack + 92 * extras + room),
        node: rng.array(),
        enabler: rng.pick(&[[0xEE; 32], [0; 32]]),
        data: rng.letters(data),
        slack,
        places,
    }
}

/// A container with `leases` leases, each with tokens of its own, in places without gaps, and otherwise with such
/// sizes.
pub fn with_own_tokens(rng: &mut Rng, leases: usize, sizes: Sizes) -> Container {
    let extras = leases.saturating_sub(4);
    let mut container = with(rng, Sizes { extras, ..sizes }, 0);
    for (slot, place) in container.places.iter_mut().enumerate() {
        *place = (slot < leases).then(|| Lease {
            renewal: own_token(slot),
            cancel: own_token(100 + slot),
            ..lease(rng)
        });
    }
    container
}

/// A token that names a number.
pub fn own_token(number: usize) -> [u8; 32] {
    let mut token = [0xC0; 32];
    token[31] = number as u8;
    token
}

/// The bytes of a container that is not well formed: one clause is broken on purpose.
pub fn damaged(rng: &mut Rng, container: &Container) -> Vec<u8> {
    loop {
        let mut bytes = container.to_bytes();
        damage(rng, container, &mut bytes);
        if Container::from_bytes(&bytes).is_none() {
            return bytes;
        }
    }
}

/// The bytes of a container that has slack and is not well formed for the place of its count, or for a byte of the
/// slack.
pub fn with_bad_slack(rng: &mut Rng, container: &Container) -> Vec<u8> {
    loop {
        let mut bytes = container.to_bytes();
        match rng.chance(50) {
            true => damage_offset(rng, container, &mut bytes),
            false => damage_slack(rng, container, &mut bytes),
        }
        if Container::from_bytes(&bytes).is_none() {
            return bytes;
        }
    }
}

/// Breaks a clause of what is well formed, where the container allows.
fn damage(rng: &mut Rng, container: &Container, bytes: &mut [u8]) {
    let size = container.data.len();
    let count = container.count() as usize;
    let used = container.used() as usize;
    let slot = rng.below(container.places.len());
    let record = match slot {
        0..4 => 100 + 92 * slot,
        _ => count + 4 + 92 * (slot - 4),
    };
    match rng.below(12) {
        // the magic
        0 => bytes[rng.below(32)] ^= 1 << rng.below(8),
        // the offset field alone
        1 => bytes[92 + rng.below(8)] ^= 1 << rng.below(8),
        // the size field alone
        2 => bytes[84 + rng.below(8)] ^= 1 << rng.below(8),
        // both fields agree as 64-bit sums: a larger size, up to those that wrap
        3 => {
            let wrong = rng.pick(&[
                (container.length - 471) as u64,
                1 << 32 | size as u64,
                1 << 63 | size as u64,
                0_u64.wrapping_sub(468),
                0_u64.wrapping_sub(472),
                u64::MAX,
            ]);
            bytes[84..92].copy_from_slice(&wrong.to_be_bytes());
            bytes[92..100].copy_from_slice(&wrong.wrapping_add(468).to_be_bytes());
        }
        // the count: above 60, or more than the buffer holds
        4 => {
            let more = (bytes.len() - used) / 92 + 1 + container.extras();
            let wrong = rng.pick(&[61, 62, 255, 1 << 16, 1 << 31, u32::MAX, more as u32]);
            bytes[count..count + 4].copy_from_slice(&wrong.to_be_bytes());
        }
        // a record with owner 0 that is not all zeros
        5 => {
            bytes[record..record + 4].fill(0);
            bytes[record + rng.within(4..=91)] |= rng.not_zero();
        }
        // an empty last extra
        6 if bytes.len() - used >= 92 => bytes[count + 3] += 1,
        6 if container.extras() > 0 => bytes[used - 92..used].fill(0),
        // a byte after the used end
        7 if used < bytes.len() => {
            let anywhere = rng.within(used..=bytes.len() - 1);
            let at = rng.pick(&[used, bytes.len() - 1, anywhere]);
            bytes[at] = rng.not_zero();
        }
        8 | 9 => damage_offset(rng, container, bytes),
        10 if container.slack > 0 => damage_slack(rng, container, bytes),
        // the whole
        _ => bytes.copy_from_slice(&rng.bytes(bytes.len())),
    }
}

/// Sets the offset field before the data's end, where count and extras do not fit, or where they would wrap.
fn damage_offset(rng: &mut Rng, container: &Container, bytes: &mut [u8]) {
    let data_end = 468 + container.data.len() as u64;
    let length = bytes.len() as u64;
    let behind = container.used() - container.count();
    let before = rng.below(data_end as usize) as u64;
    let wrong = rng.pick(&[
        data_end - 1,
        before,
        length + 1 - behind,
        length - 3,
        0_u64.wrapping_sub(4),
        0_u64.wrapping_sub(behind),
        u64::MAX,
    ]);
    bytes[92..100].copy_from_slice(&wrong.to_be_bytes());
}

/// Sets a byte of the slack, of which there is some.
fn damage_slack(rng: &mut Rng, container: &Container, bytes: &mut [u8]) {
    let (first, last) = (468 + container.data.len(), container.count() as usize - 1);
    let anywhere = rng.within(first..=last);
    bytes[rng.pick(&[first, last, anywhere])] = rng.not_zero();
}

/// The bytes of a container whose length is not allowed: cut short. Those that are too long are in `long`.
pub fn of_wrong_length(rng: &mut Rng, container: &Container) -> Vec<u8> {
    let mut bytes = container.to_bytes();
    bytes.truncate(rng.pick(&[0, 1, 31, 32, 100, 467, 468, 470, 471]));
    bytes
}
