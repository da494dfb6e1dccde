//! How shares were laid out that were checked or written, at each edge and one past it: segments of MDMF, offsets,
//! lengths and versions of both editions.

use crate::calls::Call;
use crate::shares::{offset_fields, Segments};
use beamsatchel_model::{check_share, NewEdition, NewShare};
use beamsatchel_node::Edition;

#[derive(Clone, Copy, Debug, PartialEq, Eq, PartialOrd, Ord)]
pub enum Laid {
    /// Of an MDMF share that is taken: its data has so many segments.
    Segments(u64),
    SizeZero,
    SizeOfK,
    SizeOfMore,
    SizeWithoutData,
    SizeNearTheMost,
    SizeNearTheMostWithoutData,
    LastSegmentFull,
    LastSegmentShort,
    DataOfAByte,
    DataByteLessThanK,
    DataOfK,
    DataByteMoreThanK,
    NoSpare,
    Spare,
    /// Of one that is refused for its segment size.
    SizeByteLess,
    SizeByteMore,
    SizeZeroWithData,
    SizeNearTheMostNoMultiple,
    SizeNoMultipleWithoutData,
    /// For its tree.
    NoTree,
    TreeWithoutData,
    TreeByteLess,
    TreeByteMore,
    TreeHashLess,
    TreeHashMore,
    TreeOfHalf,
    TreeOfTwice,
    TreeOfLeaves,
    /// There are more than four bytes hold.
    ManySegments,
    /// So many that the tree's length would wrap in eight bytes.
    FarSegments,
    MostSegments,
    /// For its share data.
    ShareDataWithoutData,
    ShareDataByteLess,
    ShareDataByteMore,
    SaltLess,
    SaltMore,
    NoSalts,
    /// The last block is as long as the others, though its segment is short.
    BlocksOfFullSegments,
    /// What eight bytes leave of the length that is asked for.
    ShareDataWrapped,
    DataNearTheMost,
    /// Of a share of either edition that is refused for its offsets: this relation alone does not hold, and that by one
    /// byte, by which the left side is too large, or where both must be the same, too small.
    TooLarge(usize),
    TooSmall(usize),
    /// This offset is near the most that its field holds.
    OffsetNearTheMost(usize),
    /// Of any share: it has so many bytes, around those of both headers.
    Length(usize),
    /// And a version that no edition has.
    LengthOfNoEdition(usize),
    /// It would be taken but for its version, which is this.
    Version(u8),
}

/// The longest of the lengths that are counted.
pub const LENGTHS: usize = 130;

/// Numbers of segments: none, few, powers of two, and one off them.
pub const COUNTS: [u64; 37] = [
    0, 1, 2, 3, 4, 5, 7, 8, 9, 15, 16, 17, 31, 32, 33, 63, 64, 65, 127, 128, 129, 255, 256, 257,
    511, 512, 513, 1023, 1024, 1025, 4095, 4096, 4097, 65_535, 65_536, 65_537, 131_072,
];

impl Laid {
    /// The edges of the segments, but for their number.
    const OF_SEGMENTS: [Laid; 40] = [
        Laid::SizeZero,
        Laid::SizeOfK,
        Laid::SizeOfMore,
        Laid::SizeWithoutData,
        Laid::SizeNearTheMost,
        Laid::SizeNearTheMostWithoutData,
        Laid::LastSegmentFull,
        Laid::LastSegmentShort,
        Laid::DataOfAByte,
        Laid::DataByteLessThanK,
        Laid::DataOfK,
        Laid::DataByteMoreThanK,
        Laid::NoSpare,
        Laid::Spare,
        Laid::SizeByteLess,
        Laid::SizeByteMore,
        Laid::SizeZeroWithData,
        Laid::SizeNearTheMostNoMultiple,
        Laid::SizeNoMultipleWithoutData,
        Laid::NoTree,
        Laid::TreeWithoutData,
        Laid::TreeByteLess,
        Laid::TreeByteMore,
        Laid::TreeHashLess,
        Laid::TreeHashMore,
        Laid::TreeOfHalf,
        Laid::TreeOfTwice,
        Laid::TreeOfLeaves,
        Laid::ManySegments,
        Laid::FarSegments,
        Laid::MostSegments,
        Laid::ShareDataWithoutData,
        Laid::ShareDataByteLess,
        Laid::ShareDataByteMore,
        Laid::SaltLess,
        Laid::SaltMore,
        Laid::NoSalts,
        Laid::BlocksOfFullSegments,
        Laid::ShareDataWrapped,
        Laid::DataNearTheMost,
    ];

    /// Those that a call is to meet.
    pub fn all(call: Call) -> Vec<Laid> {
        let of_segments = || {
            let counts = COUNTS.into_iter().map(Laid::Segments);
            counts.chain(Laid::OF_SEGMENTS)
        };
        match call {
            Call::BareShare(edition) | Call::ShareInContainer(edition) => {
                let mut all = of_bytes(edition);
                all.extend(of_segments().filter(|_| edition == Edition::Mdmf));
                all
            }
            Call::WriteShare(Edition::Mdmf) => of_segments().collect(),
            _ => Vec::new(),
        }
    }

    /// Those of which there are too many to print.
    pub fn is_one_of_many(self) -> bool {
        matches!(
            self,
            Laid::Length(_) | Laid::LengthOfNoEdition(_) | Laid::Version(_)
        )
    }

    /// How a share was laid out that was checked, as which edition.
    pub fn of_checked(share: &[u8], number: u32) -> Vec<(Edition, Laid)> {
        let mut met = Vec::new();
        let version = share.first().copied();
        let edition = match version {
            Some(1) => Edition::Mdmf,
            _ => Edition::Sdmf,
        };
        if share.len() <= LENGTHS {
            met.push(match version {
                Some(2..) => (edition, Laid::LengthOfNoEdition(share.len())),
                _ => (edition, Laid::Length(share.len())),
            });
        }
        if let (Some(version), 1..) = (version, number) {
            met.extend(
                but_for_version(share, version).map(|edition| (edition, Laid::Version(version))),
            );
        }
        if number == 25 {
            met.extend(of_offsets(share, edition).map(|laid| (edition, laid)));
        } else if edition == Edition::Mdmf {
            let segments = matches!(number, 0 | 24 | 27 | 28).then(|| Segments::of(share));
            let laid = segments.map(|segments| of_segments(&segments, number));
            met.extend(laid.into_iter().flatten().map(|laid| (edition, laid)));
        }
        met
    }

    /// How the segments of a share were that was written or refused.
    pub fn of_written(share: &NewShare, number: u32) -> Vec<(Edition, Laid)> {
        let NewEdition::Mdmf {
            segment_size,
            spare,
        } = share.edition
        else {
            return Vec::new();
        };
        let segments = Segments {
            k: u64::from(share.k),
            size: segment_size,
            data: share.data_length,
            tree: share.block_tree.len(),
            share_data: share.share_data.len(),
            spare: spare.len(),
        };
        let met = of_segments(&segments, number).into_iter();
        met.map(|laid| (Edition::Mdmf, laid)).collect()
    }
}

/// The edges of a share's bytes, of offsets, lengths and versions.
fn of_bytes(edition: Edition) -> Vec<Laid> {
    let mut all = Vec::new();
    let relations = relations(edition, &[0; 8], 0);
    for (place, (_, relation, _)) in relations.into_iter().enumerate() {
        all.push(Laid::TooLarge(place));
        all.extend((relation == Relation::Same).then_some(Laid::TooSmall(place)));
    }
    let fields = 0..offset_fields(edition).len();
    all.extend(fields.map(Laid::OffsetNearTheMost));
    match edition {
        Edition::Sdmf => {
            all.extend((0..=LENGTHS).map(Laid::Length));
            all.extend((1..=LENGTHS).map(Laid::LengthOfNoEdition));
        }
        Edition::Mdmf => all.extend((1..=LENGTHS).map(Laid::Length)),
    }
    let versions = (0..=255).filter(|version| *version != edition.version());
    all.extend(versions.map(Laid::Version));
    all
}

/// The editions of which the share would be taken, with their version.
fn but_for_version(share: &[u8], version: u8) -> impl Iterator<Item = Edition> {
    let mut other = share.to_vec();
    let editions = Edition::ALL.into_iter();
    editions.filter(move |edition| {
        other[0] = edition.version();
        other[0] != version && check_share(&other).number == 0
    })
}

#[derive(Clone, Copy, PartialEq, Eq)]
enum Relation {
    Below,
    AtMost,
    Same,
}

/// What row 25 asks, of where the parts begin and the last one ends, and of the share's length.
fn relations(edition: Edition, bounds: &[u64], length: u64) -> Vec<(u64, Relation, u64)> {
    use Relation::{AtMost, Below, Same};
    let (first, between): (_, &[Relation]) = match edition {
        Edition::Sdmf => (None, &[Below, Below, AtMost, AtMost, AtMost, Below]),
        Edition::Mdmf => (
            Some((bounds[0], Same, 123)),
            &[Below, AtMost, Below, Below, AtMost, AtMost, AtMost],
        ),
    };
    let pairs = bounds.windows(2).zip(between);
    let pairs = pairs.map(|(pair, relation)| (pair[0], *relation, pair[1]));
    let end = bounds[between.len()];
    let last = (end, Same, length);
    first.into_iter().chain(pairs).chain([last]).collect()
}

/// Of a share that is refused for its offsets.
fn of_offsets(share: &[u8], edition: Edition) -> impl Iterator<Item = Laid> {
    let fields = offset_fields(edition);
    let there: Vec<u64> = fields
        .iter()
        .map(|(at, width)| {
            let bytes = share[*at..at + width].iter();
            bytes.fold(0, |number, byte| number << 8 | u64::from(*byte))
        })
        .collect();
    let far = fields.iter().zip(&there).enumerate();
    let far = far.filter_map(|(place, ((_, width), offset))| {
        let most = u64::MAX >> (64 - 8 * width);
        (*offset > most - 256).then_some(Laid::OffsetNearTheMost(place))
    });
    let far: Vec<Laid> = far.collect();
    // SDMF has no offset of its first part.
    let first = (edition == Edition::Sdmf).then_some(107);
    let bounds: Vec<u64> = first.into_iter().chain(there).collect();
    let relations = relations(edition, &bounds, share.len() as u64);
    let broken: Vec<(usize, i128)> = relations
        .into_iter()
        .enumerate()
        .map(|(place, (left, relation, right))| {
            let more = i128::from(left) - i128::from(right);
            match relation {
                Relation::Below => (place, (more + 1).max(0)),
                Relation::AtMost => (place, more.max(0)),
                Relation::Same => (place, more),
            }
        })
        .filter(|(_, by)| *by != 0)
        .collect();
    let by_one = match broken[..] {
        [(place, 1)] => Some(Laid::TooLarge(place)),
        [(place, -1)] => Some(Laid::TooSmall(place)),
        _ => None,
    };
    far.into_iter().chain(by_one)
}

/// Of an MDMF share that was answered with this number.
fn of_segments(segments: &Segments, number: u32) -> Vec<Laid> {
    let mut met = Vec::new();
    let mut meet = |laid: Laid, here: bool| met.extend(here.then_some(laid));
    let Segments { k, size, data, .. } = *segments;
    // Where there can be one more multiple of k at most.
    let near_the_most = |number: u64| number > u64::MAX - 512;
    match number {
        0 => {
            meet(Laid::Segments(segments.count()), true);
            meet(Laid::SizeZero, size == 0);
            meet(Laid::SizeOfK, size == k && data > 0);
            meet(Laid::SizeOfMore, size > k && data > 0);
            meet(Laid::SizeWithoutData, size > 0 && data == 0);
            meet(Laid::SizeNearTheMost, near_the_most(size) && data > 0);
            let without_data = near_the_most(size) && data == 0;
            meet(Laid::SizeNearTheMostWithoutData, without_data);
            if data > 0 {
                meet(Laid::LastSegmentFull, data % size == 0);
                meet(Laid::LastSegmentShort, data % size != 0);
                meet(Laid::DataOfAByte, data == 1);
                meet(Laid::DataByteLessThanK, data + 1 == k);
                meet(Laid::DataOfK, data == k);
                meet(Laid::DataByteMoreThanK, data == k + 1);
            }
            meet(Laid::NoSpare, segments.spare == 0);
            meet(Laid::Spare, segments.spare > 0);
        }
        24 => {
            meet(Laid::SizeByteLess, size % k + 1 == k);
            meet(Laid::SizeByteMore, size % k == 1);
            meet(Laid::SizeZeroWithData, size == 0 && data > 0);
            meet(Laid::SizeNearTheMostNoMultiple, near_the_most(size));
            meet(Laid::SizeNoMultipleWithoutData, data == 0);
        }
        27 => {
            let (count, there) = (segments.count(), segments.tree as u128);
            let asked = segments.asked_tree();
            meet(Laid::NoTree, data > 0 && there == 0);
            meet(Laid::TreeWithoutData, data == 0 && there == 32);
            meet(Laid::TreeByteLess, there + 1 == asked);
            meet(Laid::TreeByteMore, there == asked + 1);
            meet(Laid::TreeHashLess, there + 32 == asked && count > 1);
            meet(Laid::TreeHashMore, there == asked + 32 && count > 0);
            meet(Laid::TreeOfHalf, 2 * there + 32 == asked && count > 1);
            meet(Laid::TreeOfTwice, there == 2 * asked + 32 && count > 1);
            meet(
                Laid::TreeOfLeaves,
                there == 32 * u128::from(count) && count > 2,
            );
            meet(Laid::ManySegments, count > 1 << 32);
            meet(Laid::FarSegments, asked > 1 << 64);
            meet(Laid::MostSegments, count == u64::MAX);
        }
        28 => {
            let (count, there) = (segments.count(), segments.share_data as u128);
            let asked = segments.asked_share_data();
            meet(Laid::ShareDataWithoutData, data == 0);
            meet(Laid::ShareDataByteLess, there + 1 == asked);
            meet(Laid::ShareDataByteMore, there == asked + 1 && data > 0);
            meet(Laid::SaltLess, there + 16 == asked && count > 1);
            meet(Laid::SaltMore, there == asked + 16 && data > 0);
            let no_salts = there + 16 * u128::from(count) == asked;
            meet(Laid::NoSalts, no_salts && count > 1);
            if data > 0 {
                let block = u128::from(16 + size / k);
                let full = there == u128::from(count) * block;
                meet(Laid::BlocksOfFullSegments, full && count > 1);
            }
            let wrapped = asked > u128::from(u64::MAX) && there == asked % (1 << 64);
            meet(Laid::ShareDataWrapped, wrapped);
            meet(Laid::DataNearTheMost, near_the_most(data));
        }
        _ => {}
    }
    met
}
