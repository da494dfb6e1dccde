//! Runs a case through model, library and the fast writing, and compares all that they give.

use crate::calls::{Call, Kind};
use crate::case::Case;
use crate::common::modelled;
use crate::laid::Laid;
use crate::long::Long;
use crate::looks::Look;
use crate::offsets::Named;
use crate::shapes::Shape;
use crate::slacks::Slack;
use crate::tally::Tally;
use crate::touches::Touch;
use beamsatchel_model::{self as model, Request, WrittenShare};
use beamsatchel_node::ffi::{
    self, EditionArguments, RawAnswer, RawShare, RawWrittenShare, ShareArguments,
};
use beamsatchel_node::{Clause, Edition, Fault, NewEdition, NewShare, Share, View};

/// Where a container's data begins.
const DATA: u64 = 468;

#[derive(Default)]
pub struct Checker {
    pub tally: Tally,
}

impl Checker {
    /// Applies the case's request. Container and reply space are those after it then.
    pub fn apply(&mut self, case: &mut Case) -> model::Answer {
        let before = case.clone();
        let answer = model::apply(&mut case.container, &case.request, &mut case.reply);

        let mut by_library = before.clone();
        let library = ffi::apply(
            &mut by_library.container,
            &by_library.request,
            &mut by_library.reply,
        );
        compare_case(
            "library",
            &before,
            (&answer, case),
            (of(library), &by_library),
        );

        let mut by_fast = before.clone();
        let fast = model::fast::apply(&mut by_fast.container, &by_fast.request, &mut by_fast.reply);
        compare_case("fast", &before, (&answer, case), (fast, &by_fast));

        compare_read(&before);
        demand_1(&before, &answer, case);
        compare_view(&before.container, &answer);
        let call = Call::Apply(Kind::of_request(&case.request));
        self.tally.outcome(call, answer.number, || show(&before));
        self.tally
            .looks(call, Look::of_case(&before, answer.number));
        self.tally.named(Named::of_case(&before, answer.number));
        self.tally
            .touches(Touch::of_case(&before, answer.number, case));
        self.tally
            .slacks(Slack::of_case(&before, answer.number, case));
        self.tally
            .longs(Long::of_case(&before, answer.number, case));
        answer
    }

    /// Creates in a buffer, which is the one after it then.
    pub fn create(&mut self, buffer: &mut [u8], node: &[u8], enabler: &[u8]) -> model::Answer {
        let before = buffer.to_vec();
        let mut by_library = before.clone();
        let answer = model::create(buffer, node, enabler);
        let library = of(ffi::create(&mut by_library, node, enabler));
        assert!(
            answer == library && buffer == by_library,
            "create differs\nmodel   {answer:?}\nlibrary {library:?}\nnode {}\nenabler {}\nbuffer {}",
            hex(node),
            hex(enabler),
            hex(&before)
        );
        self.tally
            .outcome(Call::Create, answer.number, || hex(&before));
        answer
    }

    /// Checks bare share bytes.
    pub fn share(&mut self, share: &[u8]) -> u32 {
        let checked = model::check_share(share);
        let library = ffi::check_share(share);
        let fast = model::fast::check_share(share);
        assert!(
            checked == of_share(library, 0) && checked == fast,
            "share differs\nmodel   {checked:?}\nlibrary {library:?}\nfast    {fast:?}\nshare {}",
            hex(share)
        );
        demand_nothing_on_refusal(&checked, share);
        let call = Call::BareShare(edition_of(&checked));
        self.tally.outcome(call, checked.number, || hex(share));
        let met = Laid::of_checked(share, checked.number);
        self.tally.laid(met, Call::BareShare);
        if checked.number == 0 {
            self.write_again(share);
        }
        checked.number
    }

    /// Checks the share in a container.
    pub fn share_in_container(&mut self, container: &[u8]) -> u32 {
        let checked = model::check_container(container);
        let library = ffi::check_container(container);
        let fast = model::fast::check_container(container);
        assert!(
            checked == of_share(library, DATA) && checked == fast,
            "share differs\nmodel   {checked:?}\nlibrary {library:?}\nfast    {fast:?}\ncontainer {}",
            hex(container)
        );
        let call = Call::ShareInContainer(edition_of(&checked));
        self.tally.outcome(call, checked.number, || hex(container));
        self.tally
            .slacks(Slack::of_share(container, checked.number));
        if !matches!(checked.number, 1 | 2) {
            let data = View::open(container).expect("well formed").data();
            demand_nothing_on_refusal(&checked, data);
            let met = Laid::of_checked(data, checked.number);
            self.tally.laid(met, Call::ShareInContainer);
        }
        checked.number
    }

    /// Writes a share into the space, which is the one after it then.
    pub fn write_share(&mut self, arguments: &ShareArguments, space: &mut [u8]) -> WrittenShare {
        let share = &modelled(arguments);
        let before = space.to_vec();
        let (mut by_library, mut by_fast) = (before.clone(), before.clone());
        let written = model::write_share(share, space);
        let library = of_written(ffi::write_share(arguments, &mut by_library));
        let fast = model::fast::write_share(share, &mut by_fast);
        assert!(
            (library, fast) == (written, written) && by_library == space && by_fast == space,
            "write_share differs\nmodel   {written:?}\nlibrary {library:?}\nfast    {fast:?}\n{}\n\
             model's   {}\nlibrary's {}\nfast's    {}",
            show_share(share, &before),
            hex(space),
            hex(&by_library),
            hex(&by_fast)
        );
        let number = written.number;
        assert_eq!(
            before[written.length as usize..],
            space[written.length as usize..]
        );
        assert_eq!(number == 0, written.length > 0);
        compare_new_share(share, &before, written, space);
        let edition = arguments_edition(arguments);
        let call = Call::WriteShare(edition);
        self.tally
            .outcome(call, number, || show_share(share, &before));
        self.tally
            .shapes(edition, Shape::of_case(share, before.len(), number));
        self.tally
            .laid(Laid::of_written(share, number), Call::WriteShare);
        if number == 0 {
            demand_accepted(share, &space[..written.length as usize]);
            self.tally.shapes(edition, vec![Shape::AcceptedAsWritten]);
            self.tally.total(edition, share.n);
        }
        written
    }

    /// What the check accepts, written again from its own parts, is the same share.
    fn write_again(&mut self, share: &[u8]) {
        let again = NewShare::from(Share::check(share).expect("accepted"));
        // No byte is the share's before it is written.
        let behind = [0xA5; 40];
        let mut space: Vec<u8> = share.iter().map(|byte| !byte).chain(behind).collect();
        let written = self.write_share(&again.arguments(), &mut space);
        assert_eq!((written.number, written.length), (0, share.len() as u64));
        assert!(
            space[..share.len()] == *share && space[share.len()..] == behind,
            "written again it differs\nshare {}\nspace {}",
            hex(share),
            hex(&space)
        );
        let edition = again.edition.edition();
        self.tally.shapes(edition, vec![Shape::WrittenAgain]);
    }
}

/// On a refusal every part is empty, and the first byte alone tells the edition.
fn demand_nothing_on_refusal(checked: &model::Share, share: &[u8]) {
    assert_eq!(checked.edition, u32::from(share.first() == Some(&1)));
    if checked.number != 0 {
        assert_eq!(checked.bounds, [0; 8]);
    }
}

/// The edition that a check tells.
fn edition_of(checked: &model::Share) -> Edition {
    Edition::from_version(checked.edition as u8).expect("an edition")
}

fn arguments_edition(arguments: &ShareArguments) -> Edition {
    match arguments.edition {
        EditionArguments::Sdmf { .. } => Edition::Sdmf,
        EditionArguments::Mdmf { .. } => Edition::Mdmf,
    }
}

/// The crate's own types give what the library gives; where R and IV are of their lengths, they take all.
fn compare_new_share(share: &model::NewShare, before: &[u8], written: WrittenShare, after: &[u8]) {
    let edition = match share.edition {
        model::NewEdition::Sdmf { iv } => iv.try_into().map(|iv| NewEdition::Sdmf { iv }),
        model::NewEdition::Mdmf {
            segment_size,
            spare,
        } => Ok(NewEdition::Mdmf {
            segment_size,
            spare,
        }),
    };
    let (Ok(root_hash), Ok(edition)) = (share.root_hash.try_into(), edition) else {
        assert_eq!(written.number, 3);
        return;
    };
    let new_share = NewShare {
        sequence_number: share.sequence_number,
        root_hash,
        k: share.k,
        n: share.n,
        data_length: share.data_length,
        verification_key: share.verification_key,
        signature: share.signature,
        hash_chain: share.hash_chain,
        block_tree: share.block_tree,
        share_data: share.share_data,
        encrypted_private_key: share.encrypted_private_key,
        edition,
    };
    let needed = new_share.written_len();
    assert_eq!(needed as u128, share.length());
    assert_eq!(written.number == 7, before.len() < needed);
    let mut space = before.to_vec();
    match new_share.write(&mut space) {
        Ok(view) => {
            assert_eq!(written.number, 0);
            demand_parts(view, share);
            assert_eq!(Share::check(view.as_bytes()), Ok(view));
            assert_eq!(view.as_bytes().len() as u64, written.length);
        }
        Err(error) => assert_eq!(error.number(), written.number),
    }
    assert_eq!(space, after);
}

/// What was written is accepted, with the same numbers and parts.
fn demand_accepted(share: &model::NewShare, written: &[u8]) {
    let checked = Share::check(written).expect("what is written is accepted");
    let again = NewShare::from(checked);
    assert_eq!(modelled(&again.arguments()), *share);
    demand_parts(checked, share);
}

/// The view has the parts that the share was written from, in their order. The seventh of SDMF is none.
fn demand_parts(view: Share, share: &model::NewShare) {
    let parts: Vec<&[u8]> = view.parts().map(|(_, part)| part).collect();
    assert_eq!(parts, share.parts()[..parts.len()]);
    assert_eq!(parts.len(), view.edition().parts().len());
}

/// Lent for reading only, a container answers reads, and takes every other request for an empty one. Gives the answer
/// and the reply space after it.
pub fn compare_read(before: &Case) -> (model::Answer, Vec<u8>) {
    let mut by_library = before.reply.clone();
    let library = ffi::read(&before.container, &before.request, &mut by_library);

    let mut by_model = before.clone();
    if !matches!(Request::from_bytes(&before.request), Some(Request::Read(_))) {
        by_model.request.clear();
    }
    let answer = model::apply(
        &mut by_model.container,
        &by_model.request,
        &mut by_model.reply,
    );
    assert!(
        answer == of(library) && by_model.reply == by_library,
        "read differs\n{}\nmodel   {answer:?}\nlibrary {library:?}",
        show(before)
    );
    (answer, by_library)
}

/// A refused request changes no container byte; reply space changes only when a request is done, or when a failed
/// test reports the old bytes that it looked at. And what is done leaves a container that its parts give back.
fn demand_1(before: &Case, answer: &model::Answer, after: &Case) {
    let written = match (answer.number, before.request.first()) {
        (0, Some(1 | 5)) | (8, _) => answer.count as usize,
        _ => 0,
    };
    assert_eq!(before.reply[written..], after.reply[written..]);
    if answer.number == 0 {
        let parts = model::Container::from_bytes(&after.container).expect("well formed");
        assert_eq!(parts.to_bytes(), after.container);
    } else {
        assert_eq!(before.container, after.container);
    }
}

/// The crate's own look at the bytes, for dumps, finds what the model finds.
fn compare_view(container: &[u8], answer: &model::Answer) {
    match View::open(container) {
        Err(refusal) => {
            assert_eq!(refusal.reason.number(), answer.number);
            let fault = Fault::find(container).expect("a refusal is explained");
            let by_length = fault.clause == Clause::BufferLength;
            assert_eq!(by_length, answer.number == 1, "{fault}");
        }
        Ok(view) => {
            assert_eq!(Fault::find(container), None);
            let parts = model::Container::from_bytes(container).expect("well formed");
            assert_eq!(view.node_id().0, parts.node);
            assert_eq!(*view.write_enabler().expose(), parts.enabler);
            assert_eq!(view.data(), parts.data);
            assert_eq!(view.slack_len(), parts.slack);
            assert_eq!(view.used_len() as u64, parts.used());
            let mut slots = vec![None; 4 + view.extra_places()];
            for (slot, lease) in view.leases() {
                slots[slot] = Some(model::Lease::from_record(&lease.to_record()));
            }
            assert_eq!(slots, parts.places);
        }
    }
}

pub fn of(raw: RawAnswer) -> model::Answer {
    model::Answer {
        number: raw.number,
        node: raw.node,
        count: raw.count,
    }
}

fn of_written(raw: RawWrittenShare) -> WrittenShare {
    WrittenShare {
        number: raw.number,
        length: raw.length,
    }
}

/// The library's share, with bounds from the share's first byte.
fn of_share(raw: RawShare, start: u64) -> model::Share {
    let from_start = |bound: u64| {
        if raw.number == 0 {
            bound.wrapping_sub(start)
        } else {
            bound
        }
    };
    model::Share {
        number: raw.number,
        edition: raw.edition,
        bounds: raw.bounds.map(from_start),
    }
}

fn compare_case(
    who: &str,
    before: &Case,
    model: (&model::Answer, &Case),
    other: (model::Answer, &Case),
) {
    let same = *model.0 == other.0
        && model.1.container == other.1.container
        && model.1.reply == other.1.reply;
    if !same {
        let (a, b) = (&model.1.container, &other.1.container);
        let byte = a.iter().zip(b).position(|(a, b)| a != b);
        panic!(
            "{who} differs, the container first at byte {byte:?}\n{}\nmodel: {:?}\n{}\n{who}: {:?}\n{}",
            show(before),
            model.0,
            show(model.1),
            other.0,
            show(other.1)
        );
    }
}

pub fn show(case: &Case) -> String {
    format!(
        "container {}\nrequest {}\nreply space {}",
        hex(&case.container),
        hex(&case.request),
        hex(&case.reply)
    )
}

fn show_share(share: &model::NewShare, space: &[u8]) -> String {
    let own = match share.edition {
        model::NewEdition::Sdmf { iv } => format!("SDMF, IV {}", hex(iv)),
        model::NewEdition::Mdmf { segment_size, .. } => {
            format!("MDMF, segment size {segment_size}")
        }
    };
    format!(
        "sequence number {}, k {}, N {}, data length {}, {own}\nR {}\nparts in their order {}\nspace {}",
        share.sequence_number,
        share.k,
        share.n,
        share.data_length,
        hex(share.root_hash),
        share.parts().map(hex).join("\n  "),
        hex(space)
    )
}

/// The length and the bytes, but for zeros at the end; of a long container only the first.
pub fn hex(bytes: &[u8]) -> String {
    let used = bytes
        .iter()
        .rposition(|byte| *byte != 0)
        .map_or(0, |last| last + 1);
    let shown: String = bytes[..used.min(70_000)]
        .iter()
        .map(|byte| format!("{byte:02x}"))
        .collect();
    format!("({} bytes) {shown}", bytes.len())
}
