//! A request beside a list, through model and library.

use super::case::ListedCase;
use super::faults::Fault;
use super::rows::{decode, rewrite};
use super::Listing;
use crate::calls::{Call, Kind};
use crate::checker::{hex, of, show, Checker};
use beamsatchel_model::{self as model, place, Answer, Container, Request};
use beamsatchel_node::{ffi, ListFault, Stretches};

impl Checker {
    /// Applies the case's request. Container, list and reply space are those after it then.
    pub fn apply_listed(&mut self, case: &mut ListedCase) -> Answer {
        let before = case.clone();
        let ListedCase { case: asked, list } = case;
        let answer =
            model::apply_listed(&mut asked.container, list, &asked.request, &mut asked.reply);
        let mut by_library = before.clone();
        let ListedCase { case: asked, list } = &mut by_library;
        let library =
            ffi::apply_listed(&mut asked.container, list, &asked.request, &mut asked.reply);
        compare(
            "apply_listed",
            &before,
            (answer, case),
            (of(library), &by_library),
        );
        compare_read(&before);
        demand_1(&before, &answer, case);
        demand_form(&before, &answer);
        compare_look(&before, &answer);
        demand_rows(&before, &answer, case);
        self.met_listed(Call::ApplyListed, &before, answer.number);
        self.tally
            .listings(Listing::of_case(&before, answer.number));
        answer
    }

    /// Asks on a container and a list that are lent for reading only. The reply space is that after it then.
    pub fn read_listed(&mut self, case: &mut ListedCase) -> Answer {
        let (answer, reply) = compare_read(case);
        self.met_listed(Call::ReadListed, case, answer.number);
        case.case.reply = reply;
        answer
    }

    fn met_listed(&mut self, call: fn(Kind) -> Call, before: &ListedCase, number: u32) {
        let call = call(Kind::of_request(&before.case.request));
        self.tally.outcome(call, number, || show_listed(before));
    }
}

/// Model and library on what is lent for reading only; the answer and the reply space after it.
fn compare_read(before: &ListedCase) -> (Answer, Vec<u8>) {
    let ListedCase { case, list } = before;
    let (mut by_model, mut by_library) = (before.clone(), before.clone());
    let reply = &mut by_model.case.reply;
    let answer = model::read_listed(&case.container, list, &case.request, reply);
    let lent = &mut by_library;
    let library = ffi::read_listed(
        &lent.case.container,
        &lent.list,
        &lent.case.request,
        &mut lent.case.reply,
    );
    compare(
        "read_listed",
        before,
        (answer, &by_model),
        (of(library), &by_library),
    );
    (answer, by_library.case.reply)
}

fn compare(
    what: &str,
    before: &ListedCase,
    (answer, model): (Answer, &ListedCase),
    (other, library): (Answer, &ListedCase),
) {
    let same = answer == other
        && model.case.container == library.case.container
        && model.list == library.list
        && model.case.reply == library.case.reply;
    assert!(
        same,
        "{what} differs\n{}\nmodel: {answer:?}\n{}\nlibrary: {other:?}\n{}",
        show_listed(before),
        show_listed(model),
        show_listed(library)
    );
}

/// A refused request changes neither container nor list; reply space changes only when a request is done, or when a
/// failed test reports the old bytes. Of requests that are done, a test-and-write alone changes the list.
fn demand_1(before: &ListedCase, answer: &Answer, after: &ListedCase) {
    let kind = Kind::of_request(&before.case.request);
    let written = match (answer.number, kind) {
        (0, Kind::TestAndWrite | Kind::Read) | (8, _) => answer.count as usize,
        _ => 0,
    };
    assert_eq!(before.case.reply[written..], after.case.reply[written..]);
    if answer.number != 0 {
        assert_eq!(before.case.container, after.case.container);
    }
    if (answer.number, kind) != (0, Kind::TestAndWrite) {
        assert_eq!(before.list, after.list);
    }
}

/// Beside a well-formed container, 16 is given exactly when some clause of what is good does not hold.
fn demand_form(before: &ListedCase, answer: &Answer) {
    if let Some(container) = Container::from_bytes(&before.case.container) {
        let faults = Fault::all_of(&before.list, &container);
        assert_eq!(answer.number == 16, !faults.is_empty(), "{faults:?}");
    }
}

/// The crate's own look at a list finds its rows, or a clause that does not hold.
fn compare_look(before: &ListedCase, answer: &Answer) {
    let (container, list) = (&before.case.container, &before.list);
    let fault = ListFault::find(container, list);
    assert_eq!(fault.is_some(), answer.number == 16);
    if let Some(fault) = fault {
        let parts = Container::from_bytes(container).expect("well formed");
        let mut clauses = Fault::all_of(list, &parts).into_iter().map(Fault::clause);
        assert!(clauses.any(|clause| clause == fault.clause), "{fault}");
    }
    match Stretches::open(container, list) {
        Err(refusal) => assert_eq!(refusal.reason.number(), answer.number),
        Ok(stretches) => {
            assert!(!matches!(answer.number, 1 | 2 | 16));
            let rows = decode(list).into_iter();
            let rows = rows.map(|row| row.start as usize..row.end as usize);
            assert!(stretches.iter().eq(rows));
        }
    }
}

/// After a test-and-write that is done the list is good, and has the rows that writes and cut make of those before.
fn demand_rows(before: &ListedCase, answer: &Answer, after: &ListedCase) {
    let (0, Some(Request::TestAndWrite(asked))) =
        (answer.number, Request::from_bytes(&before.case.request))
    else {
        return;
    };
    let parts =
        |case: &ListedCase| Container::from_bytes(&case.case.container).expect("well formed");
    let (old, new) = (parts(before), parts(after));
    assert_eq!(Fault::all_of(&after.list, &new), []);
    let size = old.data.len() as u64;
    let places = place(&asked.writes, size).expect("or it was refused with 4");
    let rewritten = rewrite(decode(&before.list), size, &places, new.data.len() as u64);
    assert_eq!(rewritten.rows, decode(&after.list));
}

pub fn show_listed(case: &ListedCase) -> String {
    format!("{}\nlist {}", show(&case.case), hex(&case.list))
}
