//! Where a request goes in a history that hands a list on: every test-and-write through the list's own call, all else
//! by any call that does the same.

use super::case::ListedCase;
use crate::calls::Kind;
use crate::checker::{compare_read, Checker};
use crate::rng::Rng;
use beamsatchel_model::Answer;

#[derive(Clone, Copy, Debug, PartialEq, Eq, PartialOrd, Ord)]
pub enum Route {
    ApplyListed,
    ReadListed,
    Apply,
    Read,
}

impl Route {
    /// Those that a request of a kind can go.
    pub fn all(kind: Kind) -> &'static [Route] {
        match kind {
            Kind::TestAndWrite => &[Route::ApplyListed],
            Kind::Add | Kind::Renew | Kind::Cancel => &[Route::ApplyListed, Route::Apply],
            Kind::Read | Kind::Unknown => &[
                Route::ApplyListed,
                Route::ReadListed,
                Route::Apply,
                Route::Read,
            ],
        }
    }

    pub fn any(rng: &mut Rng, request: &[u8]) -> Route {
        rng.pick(Route::all(Kind::of_request(request)))
    }

    /// Sends the case's request there. Container, list and reply space are those after it then.
    pub fn send(self, checker: &mut Checker, case: &mut ListedCase) -> Answer {
        match self {
            Route::ApplyListed => checker.apply_listed(case),
            Route::ReadListed => checker.read_listed(case),
            Route::Apply => checker.apply(&mut case.case),
            Route::Read => {
                let (answer, reply) = compare_read(&case.case);
                case.case.reply = reply;
                answer
            }
        }
    }
}
