//! How often each outcome, each pair of outcomes, each look at the data, each thing that an offset from the end named,
//! each touch of the data, each place of the count, each thing in a long container, each thing that became of a
//! never-written list, each shape of a new share and each way in which a share was laid out was met.

use crate::calls::{Beside, Call};
use crate::laid::Laid;
use crate::lists::Listing;
use crate::long::Long;
use crate::looks::Look;
use crate::offsets::Named;
use crate::shapes::Shape;
use crate::slacks::Slack;
use crate::touches::Touch;
use beamsatchel_node::Edition;
use std::collections::{BTreeMap, BTreeSet};

#[derive(Default)]
pub struct Tally {
    /// All comparisons.
    pub cases: u64,
    outcomes: BTreeMap<(Call, u32), u64>,
    pairs: BTreeMap<(Call, Beside, u32, u32), u64>,
    looks: BTreeMap<(Call, Look), u64>,
    named: BTreeMap<Named, u64>,
    touches: BTreeMap<Touch, u64>,
    slacks: BTreeMap<Slack, u64>,
    longs: BTreeMap<Long, u64>,
    shapes: BTreeMap<(Edition, Shape), u64>,
    /// The N of shares that were written.
    totals: BTreeSet<(Edition, u8)>,
    laid: BTreeMap<(Call, Laid), u64>,
    listings: BTreeMap<Listing, u64>,
}

impl Tally {
    /// Counts an outcome, which must be a possible one; `case` tells of what.
    pub fn outcome(&mut self, call: Call, number: u32, case: impl FnOnce() -> String) {
        assert!(
            call.outcomes().contains(&number),
            "{call:?}: outcome {number} is not possible\n{}",
            case()
        );
        self.cases += 1;
        *self.outcomes.entry((call, number)).or_default() += 1;
    }

    pub fn pair(&mut self, call: Call, slack: Beside, (first, second): (u32, u32)) {
        *self.pairs.entry((call, slack, first, second)).or_default() += 1;
    }

    pub fn looks(&mut self, call: Call, looks: Vec<Look>) {
        for look in looks {
            *self.looks.entry((call, look)).or_default() += 1;
        }
    }

    pub fn named(&mut self, named: impl IntoIterator<Item = Named>) {
        for named in named {
            *self.named.entry(named).or_default() += 1;
        }
    }

    pub fn touches(&mut self, touches: Vec<Touch>) {
        for touch in touches {
            *self.touches.entry(touch).or_default() += 1;
        }
    }

    pub fn slacks(&mut self, slacks: Vec<Slack>) {
        for slack in slacks {
            *self.slacks.entry(slack).or_default() += 1;
        }
    }

    pub fn longs(&mut self, longs: Vec<Long>) {
        for long in longs {
            *self.longs.entry(long).or_default() += 1;
        }
    }

    pub fn shapes(&mut self, edition: Edition, shapes: Vec<Shape>) {
        for shape in shapes {
            *self.shapes.entry((edition, shape)).or_default() += 1;
        }
    }

    /// A share was written, one of so many.
    pub fn total(&mut self, edition: Edition, n: u8) {
        self.totals.insert((edition, n));
    }

    /// How shares were laid out, each as one of an edition, in this call.
    pub fn laid(&mut self, laid: Vec<(Edition, Laid)>, call: fn(Edition) -> Call) {
        for (edition, laid) in laid {
            *self.laid.entry((call(edition), laid)).or_default() += 1;
        }
    }

    pub fn listings(&mut self, listings: impl IntoIterator<Item = Listing>) {
        for listing in listings {
            *self.listings.entry(listing).or_default() += 1;
        }
    }

    pub fn print(&self) {
        println!("\nhow often each outcome was met:");
        for call in Call::all() {
            let met = self.outcomes.iter().filter(|((of, _), _)| *of == call);
            let met: Vec<String> = met
                .map(|((_, number), count)| format!("{number}: {count}"))
                .collect();
            println!("  {:>25}  {}", format!("{call:?}"), met.join(", "));
        }
        println!("\npairs of outcomes met together, each alone and both:");
        for call in Call::all() {
            for &beside in call.slacks() {
                let met: Vec<u64> = self
                    .pairs
                    .iter()
                    .filter(|((of, slack, _, _), _)| (*of, *slack) == (call, beside))
                    .map(|(_, count)| *count)
                    .collect();
                println!(
                    "  {:>25}  {} of {} pairs, each at least {} times{}",
                    format!("{call:?}"),
                    met.len(),
                    call.pairs().len(),
                    met.iter().min().unwrap_or(&0),
                    match beside {
                        Beside::NoSlack => "",
                        Beside::Slack => ", beside slack",
                    }
                );
            }
        }
        println!("\nwhere tests and reads looked, and which space short pieces had:");
        for call in Call::LOOKING {
            let met = self.looks.iter().filter(|((of, _), _)| *of == call);
            let met: Vec<String> = met
                .map(|((_, look), count)| format!("{look:?}: {count}"))
                .collect();
            println!("  {:>25}  {}", format!("{call:?}"), met.join(", "));
        }
        println!("\nwhat offsets from the end named, and on which size:");
        let met: Vec<String> = self
            .named
            .iter()
            .map(|(named, count)| format!("{named:?}: {count}"))
            .collect();
        println!("  {}", met.join(", "));
        println!("\nwhat test-and-writes that were done touched, and no byte elsewhere:");
        let met: Vec<String> = self
            .touches
            .iter()
            .map(|(touch, count)| format!("{touch:?}: {count}"))
            .collect();
        println!("  {}", met.join(", "));
        println!("\nwhere the count stood, and what was done beside slack:");
        let met: Vec<String> = self
            .slacks
            .iter()
            .map(|(slack, count)| format!("{slack:?}: {count}"))
            .collect();
        println!("  {}", met.join(", "));
        println!("\nwhat long containers were like, and what was done to them:");
        let met: Vec<String> = self
            .longs
            .iter()
            .map(|(long, count)| format!("{long:?}: {count}"))
            .collect();
        println!("  {}", met.join(", "));
        println!("\nwhat never-written lists were like, and what became of them:");
        let met: Vec<String> = self
            .listings
            .iter()
            .map(|(listing, count)| format!("{listing:?}: {count}"))
            .collect();
        println!("  {}", met.join(", "));
        for edition in Edition::ALL {
            let totals = self.totals.iter().filter(|(of, _)| *of == edition);
            let totals = totals.count();
            println!("\nshapes of new {edition} shares, written with {totals} different N:");
            let met = self.shapes.iter().filter(|((of, _), _)| *of == edition);
            let met: Vec<String> = met
                .map(|((_, shape), count)| format!("{shape:?}: {count}"))
                .collect();
            println!("  {}", met.join(", "));
        }
        println!("\nhow shares were laid out, but for lengths and versions:");
        for call in Call::all() {
            let met = self.laid.iter().filter(|((of, _), _)| *of == call);
            let met: Vec<String> = met
                .filter(|((_, laid), _)| !laid.is_one_of_many())
                .map(|((_, laid), count)| format!("{laid:?}: {count}"))
                .collect();
            if !met.is_empty() {
                println!("  {:>25}  {}", format!("{call:?}"), met.join(", "));
            }
        }
        println!();
    }

    /// Every possible outcome, pair, look, offset from the end, touch, place of the count, long container, list, shape
    /// and layout was met, and every N.
    pub fn demand_all(&self) {
        for call in Call::all() {
            for number in call.outcomes() {
                let met = self.outcomes.contains_key(&(call, *number));
                assert!(met, "{call:?}: outcome {number} was never met");
            }
            for (first, second) in call.pairs() {
                for slack in call.slacks() {
                    let met = self.pairs.contains_key(&(call, *slack, first, second));
                    assert!(
                        met,
                        "{call:?}, {slack:?}: outcomes {first} and {second} were never met together"
                    );
                }
            }
        }
        for call in Call::LOOKING {
            for look in Look::ALL {
                let met = self.looks.contains_key(&(call, look));
                assert!(met, "{call:?}: {look:?} was never met");
            }
        }
        for named in Named::all() {
            assert!(self.named.contains_key(&named), "{named:?} was never met");
        }
        for touch in Touch::ALL {
            assert!(self.touches.contains_key(&touch), "{touch:?} was never met");
        }
        for slack in Slack::ALL {
            assert!(self.slacks.contains_key(&slack), "{slack:?} was never met");
        }
        for long in Long::ALL {
            assert!(self.longs.contains_key(&long), "{long:?} was never met");
        }
        for listing in Listing::all() {
            let met = self.listings.contains_key(&listing);
            assert!(met, "{listing:?} was never met");
        }
        for edition in Edition::ALL {
            for shape in Shape::all(edition) {
                let met = self.shapes.contains_key(&(edition, shape));
                assert!(met, "{edition}: {shape:?} was never met");
            }
            for n in 1..=255 {
                let met = self.totals.contains(&(edition, n));
                assert!(met, "no {edition} share with N = {n} was written");
            }
        }
        for call in Call::all() {
            for laid in Laid::all(call) {
                let met = self.laid.contains_key(&(call, laid));
                assert!(met, "{call:?}: {laid:?} was never met");
            }
        }
    }
}
