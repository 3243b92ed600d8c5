//! Mistakes in what is shown of the refused words of an entry.

use crate::common::{caught_in_steps, first_word, Mistake};
use crate::shown::not_shown;
use comparison::{Part, Refused, Seen};
use simulator::State;

/// The last refused word that an entry reads.
fn last_read<'a>(seen: &'a Seen) -> Option<&'a Refused> {
    seen.refusals.iter().rfind(|refused| refused.part == Part::Vector)
}

/// Shows a refusal of an entry otherwise, where it is of this part.
fn otherwise(seen: &Seen, after: &mut State, part: Part, status: impl Fn(&Refused) -> u16) {
    if let Some(refused) = seen.shown().filter(|refused| refused.part == part) {
        after.mfs = status(refused);
    }
}

/// The mistakes.
const MISTAKES: [(&str, Mistake); 12] = [
    ("the first refused word that an entry reads in place of the last", |seen, after, _| {
        otherwise(seen, after, Part::Vector, |_| seen.refusals[0].status());
    }),
    ("the first refused word of an entry in place of a store", |seen, after, _| {
        otherwise(seen, after, Part::Linkage, |_| seen.refusals[0].status());
    }),
    ("a refused read is shown though a store was refused", |seen, after, _| {
        if let (true, Some(read)) = (seen.enters(), last_read(seen)) {
            after.mfs = read.status();
        }
    }),
    ("the last refused store of an entry in place of the first", |seen, after, _| {
        if let (true, Some(last)) = (seen.enters(), seen.refusals.last()) {
            after.mfs = last.status();
        }
    }),
    ("LPA of the linkage pointer for every store", |seen, after, _| {
        otherwise(seen, after, Part::Linkage, |r| r.status_at(r.from, r.group));
    }),
    ("AS of the old SW for the stores of an entry", |seen, after, _| {
        otherwise(seen, after, Part::Linkage, |r| r.status_at(r.address, seen.before.sw));
    }),
    ("AS 0 for the stores of an entry", |seen, after, _| {
        otherwise(seen, after, Part::Linkage, |r| r.status_at(r.address, 0));
    }),
    ("AS of the old SW for the words that an entry reads", |seen, after, _| {
        otherwise(seen, after, Part::Vector, |r| r.status_at(r.address, seen.before.sw));
    }),
    ("AS of the new SW for the words that an entry reads", |seen, after, _| {
        let sw = after.sw;
        otherwise(seen, after, Part::Vector, |r| r.status_at(r.address, sw));
    }),
    ("the words that an entry reads are of the instruction set", |seen, after, _| {
        otherwise(seen, after, Part::Vector, |r| r.status() | 0x0010);
    }),
    ("BEX shows no refusal", |seen, after, _| {
        if first_word(seen, 0x77).is_some() {
            not_shown(seen, after, |_| true);
        }
    }),
    ("an entry without a refusal clears the status", |seen, after, _| {
        if seen.enters() && seen.refusals.is_empty() {
            after.mfs = 0;
        }
    }),
];

#[test]
fn mistakes_in_entries() {
    caught_in_steps(&MISTAKES);
}
