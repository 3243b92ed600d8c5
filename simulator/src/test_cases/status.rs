//! The memory fault status: which page register refused, which of several refusals is shown, and
//! what leaves or clears the register.

mod accesses;
mod entries;
mod given;
mod order;
mod worked;

use super::case::Case;

/// All cases of this group.
pub(crate) fn cases(cases: &mut Vec<Case>) {
    worked::cases(cases);
    accesses::cases(cases);
    order::cases(cases);
    entries::cases(cases);
    given::cases(cases);
}
