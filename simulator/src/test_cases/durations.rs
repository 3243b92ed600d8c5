//! Durations: how the timers rise by them, which one a step takes, and lists that a run refuses.

mod commands;
mod programs;
mod rises;
mod steps;
mod worked;

use super::case::Case;

/// How many durations a run has to be lent.
const WHOLE: u16 = 257;

/// Lists of every length at the borders, whatever else is asked after them.
fn lengths(cases: &mut Vec<Case>) {
    let run = |title: String| Case::on(title, &[0xFF00]).remainders(99, 999);
    for length in [0, 1, 255, 256, WHOLE] {
        let title = format!("{length} durations");
        cases.push(run(title.clone()).lent(3, length));
        let case = run(title).also("all of them named").durations(250);
        cases.push(case.lent(3, length));
        cases.push(run(format!("{length} durations, no steps")).lent(3, length).steps(0));
        let case = run(format!("{length} durations, more than a million steps"));
        cases.push(case.lent(3, length).steps(1_000_001));
        let case = run(format!("{length} durations, no room in the counter"));
        cases.push(case.lent(3, length).counter(u32::MAX));
        let case = run(format!("{length} durations, too many steps for counter and run"));
        cases.push(case.lent(3, length).counter(u32::MAX).steps(2_000_000));
    }
}

/// Memory, page registers and ports are asked for before the durations.
fn order(cases: &mut Vec<Case>) {
    let lent = [(0, 4095, "memory"), (1, 511, "page registers"), (2, 1023, "ports")];
    for (what, words, name) in lent {
        let case = Case::new(format!("{name} and durations refused")).duration(0, 1);
        cases.push(case.remainders(1, 2).lent(what, words).lent(3, 256));
    }
    let case = Case::new("all lists refused").lent(2, 0).lent(1, 0).lent(0, 0).lent(3, 0);
    cases.push(case.steps(u32::MAX).durations(5).remainders(7, 8));
    let case = Case::new("ports and durations refused, too many steps").lent(3, 0).lent(2, 5);
    cases.push(case.steps(u32::MAX).durations(5));
}

/// A later entry replaces an earlier one; the remainders are written where a duration is named.
fn entries(cases: &mut Vec<Case>) {
    let run = |title: &str| Case::on(title, &[0xFF00]);
    cases.push(run("a duration, then all").duration(0xFF, 5).durations(170));
    cases.push(run("all durations, then one").durations(170).duration(0xFF, 5));
    cases.push(run("all durations twice").durations(170).durations(230));
    cases.push(run("a duration twice").duration(0xFF, 170).duration(0xFF, 230));
    cases.push(run("the last duration alone").duration(256, 230));
    cases.push(run("no duration named").remainders(99, 999));
    cases.push(run("no duration named, large remainders").remainders(u16::MAX, u16::MAX));
    cases.push(run("a list cut and given whole again").lent(3, 0).lent(3, WHOLE).durations(230));
}

/// All cases of this group.
pub(crate) fn cases(cases: &mut Vec<Case>) {
    worked::cases(cases);
    rises::cases(cases);
    commands::cases(cases);
    steps::cases(cases);
    programs::cases(cases);
    lengths(cases);
    order(cases);
    entries(cases);
}
