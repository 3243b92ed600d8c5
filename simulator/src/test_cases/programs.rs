//! Small programs of many steps.

use super::case::Case;

/// The sum of 1 to 10, by SOJ.
fn sum() -> Case {
    let code = [0x8219, 0x8220, 0xA121, 0x7310, 0x0102, 0x7400];
    Case::on("the sum of 1 to 10", &code).steps(100)
}

/// The factorial of 6 by calls on a stack.
fn factorial() -> Case {
    let main = [0x85F0, 0x0800, 0x8215, 0x8220, 0x7EF0, 0x0110, 0x7400];
    let call = [0x9F11, 0xF210, 0x7505, 0xB210, 0x7EF0, 0x0110, 0xFF00, 0x8F11, 0xC121, 0x7FF0];
    Case::on("the factorial of 6 by calls", &main).memory(0x0110, &call).steps(200)
}

/// The square root of 2 by Newton's rule, in both widths.
fn roots(cases: &mut Vec<Case>) {
    let short = [0x8640, 0x0200, 0x8214, 0x8660, 0x0202, 0xD964, 0xA946, 0xC840, 0x0204];
    let case = Case::on("the root of 2", &short).memory(0x0109, &[0x7310, 0x0103, 0x7400]);
    cases.push(case.memory(0x0200, &[0x4000, 1, 0x4000, 2, 0x4000, 0]).steps(60));
    let long = [0x8A40, 0x0200, 0x8215, 0x8A80, 0x0203, 0xDB84, 0xAB48, 0xCA40, 0x0206];
    let case = Case::on("the root of 2, extended", &long).memory(0x0109, &[0x7310, 0x0103, 0x7400]);
    cases.push(case.memory(0x0200, &[0x4000, 1, 0, 0x4000, 2, 0, 0x4000, 0, 0]).steps(60));
}

/// A loop that timer A interrupts again and again.
fn timed() -> Case {
    let main = [0x8510, 0xFFF0, 0x4810, 0x400A, 0x8520, 0xFFFF, 0x4820, 0x2000, 0x4820, 0x2002];
    let service = [0xA300, 0x0600, 0x4810, 0x400A, 0x4820, 0x2002, 0x7D00, 0x0400];
    let case = Case::on("a loop with a timer", &main).memory(0x010A, &[0xA230, 0x74FF]);
    let case = case.memory(0x002E, &[0x0400, 0x0500]).memory(0x0500, &[0, 0, 0x0300]);
    case.memory(0x0300, &service).steps(300)
}

/// A task with key 3 in address state 1, whose faults are counted.
fn task() -> Case {
    let code = [0x9010, 0x2100, 0xA210, 0x9010, 0x3100, 0x9610, 0x2FFF, 0x7070, 0x0100];
    let case = Case::on("a task with faults", &code).sw(0x0031).group_fetch(1).mk(0x4000);
    let case = case.group_page(1, 2, 0x3002).group_page(1, 3, 0x5003);
    let case = case.memory(0x0022, &[0x0400, 0x0500]).memory(0x0500, &[0x4000, 0, 0x0300]);
    let service = [0xA300, 0x0600, 0x4840, 0xA00F, 0x7D00, 0x0400];
    case.memory(0x0300, &service).steps(500)
}

/// All cases of this group.
pub(crate) fn cases(cases: &mut Vec<Case>) {
    cases.push(sum());
    cases.push(factorial());
    roots(cases);
    cases.push(timed());
    cases.push(task());
}
