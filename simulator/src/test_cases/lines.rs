//! Refused runs, and lines that are no entry.

use super::case::Case;

/// What the questions before a run refuse.
pub(crate) fn refusals(cases: &mut Vec<Case>) {
    let run = |title: String| Case::on(title, &[0x7400]);
    for words in [0, 1, 4095, 4096, 4097, 8192, 12287, 12288, 16383, 16384] {
        cases.push(run(format!("memory of {words} words")).lent(0, words));
    }
    for words in [0, 511, 512] {
        cases.push(run(format!("{words} page registers")).lent(1, words));
    }
    for words in [0, 1023, 1024] {
        cases.push(run(format!("{words} ports")).lent(2, words));
    }
    for steps in [0, 1000, 1_000_000, 1_000_001, u32::MAX] {
        cases.push(run(format!("{steps} steps")).steps(steps));
    }
    for counter in [u32::MAX, u32::MAX - 1, u32::MAX - 7] {
        cases.push(run(format!("counter {counter}, 1 step")).counter(counter));
        cases.push(run(format!("counter {counter}, 8 steps")).counter(counter).steps(8));
    }
    let worst = run("the first no counts".into()).lent(0, 5).lent(1, 5).lent(2, 5);
    cases.push(worst.steps(2_000_000));
}

/// Lines that are malformed, one reason each; the case around them is not touched.
const MALFORMED: &[&str] = &[
    "",
    " ",
    "M",
    "M 0000 000",
    "M 0000 00000",
    "M 0000 0000 ",
    "M 00000 000",
    "M 0000  000",
    "M0000 00000",
    "M\t0000 0000",
    "M 0000\t0000",
    "M 000G 0000",
    "M 00/0 0000",
    "M 0:00 0000",
    "M @000 0000",
    "M 0000 00ab",
    "M 0000 0-01",
    "M 0000 000x",
    "m 0000 0000",
    "X 0000 0000",
    "R 0000 0000",
    "M 4000 0000",
    "M FFFF 0000",
    "S 001D 0000",
    "P 0200 0000",
    "O 0400 0000",
    "L 0004 0000",
    "L 0000 4001",
    "L 0001 0201",
    "L 0002 0401",
    "G 0000 000",
    "g 0000 0001",
    " # no remark",
    "a line that is far longer than any entry may be",
];

/// The same of durations.
const MALFORMED_DURATIONS: &[&str] = &[
    "D",
    "D 0000 000",
    "D 0000 00000",
    "D 0000 0000 ",
    "D0000 00000",
    "D 0000\t0000",
    "D 00G0 0000",
    "D 0000 00ff",
    "d 0000 0000",
    "E 0000 0000",
    "T 0000 0000",
    "D 0102 0000",
    "D 0201 0000",
    "D 1000 0000",
    "D FFFF 0000",
    "S 001D 0000",
    "S 0020 0000",
    "S 011A 0000",
    "S FFFF 0000",
    "L 0003 0102",
    "L 0003 FFFF",
    "L 0005 0000",
    "L 0103 0000",
];

/// The same of the memory fault status.
const MALFORMED_STATUS: &[&str] = &[
    "S 001D 0000",
    "S 001D C005",
    "S 001E 0000",
    "S 001F FFFF",
    "S 011C 0000",
    "S 101C 0000",
    "S C005 001C",
    "S 001c C005",
    "S 001C c005",
    "S 001C C00",
    "S 001C C0055",
    "S 001C C005 ",
    "S 001CC005",
    "S\t001C C005",
    "s 001C C005",
    "F 001C C005",
    "mfs C005",
];

/// Writes lines.
fn write(lines: &[&str], text: &mut String) {
    for line in lines {
        text.push_str(line);
        text.push('\n');
    }
}

/// A case with malformed lines among its entries, then one that is not yet run.
pub(crate) fn malformed(text: &mut String) {
    text.push_str("# malformed lines within a case\nM 0100 8243\n");
    write(MALFORMED, text);
    text.push_str("S 0010 0100\n#\nG 0000 0001\n");
    text.push_str("# a case without its run, and a last line without its end\nS 0000 0001\nfoo\n");
}

/// The run of the case that is not yet run; the entry that it has already is of R0.
pub(crate) fn left_open() -> Case {
    Case::new("the case without its run, run now")
}

/// The same with malformed lines of durations: a case without any duration, one with two, and one
/// that is not yet run.
pub(crate) fn malformed_durations(text: &mut String) {
    text.push_str("# malformed durations within a case without any\nS 001A 0063\n");
    write(MALFORMED_DURATIONS, text);
    text.push_str("G 0000 0002\n");
    text.push_str("# malformed durations within a case\nD 0101 0025\nD 0000 004B\n");
    write(MALFORMED_DURATIONS, text);
    text.push_str("G 0000 0002\n");
    text.push_str("# a case without its run, and a last line without its end\nD 0000 0001\nfoo\n");
}

/// The run of that case; the entry that it has already is of a duration.
pub(crate) fn left_open_timed() -> Case {
    Case::new("the case of a duration without its run, run now")
}

/// The same with malformed lines of the memory fault status: a case without a status, one with a
/// status, and one that is never run.
pub(crate) fn malformed_status(text: &mut String) {
    text.push_str("# malformed words of the state within a case without a status\nS 0000 0001\n");
    write(MALFORMED_STATUS, text);
    text.push_str("G 0000 0002\n");
    text.push_str("# malformed words of the state within a case with a status\nS 001C 1234\n");
    write(MALFORMED_STATUS, text);
    text.push_str("G 0000 0002\n");
    text.push_str("# a case without its run, and a last line without its end\nS 001C 0001\nfoo");
}
