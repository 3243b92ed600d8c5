//! Every interrupt and BEX: entered or not, with pointers in pages that refuse.

use super::case::Case;

/// Where the pointers lead: the linkage in page 2, the service words in page 1.
const LINKAGE: u16 = 0x2200;
const SERVICE: u16 = 0x1200;
/// New MK, SW (key 4, address state 3, CS 0010) and IC.
const NEW: [u16; 3] = [0xABCD, 0x2043, 0x0350];

/// Interrupt `number` pending with its pointers, old state to be stored, a NOP at IC.
pub(super) fn pending(number: u16, title: &str) -> Case {
    let case = Case::on(format!("interrupt {number} {title}"), &[0xFF00]).sw(0x4000);
    let case = case.memory(32 + 2 * number, &[LINKAGE, SERVICE]).memory(SERVICE, &NEW);
    case.pi(0x8000 >> number)
}

/// Masked, unmasked, disabled and held back.
fn taken(number: u16, cases: &mut Vec<Case>) {
    let bit = 0x8000 >> number;
    cases.push(pending(number, "unmasked, enabled").mk(bit).marks(0x000D));
    cases.push(pending(number, "masked, enabled").mk(!bit).marks(0x000D));
    cases.push(pending(number, "unmasked, disabled").mk(bit).marks(0x000C));
    cases.push(pending(number, "masked, disabled").mk(0).marks(0x000C));
    cases.push(pending(number, "held, one step").mk(0xFFFF).marks(0x000F));
    cases.push(pending(number, "held, two steps").mk(0xFFFF).marks(0x000F).steps(2));
    let case = pending(number, "and all after it").mk(0xFFFF).marks(0x0001);
    cases.push(case.pi(0xFFFF >> number).ft(0x0100));
}

/// The page registers and pointers that refuse words of an entry: title and change of the case.
type Change = fn(Case) -> Case;
pub(super) const REFUSALS: &[(&str, Change)] = &[
    ("pointers outside", |case| case.page(0, 0x0004)),
    ("pointers locked for other keys", |case| case.page(0, 0x7000)),
    ("service outside", |case| case.page(1, 0x00FF)),
    ("service locked for other keys", |case| case.page(1, 0x7801)),
    ("linkage outside", |case| case.group_page(3, 2, 0x0004)),
    ("linkage write protected", |case| case.group_page(3, 2, 0x0802)),
    ("linkage write protected in state 0 only", |case| case.page(2, 0x0802)),
    ("linkage locked for other keys", |case| case.group_page(3, 2, 0x7002)),
    ("service and linkage refused", |case| case.page(1, 0x0044).page(2, 0x0802)),
];

/// An entry with each refusal, from a key that is not 0.
fn refused(number: u16, cases: &mut Vec<Case>) {
    for (title, change) in REFUSALS {
        let case = pending(number, title).mk(0xFFFF).marks(0x000D).sw(0x2035);
        cases.push(change(case));
    }
}

/// Linkage and service areas across the edge of a page, whose neighbour refuses or has the lock of
/// another key, and across the end of the addresses. `start` makes the case of a title, which
/// finds its pointers at an address.
fn at_edges(pointers: u16, start: impl Fn(&str) -> Case, cases: &mut Vec<Case>) {
    for back in [1, 2] {
        let named = |title: &str| {
            let case = start(&format!("{title}, {back} before it"));
            case.key(6).sw(0x2065).group_fetch(5)
        };
        let linkage = |at: u16, title: &str| named(title).memory(pointers, &[at]);
        let service = |at: u16, title: &str| named(title).memory(pointers + 1, &[at]);
        let (edge, end) = (0x2000 - back, 0_u16.wrapping_sub(back));
        let case = linkage(edge, "linkage across an edge, the rest protected");
        cases.push(case.group_page(3, 2, 0x0802));
        let case = linkage(edge, "linkage across an edge, the first outside");
        cases.push(case.group_page(3, 1, 0x0009));
        let case = linkage(edge, "linkage across an edge, locks of other keys");
        cases.push(case.group_page(3, 1, 0x7001).group_page(3, 2, 0x8002));
        let case = service(edge, "service across an edge, locks of other keys");
        cases.push(case.page(1, 0x7001).page(2, 0x8002).memory(edge, &NEW));
        let case = service(edge, "service across an edge, the rest outside");
        cases.push(case.page(2, 0x0010).memory(edge, &NEW[..usize::from(back)]));
        let case = linkage(end, "linkage from FFFF to 0000");
        cases.push(case.group_page(3, 15, 0x0002));
        let (near, far) = NEW.split_at(usize::from(back));
        let case = service(end, "service from FFFF to 0000").page(15, 0x0003);
        cases.push(case.memory(0x4000 - back, near).memory(0, far));
    }
}

/// BEX with its pointers, a service block with an IC for each entry number, and interrupts enabled.
pub(super) fn call(entry: u16, title: &str) -> Case {
    let case = Case::on(format!("BEX {entry} {title}"), &[0x7700 | entry]).sw(0x1000);
    let case = case.memory(42, &[LINKAGE, SERVICE]).memory(SERVICE, &NEW[..2]).mk(0x0F0F);
    let entries: Vec<u16> = (0..16).map(|number| 0x0360 + number).collect();
    case.memory(SERVICE + 2, &entries).marks(0x000D)
}

/// BEX with each entry number, with refusals, and from user keys.
fn executive(cases: &mut Vec<Case>) {
    for entry in 0..16 {
        cases.push(call(entry, "key 0"));
        let case = call(entry, "key 6, interrupt 5 pending before").key(6);
        cases.push(case.pi(0x0400).marks(0x000E));
    }
    for (title, change) in REFUSALS {
        cases.push(change(call(7, title)));
        cases.push(change(call(15, title).key(5).sw(0x2055).also("key 5").group_fetch(5)));
    }
    cases.push(call(3, "first fetch refused").fetch_page(0, 0x0800));
}

/// BEX with its pointers at edges; with its entry word beyond the edge or the end of the addresses.
fn executive_at_edges(cases: &mut Vec<Case>) {
    at_edges(42, |title| call(0, title), cases);
    let case = call(9, "entry word behind an edge that refuses").memory(43, &[0x1FF6]);
    cases.push(case.memory(0x1FF6, &NEW[..2]).page(2, 0x0010));
    for back in [1, 2, 5, 6] {
        let title = format!("service {back} before the end, entry word beyond it");
        let case = call(4, &title).page(15, 0x0003).memory(43, &[0_u16.wrapping_sub(back)]);
        let case = case.memory(0x3FFA, &[1, 2, 3, 4, 5, 6]);
        cases.push(case.memory(0, &[0x0361, 0x0362, 0x0363, 0x0364, 0x0365, 0x0366]));
    }
}

/// Two or three entries one after another, and timers that ask for one.
fn sequences(cases: &mut Vec<Case>) {
    let both = |title: &str| {
        let case = Case::on(title, &[0xFF00, 0xFF00]).mk(0xFFFF).marks(0x000D);
        let case = case.memory(32 + 14, &[LINKAGE, SERVICE, 0, 0, 0x2210, 0x1210]);
        case.memory(SERVICE, &[0xFFFF, 0x0000, 0x0110]).memory(0x1210, &[0xFFFF, 0, 0x0120])
    };
    cases.push(both("timer A passes FFFF").timers(0xFFFF, 0).steps(2));
    cases.push(both("timer B passes FFFF").timers(0, 0xFFFF).counted(9).steps(2));
    cases.push(both("both timers pass FFFF").timers(0xFFFF, 0xFFFF).counted(9).steps(3));
    cases.push(both("timers do not run").timers(0xFFFF, 0xFFFF).counter(9).marks(1).steps(3));
    cases.push(
        both("timer B does not come to its end in two steps").timers(0, 0xFFFF).counted(7).steps(2),
    );
    let fault = Case::on("a fault, then interrupt 1", &[0x4400]).mk(0x4000).steps(2);
    cases.push(fault.memory(34, &[LINKAGE, SERVICE]).memory(SERVICE, &NEW));
    let fault = Case::on("interrupt 1 with a refused word pends again", &[0xFF00]).pi(0x4000);
    cases.push(fault.mk(0x4000).memory(34, &[LINKAGE, 0x4000]).steps(2));
}

/// All cases of this group.
pub(crate) fn cases(cases: &mut Vec<Case>) {
    for number in 0..16 {
        taken(number, cases);
        refused(number, cases);
    }
    for number in [0, 1, 5, 9, 15] {
        let start = |title: &str| pending(number, title).mk(0xFFFF).marks(0x000D);
        at_edges(32 + 2 * number, start, cases);
    }
    executive(cases);
    executive_at_edges(cases);
    sequences(cases);
}
