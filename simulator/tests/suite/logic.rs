//! Logical, conversion, exchange and compare instructions (5.81 to 5.97).

use crate::bench::on;

/// Checks a logical operation of 00FF and 0F0F in its register, direct and immediate forms.
#[track_caller]
fn logical(direct: u16, register: u16, extension: u16, result: u16, cs: u16) {
    let words = [0x00FF, 0x0F0F];
    on(&[register | 0x12]).with(1, &words).go().has(1, &[result]).fine(cs, 0);
    let bench = on(&[direct | 0x10, 0x0200]).with(1, &words).memory(0x0200, &[0x0F0F]);
    bench.go().has(1, &[result]).fine(cs, 0).ic(0x0102);
    let bench = on(&[direct | 0x13, 0x0200]).with(1, &[0x00FF, 0, 4]).memory(0x0204, &[0x0F0F]);
    bench.go().has(1, &[result]).fine(cs, 0);
    let bench = on(&[0x4A10 | extension, 0x0F0F]).with(1, &words).go();
    bench.has(1, &[result]).fine(cs, 0).ic(0x0102);
}

#[test]
fn logical_operations() {
    logical(0xE000, 0xE100, 0x8, 0x0FFF, 0b0100);
    logical(0xE200, 0xE300, 0x7, 0x000F, 0b0100);
    logical(0xE400, 0xE500, 0x9, 0x0FF0, 0b0100);
    logical(0xE600, 0xE700, 0xB, 0xFFF0, 0b0001);
    on(&[0xE511]).with(1, &[0x1234]).sw(0xF000).go().has(1, &[0]).fine(0b0010, 0);
    on(&[0xE711]).with(1, &[0x1234]).go().has(1, &[0xEDCB]).fine(0b0001, 0);
}

#[test]
fn logical_operations_by_base() {
    for base in 0..4u16 {
        let start = |code| {
            let bench = on(&[code | (base << 8)]).with(1, &[9, 0x00FF]).memory(0x0209, &[0x0F0F]);
            bench.with(12 + usize::from(base), &[0x0200]).go()
        };
        start(0x3009).has(2, &[0x0FFF]).fine(0b0100, 0);
        start(0x3409).has(2, &[0x000F]).fine(0b0100, 0);
        start(0x3809).has(2, &[0x00FF]).fine(0b0001, 0);
        start(0x40F1).has(2, &[0x0FFF]).fine(0b0100, 0);
        start(0x40E1).has(2, &[0x000F]).fine(0b0100, 0);
        start(0x40C1).has(2, &[0x00FF]).fine(0b0001, 0);
    }
}

#[test]
fn exchanges() {
    on(&[0xEC10]).with(1, &[0x1280]).go().has(1, &[0x8012]).fine(0b0001, 0);
    on(&[0xEC17]).with(1, &[0x0000]).go().has(1, &[0]).fine(0b0010, 0);
    on(&[0xED12]).with(1, &[0x8000, 0x0001]).go().has(1, &[1, 0x8000]).fine(0b0100, 0);
    on(&[0xED11]).with(1, &[0x8000]).go().has(1, &[0x8000]).fine(0b0001, 0);
}

#[test]
fn compares_are_signed() {
    let rows = [
        (5, 5, 0b0010),
        (4, 5, 0b0001),
        (6, 5, 0b0100),
        (0x8000, 0x7FFF, 0b0001),
        (1, 0xFFFF, 0b0100),
    ];
    for (left, right, cs) in rows {
        on(&[0xF112]).with(1, &[left, right]).sw(0x8000).go().has(1, &[left, right]).fine(cs, 0);
        on(&[0xF010, 0x0200]).with(1, &[left]).memory(0x0200, &[right]).go().fine(cs, 0);
        on(&[0xF013, 0x0200]).with(1, &[left, 0, 2]).memory(0x0202, &[right]).go().fine(cs, 0);
        on(&[0x4A1A, right]).with(1, &[left]).go().has(1, &[left]).fine(cs, 0);
    }
    on(&[0xF21F]).with(1, &[16]).go().fine(0b0010, 0);
    on(&[0xF210]).with(1, &[0xFFFF]).go().fine(0b0001, 0);
    on(&[0xF31F]).with(1, &[0xFFF0]).go().fine(0b0010, 0);
    on(&[0xF310]).with(1, &[0]).go().fine(0b0100, 0);
}

#[test]
fn compare_between_limits() {
    let check = |value, low, high, cs| {
        let bench = on(&[0xF410, 0x0200]).with(1, &[value]).memory(0x0200, &[low, high]);
        bench.go().has(1, &[value]).fine(cs, 0);
        let bench = on(&[0xF412, 0x0200]).with(1, &[value, 5]).memory(0x0205, &[low, high]);
        bench.go().fine(cs, 0);
    };
    check(5, 5, 7, 0b0010);
    check(7, 5, 7, 0b0010);
    check(4, 5, 7, 0b0001);
    check(8, 5, 7, 0b0100);
    check(6, 7, 5, 0b1000);
    check(0xFFFF, 0x8000, 0x0000, 0b0010);
    check(0x8000, 0x0000, 0xFFFF, 0b1000);
    check(3, 3, 3, 0b0010);
}

#[test]
fn double_compares() {
    let check = |left: [u16; 2], right: [u16; 2], cs| {
        on(&[0xF713]).with(1, &left).with(3, &right).go().has(1, &left).fine(cs, 0);
        on(&[0xF610, 0x0200]).with(1, &left).memory(0x0200, &right).go().fine(cs, 0);
        let indexed = on(&[0xF613, 0x0200]).with(1, &left).with(3, &[2]).memory(0x0202, &right);
        indexed.go().fine(cs, 0);
    };
    check([1, 2], [1, 2], 0b0010);
    check([1, 0x8000], [1, 0x7FFF], 0b0100);
    check([0x8000, 0], [0x7FFF, 0xFFFF], 0b0001);
    check([0xFFFF, 0], [0xFFFF, 1], 0b0001);
}

#[test]
fn no_operation_and_break_point() {
    for code in [0xFF00, 0xFFFF] {
        let before = on(&[code]).with(0, &[7; 16]).sw(0x9000);
        let after = before.clone().go().ic(0x0101).fine(0b1001, 0);
        assert_eq!((after.state.r, after.memory == before.memory), (before.state.r, true));
    }
}
