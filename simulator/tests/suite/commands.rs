//! XIO (5.1): every command, every other command refused, privilege, indexing.

use crate::bench::{on, refused, Bench};

/// XIO R3 with a command after one step.
fn after(command: u16, bench: Bench) -> Bench {
    bench.memory(0x0100, &[0x4830, command]).at(0x0100).go().ft(0).ic(0x0102)
}

fn machine() -> Bench {
    on(&[]).with(3, &[0xA5C3]).sw(0x9000)
}

#[test]
fn mask() {
    assert_eq!(after(0x2000, machine()).state.mk, 0xA5C3);
    let mut bench = machine();
    bench.state.mk = 0x1234;
    after(0xA000, bench).has(3, &[0x1234]).cs(0b1001);
}

#[test]
fn clear_interrupts() {
    let mut bench = machine();
    bench.state.pi = 0x1B3F;
    bench.state.ft = 0xFFFF;
    after(0x2001, bench).pi(0).ft(0);
}

#[test]
fn enable_and_disable() {
    let bench = after(0x2002, machine());
    assert!(bench.state.enabled && bench.state.hold);
    let bench = after(0x2003, bench);
    assert!(!bench.state.enabled && !bench.state.hold);
}

#[test]
fn reset_pending() {
    for number in 0..16u16 {
        let mut bench = on(&[0x4830, 0x2004]).with(3, &[0xFFF0 | number]);
        bench.state.pi = 0xFFFF;
        bench.state.ft = 0x1234;
        bench.state.hold = true;
        let expected = if number == 1 { 0 } else { 0x1234 };
        bench.go().pi(!(0x8000 >> number)).ft(expected).ic(0x0102);
    }
}

#[test]
fn set_pending() {
    let mut bench = machine();
    bench.state.pi = 0x000F;
    let bench = after(0x2005, bench).pi(0xA5C3);
    assert!(bench.state.hold);
}

#[test]
fn status_word() {
    let bench = after(0x200E, machine());
    assert_eq!(bench.state.sw, 0xA5C3);
    let bench = after(0xA00E, machine().sw(0x0F00));
    assert_eq!((bench.state.r[3], bench.state.sw), (0x0F00, 0x0F00));
}

#[test]
fn pending_register() {
    let mut bench = machine();
    bench.state.pi = 0x1B3F;
    after(0xA004, bench).has(3, &[0x1B3F]).pi(0x1B3F).cs(0b1001);
}

#[test]
fn fault_register() {
    let mut bench = on(&[0x4830, 0xA00F]);
    bench.state.ft = 0x1234;
    bench.state.pi = 0x7B3F;
    bench.go().has(3, &[0x1234]).ft(0).pi(0x3B3F).cs(0);
}

#[test]
fn ports() {
    for port in [0x000, 0x001, 0x0FF, 0x100, 0x2AB, 0x3FF] {
        let bench = after(port, machine());
        let changed: Vec<usize> = (0..1024).filter(|index| bench.ports[*index] != 0).collect();
        assert_eq!((changed, bench.ports[usize::from(port)]), (vec![usize::from(port)], 0xA5C3));
        let mut bench = machine();
        bench.ports[usize::from(port)] = 0x1234;
        after(0x8000 | port, bench).has(3, &[0x1234]).cs(0b1001);
    }
}

#[test]
fn page_registers() {
    for number in [0x00, 0x01, 0x10, 0x7F, 0xF0, 0xFF] {
        let index = usize::from(number);
        assert_eq!(after(0x5100 | number, machine()).pages[index], 0xA5C3);
        assert_eq!(after(0x5200 | number, machine()).pages[256 + index], 0xA5C3);
        let mut bench = machine();
        if number != 0 {
            bench.pages[index] = 0x1234;
            bench = after(0xD100 | number, bench).has(3, &[0x1234]);
        }
        bench.pages[256 + index] = 0x5678;
        after(0xD200 | number, bench).has(3, &[0x5678]).cs(0b1001);
    }
}

/// Whether a command is one of the included ones.
fn included(command: u16) -> bool {
    const EXACT: [u16; 20] = [
        0x2000, 0x2001, 0x2002, 0x2003, 0x2004, 0x2005, 0x200E, 0xA000, 0xA004, 0xA00D, 0xA00E,
        0xA00F, 0x4008, 0x4009, 0x400A, 0x400C, 0x400D, 0x400E, 0xC00A, 0xC00E,
    ];
    let upper = command >> 8;
    let ranges = matches!(upper, 0x00..=0x03 | 0x80..=0x83 | 0x51 | 0x52 | 0xD1 | 0xD2);
    ranges || EXACT.contains(&command)
}

#[test]
fn every_other_command_is_refused() {
    let mut bench = on(&[0x4830, 0]).with(3, &[0x8000]);
    let start = bench.clone();
    for command in 0..=0xFFFF {
        bench.memory[0x0101] = command;
        bench.state = start.state.clone();
        bench = bench.go();
        let fault = if included(command) { 0 } else { 0x0400 };
        let pending = if command == 0x2005 {
            0x8000
        } else if fault != 0 {
            0x4000
        } else {
            0
        };
        bench = bench.ft(fault).pi(pending).ic(0x0102);
        if fault != 0 {
            assert_eq!(bench.state.r, start.state.r);
        } else {
            bench.pages.clone_from(&start.pages);
            bench.ports.clone_from(&start.ports);
        }
    }
}

#[test]
fn refused_commands_change_nothing() {
    for command in [0x4000, 0x4001, 0x400B, 0x2006, 0x2008, 0xA001, 0xC000, 0x5000, 0x0400, 0x8400]
    {
        refused(on(&[0x4830, command]).with(3, &[0x1234]), 0x0400, 0x0102);
    }
}

#[test]
fn command_is_indexed() {
    let bench = on(&[0x4831, 0xFFFF]).with(1, &[0x2001]).with(3, &[0x1234]).go();
    assert_eq!((bench.state.mk, bench.state.ft), (0x1234, 0));
    let bench = on(&[0x4833, 0x1FFF]).with(3, &[1]).go();
    assert_eq!((bench.state.mk, bench.state.ft), (1, 0));
}

#[test]
fn privilege_comes_before_the_second_word() {
    for key in 1..16 {
        let bench = on(&[0x4830, 0x2000]).with(3, &[5]).sw(key << 4).instruction_page(0, 0xF000);
        refused(bench, 0x0020, 0x0101);
    }
    // The second word on a forbidden page is not even tried.
    let bench = on(&[]).at(0x0FFF).memory(0x0FFF, &[0x4830]).sw(0x0010);
    refused(bench.instruction_page(0, 0xF000).instruction_page(1, 0x0801), 0x0020, 0x1000);
}
