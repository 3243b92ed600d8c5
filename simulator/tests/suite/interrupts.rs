//! Interrupts: which one is taken, the hold mark, entry with refused words, and BEX (5.30).

use crate::bench::{on, Bench};

/// A machine of 8,192 words of NOP with vectors: linkage at 0400 + 8n, service at 0500 + 8n.
fn vectored() -> Bench {
    let mut bench = Bench::sized(8192);
    bench.memory.fill(0xFF00);
    for number in 0..16u16 {
        let (linkage, service) = (0x0400 + 8 * number, 0x0500 + 8 * number);
        bench = bench.memory(0x20 + 2 * number, &[linkage, service]);
        bench = bench.memory(service, &[0x1111, 0x0000, 0x0600 + number]);
        bench = bench.memory(linkage, &[0, 0, 0]);
    }
    bench.state.ic = 0x0777;
    bench
}

/// The interrupt that a step enters, if any.
fn entered(pi: u16, mk: u16, enabled: bool, hold: bool) -> Option<u16> {
    let mut bench = vectored();
    (bench.state.pi, bench.state.mk) = (pi, mk);
    (bench.state.enabled, bench.state.hold) = (enabled, hold);
    let after = bench.go();
    assert!(!after.state.hold);
    match after.state.ic {
        0x0778 => {
            assert_eq!((after.state.pi, after.state.enabled, after.state.mk), (pi, enabled, mk));
            None
        }
        ic => {
            let number = ic - 0x0600;
            assert_eq!((after.state.pi, after.state.enabled), (pi & !(0x8000 >> number), false));
            let linkage = 0x0400 + 8 * number;
            assert_eq!(after.state.mk, 0x1111);
            after.holds(linkage, &[mk, 0, 0x0777]).ft(0);
            Some(number)
        }
    }
}

#[test]
fn zero_and_five_are_always_takeable() {
    for number in [0, 5] {
        assert_eq!(entered(0x8000 >> number, 0, false, false), Some(number));
    }
}

#[test]
fn one_needs_its_mask_bit_alone() {
    assert_eq!(entered(0x4000, 0, true, false), None);
    assert_eq!(entered(0x4000, 0xBFFF, true, false), None);
    assert_eq!(entered(0x4000, 0x4000, false, false), Some(1));
}

#[test]
fn others_need_mask_bit_and_enabling() {
    for number in (2..16u16).filter(|number| *number != 5) {
        let bit = 0x8000 >> number;
        assert_eq!(entered(bit, 0xFFFF, false, false), None);
        assert_eq!(entered(bit, !bit, true, false), None);
        assert_eq!(entered(bit, bit, true, false), Some(number));
    }
}

#[test]
fn lowest_takeable_number_goes_first() {
    assert_eq!(entered(0xFFFF, 0xFFFF, true, false), Some(0));
    assert_eq!(entered(0x7FFF, 0xFFFF, true, false), Some(1));
    assert_eq!(entered(0x7FFF, 0x3FFF, true, false), Some(2));
    assert_eq!(entered(0x7FFF, 0xFFFF, false, false), Some(1));
    assert_eq!(entered(0x7FFF, 0x0000, true, false), Some(5));
    assert_eq!(entered(0x7BFF, 0x0001, true, false), Some(15));
    assert_eq!(entered(0x7BFF, 0x0001, false, false), None);
}

#[test]
fn hold_mark_holds_all_back_for_one_instruction() {
    assert_eq!(entered(0xFFFF, 0xFFFF, true, true), None);
    assert_eq!(entered(0x8400, 0, false, true), None);
    let mut bench = vectored();
    (bench.state.pi, bench.state.hold) = (0x8000, true);
    bench.go().ic(0x0778).go().ic(0x0600);
}

#[test]
fn faulting_instruction_uses_the_hold_mark_up() {
    let mut bench = vectored().memory(0x0777, &[0x4900]);
    (bench.state.pi, bench.state.hold) = (0x8000, true);
    bench.go().ic(0x0778).ft(0x0040).pi(0xC000).go().ic(0x0600).pi(0x4000);
}

#[test]
fn enable_takes_effect_after_the_next_instruction() {
    let mut bench = vectored().at(0x0700).memory(0x0700, &[0x4830, 0x2002]);
    (bench.state.pi, bench.state.mk) = (0x2000, 0x2000);
    let bench = bench.go().ic(0x0702);
    assert!(bench.state.enabled && bench.state.hold);
    bench.go().ic(0x0703).go().ic(0x0602).holds(0x0412, &[0x0703]);
}

#[test]
fn enable_twice_holds_twice() {
    let mut bench = vectored().at(0x0700).memory(0x0700, &[0x4830, 0x2002, 0x4830, 0x2002]);
    (bench.state.pi, bench.state.mk) = (0x2000, 0x2000);
    bench.go().ic(0x0702).go().ic(0x0704).go().ic(0x0705).go().ic(0x0602);
}

#[test]
fn disable_acts_in_its_own_step() {
    let mut bench = vectored().at(0x0700);
    bench = bench.memory(0x0700, &[0x4830, 0x2002, 0x4830, 0x2003]);
    (bench.state.pi, bench.state.mk) = (0x2000, 0x2000);
    bench.go().go().ic(0x0704).go().ic(0x0705).go().ic(0x0706);
}

#[test]
fn set_pending_takes_effect_after_the_next_instruction() {
    let mut bench = vectored().at(0x0700).memory(0x0700, &[0x4830, 0x2005]).with(3, &[0x2400]);
    (bench.state.mk, bench.state.enabled) = (0x2000, true);
    bench.go().ic(0x0702).pi(0x2400).go().ic(0x0703).go().ic(0x0602).pi(0x0400).go().ic(0x0605);
}

#[test]
fn machine_error_after_a_fault() {
    let mut bench = vectored().memory(0x0777, &[0x4900]);
    bench.state.mk = 0x4000;
    let bench = bench.go().pi(0x4000).ft(0x0040).go().ic(0x0601).pi(0).ft(0x0040);
    bench.holds(0x0408, &[0x4000, 0, 0x0778]);
}

#[test]
fn entry_reads_with_address_state_and_key_zero() {
    let mut bench = vectored().sw(0x0073);
    bench.state.pi = 0x8000;
    // Locks of group 0 admit key 0; the running group 3 leads nowhere.
    for page in 0..16 {
        bench.pages[256 + page] |= 0x5000;
        bench.pages[256 + 48 + page] = 0x00FF;
    }
    bench.go().ic(0x0600).ft(0).holds(0x0400, &[0, 0x0073, 0x0777]);
}

#[test]
fn entry_stores_in_the_new_address_state() {
    let mut bench = vectored().memory(0x0501, &[0x0092]);
    bench.state.pi = 0x8000;
    bench.pages[256 + 32] = 0x5001;
    let bench = bench.memory(0x1400, &[0, 0, 0]).go().ic(0x0600).ft(0);
    let bench = bench.holds(0x1400, &[0, 0, 0x0777]).holds(0x0400, &[0, 0, 0]);
    assert_eq!(bench.state.sw, 0x0092);
}

#[test]
fn entry_stores_all_three_or_none() {
    for (linkage, register, fault) in [(0x0FFE, 0x0801, 0x8000), (0x0FFF, 0x00FF, 0x0080)] {
        let mut bench = vectored().memory(0x0020, &[linkage]);
        bench.state.pi = 0x8000;
        bench.pages[256 + 1] = register;
        let before = bench.memory.clone();
        let after = bench.go().ic(0x0600).ft(fault).pi(0x4000);
        assert!(after.memory == before);
    }
}

#[test]
fn first_refused_store_alone_is_marked() {
    // The first store is write protected, the second outside the memory.
    let mut bench = vectored().memory(0x0020, &[0x0FFF]);
    bench.state.pi = 0x8000;
    bench.pages[256 + 16] = 0x0800;
    bench.pages[256 + 17] = 0x00FF;
    bench.memory(0x0501, &[0x0001]).go().ft(0x8000).pi(0x4000);
}

#[test]
fn refused_vector_words_count_as_zero() {
    let mut bench = vectored();
    bench.state.pi = 0x8000;
    bench.state.mk = 0x3333;
    bench.pages[256] = 0x00FF;
    // Pointers and new state are all 0; the stores go to 0 in group 0, refused as well.
    let bench = bench.go().ft(0x0080).pi(0x4000).ic(0);
    assert_eq!((bench.state.mk, bench.state.sw), (0, 0));
}

#[test]
fn refused_service_words_count_as_zero_one_by_one() {
    let mut bench = vectored().memory(0x0021, &[0x0FFE]).memory(0x0FFE, &[0x2222, 0x0005]);
    bench.state.pi = 0x8000;
    bench.pages[256 + 1] = 0x00FF;
    let bench = bench.go().ft(0x0080).pi(0x4000).ic(0).holds(0x0400, &[0, 0, 0x0777]);
    assert_eq!((bench.state.mk, bench.state.sw), (0x2222, 0x0005));
}

#[test]
fn refused_read_and_refused_store_mark_both() {
    let mut bench = vectored().memory(0x0020, &[0x0400, 0x1000]);
    bench.state.pi = 0x8000;
    bench.pages[256 + 1] = 0x00FF;
    bench.pages[256] = 0x0800;
    bench.go().ft(0x8080).pi(0x4000).ic(0);
}

#[test]
fn write_protection_does_not_hinder_vector_reads() {
    let mut bench = vectored();
    bench.state.pi = 0x8000;
    bench.pages[256] = 0x0800;
    bench.go().ft(0x8000).pi(0x4000).ic(0x0600).holds(0x0400, &[0, 0, 0]);
}

#[test]
fn entry_of_one_with_a_refused_word_pends_again() {
    let mut bench = vectored();
    (bench.state.pi, bench.state.mk, bench.state.ft) = (0x4000, 0x4000, 0x0040);
    bench.pages[256] = 0x0800;
    let bench = bench.go().ic(0x0601).pi(0x4000).ft(0x8040);
    assert_eq!(bench.state.mk, 0x1111);
}

#[test]
fn entry_addresses_wrap() {
    let mut bench = on(&[]).at(0x0777).memory(0x0020, &[0xFFFF, 0xFFFE]);
    bench = bench.memory(0xFFFE, &[0x1111, 0x0000]).memory(0, &[0x0900]);
    bench.state.pi = 0x8000;
    bench.state.mk = 0x2222;
    bench.go().ic(0x0900).holds(0xFFFF, &[0x2222]).holds(0, &[0, 0x0777]).ft(0);
}

#[test]
fn entry_changes_no_general_register() {
    let mut bench = vectored().with(0, &[7; 16]);
    bench.state.pi = 0x8000;
    let bench = bench.go().has(0, &[7; 16]);
    assert_eq!((bench.state.counter, bench.state.timer_a), (1, 1));
}

#[test]
fn branch_to_executive() {
    for entry in 0..16u16 {
        let mut bench = vectored().memory(0x0777, &[0x7700 | entry]).sw(0x9000);
        bench.state.mk = 0x3333;
        bench.state.enabled = true;
        bench = bench.memory(0x0528, &[0x4444, 0x0003]);
        bench = bench.memory(0x052A, &std::array::from_fn::<u16, 16, _>(|n| 0x0900 + n as u16));
        let bench = bench.go().ic(0x0900 + entry).pi(0).ft(0);
        let bench = bench.holds(0x0428, &[0x3333, 0x9000, 0x0778]);
        let state = bench.state;
        assert_eq!((state.mk, state.sw, state.enabled, state.hold), (0x4444, 3, false, false));
    }
}

#[test]
fn branch_to_executive_ignores_the_key() {
    let mut bench = vectored().memory(0x0777, &[0x7702]).sw(0x0073);
    for page in 0..16 {
        bench.pages[48 + page] |= 0xF000;
        bench.pages[256 + 48 + page] = 0x00FF;
    }
    let bench = bench.memory(0x0528, &[0, 0, 0, 0, 0x0900]).go().ic(0x0900).ft(0);
    bench.holds(0x0428, &[0, 0x0073, 0x0778]);
}

#[test]
fn branch_to_executive_with_refused_words() {
    let mut bench = vectored().memory(0x0777, &[0x770F]).memory(0x002A, &[0x0428, 0x0FF0]);
    bench = bench.memory(0x0FF0, &[0x2222, 0x0000]);
    bench.pages[256 + 1] = 0x00FF;
    // The new IC is at 1001, outside the memory: it counts as 0.
    let bench = bench.go().ic(0).ft(0x0080).pi(0x4000).holds(0x0428, &[0, 0, 0x0778]);
    assert_eq!(bench.state.mk, 0x2222);
}

#[test]
fn branch_to_executive_stores_all_or_none() {
    let mut bench = vectored().memory(0x0777, &[0x7700]).memory(0x002A, &[0x0FFF]);
    bench.pages[256 + 1] = 0x0801;
    let before = bench.memory.clone();
    let after = bench.go().ic(0x0605).ft(0x8000).pi(0x4000);
    assert!(after.memory == before);
}

#[test]
fn branch_into_a_protected_page_faults_in_the_next_step() {
    let mut bench = vectored().memory(0x0777, &[0x7700]).memory(0x052A, &[0x1000]);
    bench.pages[1] = 0x0801;
    bench.go().ic(0x1000).ft(0).go().ic(0x1001).ft(0x8000).pi(0x4000);
}

#[test]
fn executive_call_that_was_pending_is_taken_like_any_other() {
    assert_eq!(entered(0x0400, 0, false, false), Some(5));
}
