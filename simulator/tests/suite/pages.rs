//! Page registers: fields, groups, sets, the order of refusals, and edges of pages.

use crate::bench::{on, refused, Bench};

#[test]
fn reset_maps_every_page_to_itself() {
    let bench = Bench::sized(65_536);
    assert!((0..512).all(|index| bench.pages[index] == index as u16 % 16));
}

#[test]
fn instruction_and_operand_sets_differ() {
    let bench = on(&[0x8010, 0x0100]).operand_page(0, 0x0003).memory(0x3100, &[0x1234]);
    bench.go().has(1, &[0x1234]);
    let bench = Bench::sized(65_536).instruction_page(0, 0x0005).memory(0x5000, &[0x823F]);
    bench.go().has(3, &[0x0010]).ic(1);
}

#[test]
fn indirect_words_use_the_operand_set() {
    let bench = on(&[0x8410, 0x0200]).operand_page(0, 0x0003).memory(0x3200, &[0x0300]);
    bench.memory(0x3300, &[7]).go().has(1, &[7]);
}

#[test]
fn address_state_chooses_the_group() {
    for group in 0..16u16 {
        let mut bench = Bench::sized(65_536).sw(group).memory(0x5000, &[0x8010, 0x2000]);
        bench.pages[usize::from(16 * group)] = 0x0005;
        bench.pages[256 + usize::from(16 * group) + 2] = 0x0007;
        bench.memory(0x7000, &[0x1234]).go().has(1, &[0x1234]).ft(0);
    }
}

#[test]
fn frame_reaches_the_whole_memory() {
    let mut bench = Bench::sized(1_048_576).memory(0, &[0x9010, 0x2FFF]).with(1, &[0x1234]);
    bench = bench.operand_page(2, 0x00FF).go().ft(0);
    assert_eq!(bench.memory[0xF_FFFF], 0x1234);
}

#[test]
fn protection_of_a_read_is_not_looked_at() {
    let bench = on(&[0x8010, 0x2000]).operand_page(2, 0x0802).memory(0x2000, &[5]);
    bench.go().has(1, &[5]).ft(0);
}

#[test]
fn write_protection() {
    refused(on(&[0x9010, 0x2000]).with(1, &[5]).operand_page(2, 0x0802), 0x8000, 0x0102);
    refused(on(&[0x9010, 0x2000]).with(1, &[5]).operand_page(2, 0xF802), 0x8000, 0x0102);
}

#[test]
fn execute_protection() {
    refused(on(&[0xFF00]).instruction_page(0, 0x0800), 0x8000, 0x0101);
    let second = on(&[]).at(0x0FFF).memory(0x0FFF, &[0x8510, 0x1234]);
    refused(second.instruction_page(1, 0x0801), 0x8000, 0x1001);
}

#[test]
fn fetch_refusals_by_lock_and_end() {
    refused(on(&[0xFF00]).sw(0x0010), 0x8000, 0x0101);
    refused(on(&[0xFF00]).instruction_page(0, 0x00FF), 0x0080, 0x0101);
    let second = on(&[]).at(0x0FFF).memory(0x0FFF, &[0x8510]);
    refused(second.instruction_page(1, 0x00FF), 0x0080, 0x1001);
}

#[test]
fn lock_before_protection_before_end() {
    // Lock and end are both wrong: the lock is marked.
    let bench = on(&[0x8010, 0x2000]).sw(0x0020).instruction_page(0, 0xF000);
    refused(bench.operand_page(2, 0x30FF), 0x8000, 0x0102);
    // Write protection and end are both wrong: the protection is marked.
    refused(on(&[0x9010, 0x2000]).operand_page(2, 0x08FF), 0x8000, 0x0102);
    // Execute protection and end are both wrong: the protection is marked.
    refused(on(&[0xFF00]).instruction_page(0, 0x08FF), 0x8000, 0x0101);
}

#[test]
fn illegal_before_privilege_before_second_word() {
    let code = |word| on(&[]).at(0x0FFF).memory(0x0FFF, &[word]).instruction_page(1, 0x08FF);
    refused(code(0x4900), 0x0040, 0x1000);
    refused(code(0x4A10), 0x0040, 0x1000);
    let user = |word| code(word).sw(0x0010).instruction_page(0, 0xF000);
    refused(user(0x4900), 0x0040, 0x1000);
    refused(user(0x4800), 0x0020, 0x1000);
    refused(user(0x7C00), 0x0020, 0x1000);
    refused(user(0x7D00), 0x0020, 0x1000);
    refused(code(0x4800), 0x8000, 0x1001);
}

#[test]
fn double_store_across_pages_is_refused_whole() {
    let bench = |register| {
        let start = on(&[0x9610, 0x2FFF]).with(1, &[0xAAAA, 0xBBBB]);
        start.operand_page(3, register).memory(0x2FFF, &[1]).memory(0x7000, &[2])
    };
    refused(bench(0x0807), 0x8000, 0x0102);
    refused(bench(0x00FF), 0x0080, 0x0102);
    let user = bench(0x5007).sw(0x0040).instruction_page(0, 0xF000).operand_page(2, 0xF002);
    refused(user, 0x8000, 0x0102);
    bench(0x0007).go().holds(0x2FFF, &[0xAAAA]).holds(0x7000, &[0xBBBB]).holds(0x3000, &[0]);
}

#[test]
fn double_load_across_pages() {
    let bench = on(&[0x8610, 0x2FFF]).operand_page(3, 0x0007).memory(0x2FFF, &[0x1111]);
    bench.memory(0x7000, &[0x2222]).go().has(1, &[0x1111, 0x2222]);
}

#[test]
fn pair_across_the_end_of_addresses() {
    let bench = on(&[0x9610, 0xFFFF]).with(1, &[1, 2]).operand_page(0, 0x0805);
    refused(bench, 0x8000, 0x0102);
    let bench = on(&[0x9610, 0xFFFF]).with(1, &[1, 2]).operand_page(0, 0x0005).go();
    bench.holds(0xFFFF, &[1]).holds(0x5000, &[2]).ft(0);
}

#[test]
fn first_word_of_a_pair_decides_the_mark() {
    let bench = on(&[0x8610, 0x2FFF]).operand_page(2, 0x00FF).operand_page(3, 0x5003);
    refused(bench.sw(0x0000), 0x0080, 0x0102);
    let user = on(&[0x8610, 0x2FFF]).sw(0x0040).instruction_page(0, 0xF000);
    refused(user.operand_page(2, 0xF0FF).operand_page(3, 0x5003), 0x0080, 0x0102);
}

#[test]
fn indirect_word_is_checked_first() {
    let bench = on(&[0x9410, 0x2000]).operand_page(2, 0x00FF).operand_page(0, 0x0800);
    refused(bench, 0x0080, 0x0102);
    let bench = on(&[0x9410, 0x2000]).memory(0x2000, &[0x3000]).operand_page(3, 0x0803);
    refused(bench, 0x8000, 0x0102);
}

#[test]
fn every_block_store_is_all_or_none() {
    let words: [u16; 16] = std::array::from_fn(|number| 0x5A00 + number as u16);
    for n in 1..16u16 {
        for before_edge in 1..=n {
            let start = 0x3000 - before_edge;
            let bench = on(&[0x9900 | (n << 4), start]).with(0, &words);
            refused(bench.clone().operand_page(3, 0x0803), 0x8000, 0x0102);
            refused(bench.clone().operand_page(2, 0x00FF), 0x0080, 0x0102);
            bench.operand_page(3, 0x0009).go().holds(start, &words[..usize::from(before_edge)]);
        }
    }
}

#[test]
fn push_is_checked_from_the_top_down() {
    let bench = on(&[0x9F12]).with(15, &[0x3001]);
    let bench = bench.operand_page(3, 0x00FF).operand_page(2, 0x0802);
    refused(bench, 0x0080, 0x0101);
    let bench = on(&[0x9F12]).with(15, &[0x3001]).operand_page(2, 0x00FF).operand_page(3, 0x0803);
    refused(bench, 0x8000, 0x0101);
}

#[test]
fn page_register_written_by_a_command_counts_at_once() {
    // WIPR moves page 0 of group 0 to frame 5: the next fetch comes from there.
    let bench = on(&[0x4810, 0x5100]).with(1, &[0x0005]).memory(0x5102, &[0x823F]);
    bench.go().ic(0x0102).go().has(3, &[0x0010]).ft(0);
}

#[test]
fn status_word_counts_from_the_next_instruction() {
    let mut bench = on(&[0x4810, 0x200E]).with(1, &[0x0002]);
    bench.pages[32] = 0x0006;
    let bench = bench.memory(0x6102, &[0x823F]).go().ic(0x0102).go();
    bench.has(3, &[0x0010]).ft(0);
}
