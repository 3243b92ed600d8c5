//! Mnemonic lines: known ones, every first word printed and read back, damaged lines, the program
//! `lines`, and the files kept for it.

use crate::opcodes::every_length;
use crate::test_cases::{all_found, instructions};
use simulator::lines::{answers, print, read, requests, Words, LINE_BYTES};
use std::collections::{BTreeMap, BTreeSet};
use std::path::PathBuf;

/// Lines of one word, and their words.
const ONE: &[(u16, &str)] = &[
    (0x823F, "LISP R3,16"),
    (0x8330, "LISN R3,1"),
    (0xC3F0, "MISN R15,1"),
    (0x60F5, "SLL R5,16"),
    (0x6005, "SLL R5,1"),
    (0x5135, "SBR 3,R5"),
    (0x5A35, "SVBR R3,R5"),
    (0x6A35, "SLR R3,R5"),
    (0x7480, "BR -128"),
    (0x74FF, "BR -1"),
    (0x7400, "BR 0"),
    (0x797F, "BGT 127"),
    (0x0000, "LB R12,0"),
    (0x3FFF, "FCB R15,255"),
    (0x1680, "SBB R14,128"),
    (0x4310, "DLBX R15"),
    (0x4317, "DLBX R15,R7"),
    (0x40E1, "ANDX R12,R1"),
    (0x40FF, "ORBX R12,R15"),
    (0x4033, "DSTX R12,R3"),
    (0x4290, "FSBX R14"),
    (0xFF00, "NOP"),
    (0xFFFF, "BPT"),
    (0x68F0, "DSLC R0,16"),
    (0xDB12, "EFDR R1,R2"),
];

/// Lines of two words, and their words.
const TWO: &[(u16, u16, &str)] = &[
    (0x50F2, 0x1234, "SB 15,1234,R2"),
    (0x50F0, 0x1234, "SB 15,1234"),
    (0xA3F0, 0x0100, "INCM 16,0100"),
    (0xA300, 0x0100, "INCM 1,0100"),
    (0x8930, 0x2000, "LM 3,2000"),
    (0x9100, 0x0200, "STC 0,0200"),
    (0x4810, 0x2000, "XIO R1,2000"),
    (0x4812, 0x2000, "XIO R1,2000,R2"),
    (0x4800, 0x4000, "XIO R0,4000"),
    (0x853A, 0xBEEF, "LIM R3,BEEF,R10"),
    (0x4A3B, 0x00FF, "NIM R3,00FF"),
    (0x4A31, 0x0005, "AIM R3,0005"),
    (0x7070, 0x00AB, "JC 7,00AB"),
    (0x71F1, 0xFFFF, "JCI 15,FFFF,R1"),
    (0x7310, 0x0100, "SOJ R1,0100"),
    (0xB010, 0x0100, "S R1,0100"),
    (0xD010, 0x0100, "DV R1,0100"),
    (0xD610, 0x0100, "DD R1,0100"),
    (0x8E1F, 0x0100, "LLBI R1,0100,R15"),
];

/// Words with fields that no line shows, the line, and the first word that it reads back to.
const HIDDEN: &[(u16, u16, &str, u16)] = &[
    (0x7D5A, 0x1000, "LST 1000,R10", 0x7D0A),
    (0x7CF0, 0x1000, "LSTI 1000", 0x7C00),
    (0x77A3, 0, "BEX 3", 0x7703),
    (0x7F3C, 0, "URS R3", 0x7F30),
    (0xEC5F, 0, "XBR R5", 0xEC50),
];

/// How many first words are legal: the base relative ones, the base relative indexed ones, eleven
/// extensions of 4A, 150 other opcodes, NOP and BPT: 55,986. With VIO there would be 256 more.
const LEGAL: u32 = 64 * 256 + 4 * 256 + 11 * 16 + 150 * 256 + 2;
/// The longest line that a print has: four letters, a blank, and operands such as `R15,1234,R15`.
const LONGEST: usize = 17;

/// The mnemonics by the index at the end of the standard, its commands, VIO, STZ and STZI aside.
const NAMES: &str = "\
    A AB ABS ABX AIM AISP AND ANDB ANDM ANDR ANDX AR BEX BEZ BGE BGT BLE BLT BNZ BPT BR C CB \
    CBL CBX CIM CISN CISP CR D DA DABS DAR DB DBX DC DCR DD DDR DECM DIM DISN DISP DL DLB DLBX \
    DLI DLR DM DMR DNEG DR DS DSAR DSCR DSLC DSLL DSLR DSR DSRA DSRL DST DSTB DSTI DSTX DV \
    DVIM DVR EFA EFAR EFC EFCR EFD EFDR EFIX EFL EFLT EFM EFMR EFS EFSR EFST FA FAB FABS FABX \
    FAR FC FCB FCBX FCR FD FDB FDBX FDR FIX FLT FM FMB FMBX FMR FNEG FS FSB FSBX FSR INCM JC \
    JCI JS L LB LBX LI LIM LISN LISP LLB LLBI LM LR LST LSTI LUB LUBI M MB MBX MIM MISN MISP \
    MOV MR MS MSIM MSR N NEG NIM NOP NR OR ORB ORBX ORIM ORR POPM PSHM RB RBI RBR RVBR S SAR \
    SB SBB SBBX SBI SBR SCR SIM SISP SJS SLBI SLC SLL SLR SOJ SR SRA SRL SRM ST STB STBX STC \
    STCI STI STLB STM STUB SUBI SVBR TB TBI TBR TSB TVBR URS XBR XIO XOR XORM XORR XWR";

/// The mnemonics by the operands of their boxes: the operands with numbers, the bits of the first
/// word that hold them and what these are.
const BOXES: &[(&str, u16, u16, &str)] = &[
    ("", 0x0000, 0x0000, "NOP BPT"),
    ("R1", 0x00F0, 0x0010, "URS XBR"),
    (
        "R1,R2",
        0x00FF,
        0x0012,
        "SVBR RVBR TVBR SLR SAR SCR DSLR DSAR DSCR LR DLR POPM MOV PSHM AR ABS DABS DAR FAR EFAR \
         FABS SR NEG DNEG DSR FSR EFSR FNEG MSR MR DMR FMR EFMR DVR DR DDR FDR EFDR ORR ANDR XORR \
         NR FIX FLT EFIX EFLT XWR CR DCR FCR EFCR",
    ),
    ("1,R2", 0x00FF, 0x0012, "SBR RBR TBR"),
    ("R2,2", 0x00FF, 0x0012, "SLL SRL SRA SLC DSLL DSRL DSRA DSLC"),
    ("R1,3", 0x00FF, 0x0012, "LISP LISN AISP SISP MISP MISN DISP DISN CISP CISN"),
    ("18", 0x00FF, 0x0012, "BR BEZ BLT BLE BGT BNZ BGE"),
    ("2", 0x000F, 0x0002, "BEX"),
    ("R13,18", 0x03FF, 0x0112, "LB DLB STB DSTB AB SBB FAB FSB MB DB FMB FDB ORB ANDB CB FCB"),
    (
        "R13,R2",
        0x030F,
        0x0102,
        "LBX DLBX STBX DSTX ABX SBBX FABX FSBX MBX DBX FMBX FDBX ORBX ANDX CBX FCBX",
    ),
    ("R1,ABCD", 0x00F0, 0x0010, "AIM SIM MSIM MIM DVIM DIM ORIM ANDM XORM NIM CIM"),
    (
        "R1,ABCD,R2",
        0x00FF,
        0x0012,
        "XIO JS SOJ SJS L LIM LI DL DLI EFL LUB LUBI LLB LLBI ST STI DST DSTI SRM EFST STUB SUBI \
         STLB SLBI A DA FA EFA S DS FS EFS MS M DM FM EFM DV D DD FD EFD OR AND XOR N C CBL DC FC \
         EFC",
    ),
    ("1,ABCD,R2", 0x00FF, 0x0012, "SB SBI RB RBI TB TBI TSB JC JCI LM STC STCI STM"),
    ("2,ABCD,R2", 0x00FF, 0x0012, "INCM DECM"),
    ("ABCD,R2", 0x000F, 0x0002, "LST LSTI"),
];

/// What a first word reads back as after printing: the fields that no line shows are 0.
fn shown(first: u16) -> u16 {
    match first >> 8 {
        0x77 | 0x7C | 0x7D => first & 0xFF0F,
        0x7F | 0xEC => first & 0xFFF0,
        _ => first,
    }
}

/// The line of words as bytes, as it is printed.
fn printed(words: Words) -> Option<Vec<u8>> {
    match words {
        Words::One(first) => print(first, 0x5555),
        Words::Two(first, second) => print(first, second),
    }
    .map(String::into_bytes)
}

/// The mnemonic of a line.
fn mnemonic(line: &str) -> &str {
    line.split(' ').next().expect("a part")
}

#[test]
fn known_lines_both_ways() {
    for (first, line) in ONE {
        for second in [0x0000, 0x1234, 0xFFFF] {
            assert_eq!(print(*first, second).as_deref(), Some(*line), "{first:04X}");
        }
        assert_eq!(read(line.as_bytes()), Ok(Words::One(*first)), "{line}");
    }
    for (first, second, line) in TWO {
        assert_eq!(print(*first, *second).as_deref(), Some(*line), "{first:04X}");
        assert_eq!(read(line.as_bytes()), Ok(Words::Two(*first, *second)), "{line}");
    }
}

#[test]
fn fields_that_no_line_shows() {
    for (first, second, line, back) in HIDDEN {
        assert_eq!(print(*first, *second).as_deref(), Some(*line), "{first:04X}");
        let words = match second {
            0 => Words::One(*back),
            _ => Words::Two(*back, *second),
        };
        assert_eq!(read(line.as_bytes()), Ok(words), "{line}");
    }
}

#[test]
fn words_that_begin_no_instruction() {
    for first in [0xFF0F, 0x4A30, 0x4A3C, 0x4400, 0x9500, 0x4900, 0xFF01, 0xFFFE, 0x4AF0] {
        assert_eq!(print(first, 0), None, "{first:04X}");
    }
}

#[test]
fn unknown_mnemonics() {
    let lines = ["", " NOP", "nop", "NOP\n", "STZ 1000", "SDR 1,R2", "XYZ R99", "LISP\tR3,16"];
    let more =
        ["NSR R1,R2", "OSLC R1,1", "EFOR R1,R2", "VIO R1,2000", "STZI 1000", "NOP\0", "A\0 x"];
    for line in lines.into_iter().chain(more) {
        assert_eq!(read(line.as_bytes()), Err(14), "{line:?}");
    }
    assert_eq!(read(&[0x41, 0xFF]), Err(14));
    assert_eq!(read(&vec![b'A'; 100_000]), Err(14));
}

#[test]
fn operands_of_another_form() {
    let lines =
        "NOP |NOP R1|LISP|LISP |LISP R3|LISP R3,-1|LISP R03,1|LISP r3,1|LISP R3, 1|LISP  R3,1|\
        LISP R3,1,|LISP R16,x|L R1,100|L R1,01000|L R1,00ab|L R1,0100,R0|L R16,0100,R0|LBX R12,R0|\
        AIM R1,0001,R2|BR -0|BR 0128|BR +1|BR -|LB R12,-1|JC LT,0100|JS R1,256|BR -01|BR --1|BR R1|\
        LISP 3,1|LISP R,1|SBR R3,R5|SLL 16,R5|LST 1000,R00|URS R3,R4|LBX R0,R0|LBX R12,|XIO R1,SMK";
    for line in lines.split('|') {
        assert_eq!(read(line.as_bytes()), Err(15), "{line:?}");
    }
}

#[test]
fn operands_outside_their_field() {
    let lines = "LISP R3,0|LISP R3,17|LISP R16,1|SLL R1,0|SB 16,0100|JC 16,0100|LM 16,0100|BEX 16|\
        BR 128|BR -129|LB R11,0|LB R0,0|LB R12,256|L R1,0100,R16|LISP R3,99999999999999999999|\
        LISP R18446744073709551619,1|L R16,0100,R17|LBX R11|LBX R16|STC 16,0200|INCM 17,0100|\
        URS R16";
    for line in lines.split('|') {
        assert_eq!(read(line.as_bytes()), Err(16), "{line:?}");
    }
}

#[test]
fn decimals_of_any_size() {
    // A valid number and a power of two, and numbers of very many digits.
    for power in [8, 16, 32, 64, 127] {
        let number = 3 + (1u128 << power);
        assert_eq!(read(format!("LISP R3,{number}").as_bytes()), Err(16), "2^{power}");
        assert_eq!(read(format!("LISP R{number},3").as_bytes()), Err(16), "2^{power}");
        assert_eq!(read(format!("BR -{number}").as_bytes()), Err(16), "2^{power}");
    }
    for length in 3..400 {
        let digits = "9".repeat(length);
        assert_eq!(read(format!("LB R12,{digits}").as_bytes()), Err(16), "{length} digits");
        assert_eq!(read(format!("LB R12,0{digits}").as_bytes()), Err(15), "{length} digits");
        assert_eq!(read(format!("BR -1{}", "0".repeat(length)).as_bytes()), Err(16), "{length}");
    }
    assert_eq!(read(format!("SB {},0100", "7".repeat(1_000_000)).as_bytes()), Err(16));
    assert_eq!(read(format!("SB {},0100", "0".repeat(1_000_000)).as_bytes()), Err(15));
}

#[test]
fn every_first_word_as_the_machine_takes_it() {
    let mut legal = 0;
    every_length(|first, length| {
        let words = print(first, 0x2468).map(|line| read(line.as_bytes()));
        let found = match words {
            None => 0,
            Some(Ok(Words::One(_))) => 1,
            Some(Ok(Words::Two(..))) => 2,
            Some(Err(refusal)) => panic!("{first:04X}: refused {refusal}"),
        };
        assert_eq!(found, length, "first word {first:04X}");
        legal += u32::from(found != 0);
    });
    assert_eq!(legal, LEGAL);
}

#[test]
fn every_first_word_is_printed_and_read_back() {
    let (mut legal, mut longest) = (0, 0);
    for first in 0..=0xFFFF {
        let mut lines = BTreeSet::new();
        for second in [0x09AF, 0xF651] {
            let Some(line) = print(first, second) else { continue };
            let words = read(line.as_bytes()).unwrap_or_else(|refusal| panic!("{line}: {refusal}"));
            match words {
                Words::One(back) => assert_eq!(back, shown(first), "{line}"),
                Words::Two(back, other) => {
                    assert_eq!((back, other), (shown(first), second), "{line}")
                }
            }
            assert_eq!(printed(words).as_deref(), Some(line.as_bytes()));
            longest = longest.max(line.len());
            legal += 1;
            lines.insert((line, matches!(words, Words::Two(..))));
        }
        // Two second words make two lines exactly where the instruction has a second word.
        assert!(lines.iter().all(|(_, two)| (lines.len() == 2) == *two), "{first:04X}");
    }
    assert_eq!((legal, longest), (2 * LEGAL, LONGEST));
}

#[test]
fn lines_are_unlike_each_other() {
    let mut lines = BTreeMap::new();
    for first in 0..=0xFFFF {
        if let Some(line) = print(first, 0x0100) {
            let other = lines.entry(line).or_insert(shown(first));
            assert_eq!(*other, shown(first));
        }
    }
}

#[test]
fn names_are_those_of_the_index() {
    let index: BTreeSet<String> = NAMES.split_whitespace().map(String::from).collect();
    let lines = (0..=0xFFFF).filter_map(|first| print(first, 0));
    let names: BTreeSet<String> = lines.map(|line| mnemonic(&line).to_string()).collect();
    assert_eq!(index.len(), 195);
    assert_eq!(names, index);
}

#[test]
fn every_mnemonic_has_the_operands_of_its_box() {
    let mut found = BTreeSet::new();
    for (operands, mask, bits, names) in BOXES {
        for name in names.split_whitespace() {
            let line = format!("{name} {operands}").trim_end().to_string();
            let first = match read(line.as_bytes()) {
                Ok(Words::One(first)) if !line.contains("ABCD") => first,
                Ok(Words::Two(first, 0xABCD)) => first,
                answer => panic!("{line}: {answer:04X?}"),
            };
            assert_eq!(first & mask, *bits, "{line}");
            found.insert(name);
        }
    }
    assert_eq!(found, NAMES.split_whitespace().collect());
}

#[test]
fn names_are_those_of_the_cases() {
    let index: BTreeSet<&str> = NAMES.split_whitespace().collect();
    let mut found = BTreeSet::new();
    for (case, first, ..) in instructions() {
        let title = case.title.split(' ').nth(2).expect("a title").trim_end_matches(',');
        if index.contains(title) {
            let line = print(first, 0).expect("an instruction");
            assert_eq!(mnemonic(&line), title, "{}", case.title);
            found.insert(title);
        }
    }
    all_found(index, &found);
}

/// One line of every mnemonic with and without an index, at three places of its fields.
fn samples() -> BTreeSet<String> {
    let lows = [0x00, 0x01, 0x0F, 0x10, 0x63, 0x7F, 0x80, 0x9C, 0xF0, 0xFF];
    let firsts = (0x00..=0xFF).flat_map(|opcode: u16| lows.map(|low| (opcode << 8) | low));
    let extended = (0x40..=0x4A).flat_map(|opcode| (0..=0xFF).map(move |low| (opcode << 8) | low));
    firsts.chain(extended).filter_map(|first| print(first, 0x90AF)).collect()
}

/// A line with each of its bytes dropped, doubled, changed to any other, or followed by any other.
fn damaged(line: &[u8]) -> Vec<Vec<u8>> {
    let mut lines = vec![[line, b" "].concat(), [line, b","].concat()];
    for place in 0..line.len() {
        lines.push([&line[..place], &line[place + 1..]].concat());
        lines.push([&line[..=place], &line[place..]].concat());
        for byte in (0..=0xFF).filter(|byte| *byte != line[place]) {
            lines.push([&line[..place], &[byte], &line[place + 1..]].concat());
        }
    }
    lines
}

#[test]
fn damaged_lines_are_refused_or_are_lines() {
    let mut counts = BTreeMap::new();
    for line in samples() {
        for damaged in damaged(line.as_bytes()) {
            let answer = read(&damaged);
            *counts.entry(answer.err()).or_insert(0) += 1;
            if let Ok(words) = answer {
                assert_eq!(printed(words).as_ref(), Some(&damaged), "{line} damaged");
            }
        }
    }
    let kinds: Vec<Option<u8>> = counts.keys().copied().collect();
    assert_eq!(kinds, [None, Some(14), Some(15), Some(16)]);
    assert!(counts.values().all(|count| *count > 1_000), "{counts:?}");
}

/// Checks what the program writes.
#[track_caller]
fn writes(input: &str, output: &str) {
    assert_eq!(String::from_utf8(answers(input.as_bytes())).as_deref(), Ok(output));
}

#[test]
fn the_program_answers() {
    writes("", "");
    writes("\n", "malformed line 1\n");
    writes("W 823F 0000\nL LISP R3,16\n", "LISP R3,16\n823F\n");
    writes("L L R1,0100,R2\nW 8012 0100", "8012 0100\nL R1,0100,R2\n");
    writes(
        "L \nW 4900 0000\nL NOP \nL BR 128\n",
        "refused 14\nrefused 14\nrefused 15\nrefused 16\n",
    );
    writes("L\n\nL NOP\nL NOP\r\n", "malformed line 1\nmalformed line 2\nFF00\nrefused 14\n");
    writes("L  NOP\nW 823F 0000\r\nNOP\n", "refused 14\nmalformed line 2\nmalformed line 3\n");
}

#[test]
fn malformed_requests() {
    let lines = "W|W |W 823F|W 823F 000|W 823F 00000|W  823F 0000|W 823F  0000|W823F 0000|\
        w 823F 0000|W 823f 0000|W 823F 000a|W 823F 0000 |W 823F\t0000|W\t823F 0000| W 823F 0000|\
        W 823G 0000|L|LNOP|l NOP|L\tNOP|X NOP| L NOP|W +23F 0000|W 0x82 0000|#";
    for line in lines.split('|') {
        writes(line, "malformed line 1\n");
    }
}

#[test]
fn the_longest_line_of_the_input() {
    for (length, answer) in [(LINE_BYTES, "refused 14"), (LINE_BYTES + 1, "malformed line 1")] {
        let input = format!("L {}", "A".repeat(length - 2));
        writes(&input, &format!("{answer}\n"));
        writes(&format!("{input}\nL NOP"), &format!("{answer}\nFF00\n"));
    }
    let digits = "1".repeat(LINE_BYTES - 10);
    writes(&format!("L LISP R3,{digits}\n"), "refused 16\n");
    writes(&format!("L LISP R3,{digits}1\n"), "malformed line 1\n");
    writes(&format!("W 823F 0000{}", "0".repeat(LINE_BYTES)), "malformed line 1\n");
    assert_eq!(LINE_BYTES, 65_536);
}

/// A file of the program `lines`.
fn kept(name: &str) -> Vec<u8> {
    let folder = PathBuf::from(env!("CARGO_MANIFEST_DIR")).join("../crates/lines");
    std::fs::read(folder.join(name)).expect("a kept file")
}

/// The lines of a text, without an empty one behind the last newline.
fn lines(text: &[u8]) -> Vec<&[u8]> {
    text.strip_suffix(b"\n").unwrap_or(text).split(|byte| *byte == b'\n').collect()
}

/// Checks a text line by line, so that a difference is found by its number.
fn same(kept: &[u8], written: &[u8]) {
    for (number, (old, new)) in (1..).zip(lines(kept).into_iter().zip(lines(written))) {
        assert_eq!(old, new, "line {number}");
    }
    assert!(kept == written, "one text is longer");
}

#[test]
fn kept_files_are_what_is_written() {
    let input = requests();
    same(&kept("stdin"), &input);
    same(&kept("stdout"), &answers(&input));
    assert!(input.len() < 300_000 && input.last() != Some(&b'\n'), "{} bytes", input.len());
}

/// The kept requests with their answers.
fn pairs() -> Vec<(Vec<u8>, String)> {
    let (input, output) = (kept("stdin"), kept("stdout"));
    let (requests, answers) = (lines(&input), lines(&output));
    assert_eq!(requests.len(), answers.len());
    let text = |bytes: &[u8]| String::from_utf8(bytes.to_vec()).expect("an answer");
    requests.into_iter().zip(answers).map(|(r, a)| (r.to_vec(), text(a))).collect()
}

#[test]
fn every_mnemonic_is_requested_both_ways() {
    let mut found = BTreeSet::new();
    for (request, answer) in pairs() {
        let request = String::from_utf8_lossy(&request).into_owned();
        let printed = !answer.starts_with("malformed ") && !answer.starts_with("refused ");
        if request.starts_with("W ") && printed {
            found.insert((mnemonic(&answer).to_string(), "W".to_string()));
        } else if let Some(line) = request.strip_prefix("L ") {
            let kind = answer.strip_prefix("refused ").unwrap_or("L");
            found.insert((mnemonic(line).to_string(), kind.to_string()));
        }
    }
    for name in NAMES.split_whitespace() {
        all_found(["W", "L", "15"].map(|kind| (name.to_string(), kind.to_string())), &found);
        if !["NOP", "BPT"].contains(&name) {
            all_found([(name.to_string(), "16".to_string())], &found);
        }
    }
}

#[test]
fn every_opcode_and_extension_is_requested() {
    let found: BTreeSet<(u16, bool)> = pairs()
        .into_iter()
        .filter(|(request, answer)| request.starts_with(b"W ") && !answer.starts_with("malformed"))
        .map(|(request, answer)| {
            let digits = std::str::from_utf8(&request[2..6]).expect("digits");
            (u16::from_str_radix(digits, 16).expect("a word"), answer != "refused 14")
        })
        .collect();
    for (first, legal) in &found {
        assert_eq!(print(*first, 0).is_some(), *legal, "{first:04X}");
    }
    for opcode in 0x00..=0xFF {
        assert!(found.iter().any(|(first, _)| first >> 8 == opcode), "{opcode:02X}");
    }
    all_found((0x4000..=0x40FF).map(|first| (first, true)), &found);
    all_found((0x4A00..=0x4AFF).map(|first| (first, (1..=11).contains(&(first & 0xF)))), &found);
    all_found((0xFF01..=0xFFFE).map(|first| (first, false)), &found);
}
