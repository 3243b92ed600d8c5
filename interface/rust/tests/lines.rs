//! Mnemonic lines: known ones both ways, every first word there and back, refusals by their numbers, which change nothing.

use twin1750::{print, print_into, read, read_into, Line, Refusal, Words, LINE_BYTES};
use Words::{One, Two};

/// Lines and their words.
const KNOWN: [(&str, Words); 23] = [
    ("LISP R3,16", One(0x823F)),
    ("LISN R3,1", One(0x8330)),
    ("SLL R5,16", One(0x60F5)),
    ("SBR 3,R5", One(0x5135)),
    ("SB 15,1234,R2", Two(0x50F2, 0x1234)),
    ("INCM 16,0100", Two(0xA3F0, 0x0100)),
    ("LM 3,2000", Two(0x8930, 0x2000)),
    ("STC 0,0200", Two(0x9100, 0x0200)),
    ("XIO R0,4000", Two(0x4800, 0x4000)),
    ("AIM R3,0005", Two(0x4A31, 0x0005)),
    ("LIM R3,BEEF,R10", Two(0x853A, 0xBEEF)),
    ("JCI 15,FFFF,R1", Two(0x71F1, 0xFFFF)),
    ("BR -128", One(0x7480)),
    ("BGT 127", One(0x797F)),
    ("BEX 15", One(0x770F)),
    ("LB R12,0", One(0x0000)),
    ("FCB R15,255", One(0x3FFF)),
    ("DLBX R15", One(0x4310)),
    ("ORBX R12,R15", One(0x40FF)),
    ("LST 1000,R10", Two(0x7D0A, 0x1000)),
    ("URS R15", One(0x7FF0)),
    ("NOP", One(0xFF00)),
    ("BPT", One(0xFFFF)),
];

#[test]
fn known_lines() {
    for (line, words) in KNOWN {
        assert_eq!(read(line.as_bytes()), Ok(words), "{line}");
        let printed = print(words.first(), words.second().unwrap_or(0)).expect("a legal one");
        assert_eq!(printed.as_str(), line);
        assert_eq!(printed.as_bytes(), line.as_bytes());
    }
}

#[test]
fn shapes() {
    let line = print(0x823F, 0).expect("a legal one");
    assert_eq!(
        format!("{line}|{line:>12}|{line:?}"),
        "LISP R3,16|  LISP R3,16|Line(\"LISP R3,16\")"
    );
    assert_eq!((One(7).first(), One(7).second()), (7, None));
    assert_eq!((Two(7, 8).first(), Two(7, 8).second()), (7, Some(8)));
}

/// A first word without the fields that no line shows.
fn shown(first: u16) -> u16 {
    match first >> 8 {
        0x77 | 0x7C | 0x7D => first & 0xFF0F,
        0x7F | 0xEC => first & 0xFFF0,
        _ => first,
    }
}

/// The line of a first word with a second one, which reads back as what it shows.
fn there_and_back(first: u16, second: u16) -> Option<(Line, Words)> {
    let line = print(first, second).ok()?;
    let words = read(line.as_bytes()).expect("a printed line");
    assert_eq!(words.first(), shown(first), "{line}");
    if let Two(_, read) = words {
        assert_eq!(read, second, "{line}");
    }
    Some((line, words))
}

#[test]
fn every_first_word() {
    let (mut legal, mut longest) = (0, 0);
    for first in 0..=0xFFFF {
        let (line, words) = match there_and_back(first, 0x9ABC) {
            Some(both) => both,
            None => {
                assert_eq!(print(first, 0), Err(Refusal::Mnemonic), "{first:04X}");
                continue;
            }
        };
        (legal, longest) = (legal + 1, longest.max(line.as_bytes().len()));
        assert_eq!(print(shown(first), 0x9ABC), Ok(line), "{first:04X}");
        let other = print(first, 0x1750).expect("as legal");
        assert_eq!(other == line, words.second().is_none(), "{line} and {other}");
    }
    assert_eq!((legal, longest), (55_986, 17));
}

#[test]
fn every_second_word() {
    for second in 0..=0xFFFF {
        assert_eq!(
            there_and_back(0x853A, second).map(|(_, words)| words),
            Some(Two(0x853A, second))
        );
        assert_eq!(there_and_back(0x823F, second).map(|(_, words)| words), Some(One(0x823F)));
    }
}

/// Lines without a known mnemonic.
const UNKNOWN: &[&str] = &[
    "",
    " ",
    " NOP",
    "nop",
    "Nop",
    "STZ 1000",
    "VIO R1,2000",
    "XYZ R16,01",
    "LISP\tR3,16",
    "NOP\n",
    "NOP\0",
    "NOP\t",
    "\0",
];

/// Lines whose operands have another form than their box shows.
const FORM: &[&str] = &[
    "NOP ",
    "NOP R1",
    "LISP",
    "LISP ",
    "LISP R3",
    "LISP R3,",
    "LISP R3,-1",
    "LISP R03,1",
    "LISP r3,1",
    "LISP R3, 1",
    "LISP  R3,1",
    "LISP R3,1,",
    "LISP R3,1\n",
    "LISP R3,1\0",
    "LISP R3,\t1",
    "BR -0",
    "BR 0128",
    "BR +1",
    "BR -",
    "LBX R12,R0",
    "L R16,0100,R0",
];

/// Lines with an operand outside its field.
const OUTSIDE: &[&str] = &[
    "LISP R3,0",
    "LISP R3,17",
    "LISP R16,1",
    "BR 128",
    "BR -129",
    "LB R0,0",
    "LB R12,256",
    "L R1,0100,R16",
    "L R16,0100,R17",
];

/// All of them, by number.
const REFUSED: [(u32, &[&str]); 3] = [(14, UNKNOWN), (15, FORM), (16, OUTSIDE)];

#[test]
fn refused_lines() {
    for (number, lines) in REFUSED {
        for line in lines {
            let refusal = read(line.as_bytes()).expect_err(line);
            assert_eq!(refusal.number(), number, "{line:?}");
            assert_eq!(refusal.to_string(), format!("refused {number}"));
        }
    }
}

/// Decimals that wrap to 3 in 8 to 128 bits, and one of 100,000 digits.
#[test]
fn large_decimals() {
    let wrapped = [
        "259",
        "65539",
        "4294967299",
        "18446744073709551619",
        "340282366920938463463374607431768211459",
    ];
    for digits in wrapped {
        for line in [
            format!("LISP R{digits},3"),
            format!("LISP R3,{digits}"),
            format!("BR {digits}"),
            format!("BR -{digits}"),
        ] {
            assert_eq!(read(line.as_bytes()), Err(Refusal::Field), "{line}");
        }
    }
    let long = "9".repeat(100_000);
    assert_eq!(read(format!("LISP R3,{long}").as_bytes()), Err(Refusal::Field));
    assert_eq!(read(format!("LISP R{long},3").as_bytes()), Err(Refusal::Field));
    assert_eq!(read(format!("LISP R3,0{long}").as_bytes()), Err(Refusal::Operands));
    assert_eq!(read(format!("L R3,{long}").as_bytes()), Err(Refusal::Operands));
    assert_eq!(read(long.as_bytes()), Err(Refusal::Mnemonic));
    assert_eq!(read(&vec![b' '; 100_000]), Err(Refusal::Mnemonic));
}

/// A refusal changes neither words nor count, line nor length; what is done leaves the bytes behind the line.
#[test]
fn what_is_lent() {
    for (number, lines) in REFUSED {
        for line in lines {
            let (mut words, mut count) = ([0xA5A5, 0x5A5A], 1750);
            let refusal = read_into(line.as_bytes(), &mut words, &mut count).expect_err(line);
            assert_eq!(
                (refusal.number(), words, count),
                (number, [0xA5A5, 0x5A5A], 1750),
                "{line:?}"
            );
        }
    }
    let (mut words, mut count) = ([0xA5A5, 0x5A5A], 1750);
    assert_eq!(read_into(b"LISP R3,16", &mut words, &mut count), Ok(()));
    assert_eq!((words, count), ([0x823F, 0], 1));
    assert_eq!(read_into(b"L R1,0100", &mut words, &mut count), Ok(()));
    assert_eq!((words, count), ([0x8010, 0x0100], 2));

    let (mut line, mut length) = ([0xA5; LINE_BYTES], 1750);
    assert_eq!(print_into(0x4900, 0, &mut line, &mut length), Err(Refusal::Mnemonic));
    assert_eq!((line, length), ([0xA5; LINE_BYTES], 1750));
    assert_eq!(print_into(0x823F, 0, &mut line, &mut length), Ok(()));
    assert_eq!((&line[..length], length), (&b"LISP R3,16"[..], 10));
    assert!(line[length..].iter().all(|byte| *byte == 0xA5));
}
