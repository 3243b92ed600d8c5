//! The comparison of lines can fail: with one mistake in the second simulator a difference from the twin is reported within the
//! quick batch.

use comparison::{Buffers, LineBatch, LineSubject, Request, Simulated, Twin, LINES, SEED};

/// A mistake: the request, what the simulator left, and its answer, which becomes another one.
type Mistake = fn(Request, &mut Buffers, u32) -> u32;

/// A simulator that makes a mistake.
struct Wrong(Mistake);

impl LineSubject for Wrong {
    fn ask(&mut self, request: Request, buffers: &mut Buffers) -> u32 {
        let answer = Simulated.ask(request, buffers);
        (self.0)(request, buffers, answer)
    }
}

/// What is reported of a simulator in the quick batch, if something is.
fn reported(mistake: Mistake) -> Option<String> {
    let (mut simulator, mut twin) = (Wrong(mistake), Twin);
    let mut batch = LineBatch::new(SEED, &mut simulator, &mut twin);
    let result = batch.first_words().and_then(|()| batch.lines(0..LINES));
    result.err().map(|difference| difference.to_string())
}

#[test]
fn nothing_is_reported_without_a_mistake() {
    assert_eq!(reported(|_, _, answer| answer), None);
}

/// Reads another line in place of one that was answered so.
fn instead(answer: u32, line: &[u8], buffers: &mut Buffers) -> u32 {
    match Simulated.ask(Request::Read(line), buffers) {
        0 => 0,
        _ => answer,
    }
}

/// Puts another line into the buffer.
fn shows(buffers: &mut Buffers, line: &[u8]) -> u32 {
    buffers.line[..line.len()].copy_from_slice(line);
    buffers.length = line.len();
    0
}

/// The line up to its last comma, and what follows it.
fn last_operand(line: &[u8]) -> Option<(&[u8], &[u8])> {
    let comma = line.iter().rposition(|byte| *byte == b',')?;
    Some((&line[..comma], &line[comma + 1..]))
}

/// A line with each decimal of ten digits and more by what some bits hold of it.
fn wrapped(line: &[u8], bits: u32) -> Vec<u8> {
    let (mut text, mut digits) = (Vec::new(), String::new());
    for byte in line.iter().chain(b"\n") {
        if byte.is_ascii_digit() {
            digits.push(char::from(*byte));
            continue;
        }
        match digits.parse::<u128>() {
            Ok(number) if digits.len() > 9 => {
                text.extend(format!("{}", number % (1 << bits)).bytes())
            }
            _ => text.extend(digits.bytes()),
        }
        digits.clear();
        text.push(*byte);
    }
    text.pop();
    text
}

/// Mistakes of printing.
const PRINTING: [(&str, Mistake); 6] = [
    ("LISP's count printed without its bias", |request, buffers, answer| match request {
        Request::Print(first @ 0x8200..=0x82FF, _) => {
            let line = format!("LISP R{},{}", (first >> 4) & 0xF, first & 0xF);
            shows(buffers, line.as_bytes())
        }
        _ => answer,
    }),
    ("the minus sign of BGE lost", |request, buffers, answer| match request {
        Request::Print(first @ 0x7B80..=0x7BFF, _) => {
            shows(buffers, format!("BGE {}", 0x100 - (first & 0xFF)).as_bytes())
        }
        _ => answer,
    }),
    ("a second word of NOP shown", |request, buffers, answer| match request {
        Request::Print(0xFF00, second) if second != 0 => {
            shows(buffers, format!("NOP {second:04X}").as_bytes())
        }
        _ => answer,
    }),
    ("one byte behind the longest lines set to 0", |request, buffers, answer| {
        if matches!(request, Request::Print(..)) && answer == 0 && buffers.length == 17 {
            buffers.line[17] = 0;
        }
        answer
    }),
    ("a refused print leaves the length 0", |request, buffers, answer| {
        if matches!(request, Request::Print(..)) && answer == 14 {
            buffers.length = 0;
        }
        answer
    }),
    ("4900 printed", |request, buffers, answer| match request {
        Request::Print(0x4900, _) => shows(buffers, b"VIO R0,0000"),
        _ => answer,
    }),
];

/// Mistakes in what reading leaves.
const READING: [(&str, Mistake); 4] = [
    ("MOV's operands exchanged", |request, buffers, answer| {
        let first = buffers.words[0];
        if matches!(request, Request::Read(_)) && answer == 0 && first >> 8 == 0x93 {
            buffers.words[0] = (first & 0xFF00) | ((first & 0xF) << 4) | ((first >> 4) & 0xF);
        }
        answer
    }),
    ("the second word of BPT kept", |request, buffers, answer| {
        if matches!(request, Request::Read(b"BPT")) {
            buffers.words[1] = 0xFFFF;
        }
        answer
    }),
    ("the count of XORM is 1", |request, buffers, answer| {
        if matches!(request, Request::Read([b'X', b'O', b'R', b'M', ..])) && answer == 0 {
            buffers.count = 1;
        }
        answer
    }),
    ("a refused line leaves the count 0", |request, buffers, answer| {
        if matches!(request, Request::Read(_)) && answer == 16 {
            buffers.count = 0;
        }
        answer
    }),
];

/// Mistakes in what is refused.
const REFUSING: [(&str, Mistake); 10] = [
    ("index R0 accepted", |request, buffers, answer| match request {
        Request::Read(line) if answer == 15 => match last_operand(line) {
            Some((rest, b"R0")) => instead(answer, rest, buffers),
            _ => answer,
        },
        _ => answer,
    }),
    ("16 before 15", |request, buffers, answer| match request {
        Request::Read(line) if answer == 15 => match last_operand(line) {
            Some((rest, _)) if Simulated.ask(Request::Read(rest), &mut buffers.clone()) == 16 => 16,
            _ => answer,
        },
        _ => answer,
    }),
    ("a decimal wraps at 2^32", |request, buffers, answer| match request {
        Request::Read(line) if answer == 16 => instead(answer, &wrapped(line, 32), buffers),
        _ => answer,
    }),
    ("a decimal wraps at 2^64", |request, buffers, answer| match request {
        Request::Read(line) if answer == 16 => instead(answer, &wrapped(line, 64), buffers),
        _ => answer,
    }),
    ("a decimal of more than 1,000 digits answered by 15", |request, _, answer| match request {
        Request::Read(line) if answer == 16 && line.len() > 1_016 => 15,
        _ => answer,
    }),
    ("-0 accepted", |request, buffers, answer| match request {
        Request::Read(line) if answer == 15 && line.ends_with(b" -0") => {
            let zero = [&line[..line.len() - 2], b"0"].concat();
            instead(answer, &zero, buffers)
        }
        _ => answer,
    }),
    ("a label of 128 accepted as -128", |request, buffers, answer| match request {
        Request::Read(line)
            if answer == 16 && line.starts_with(b"B") && line.ends_with(b" 128") =>
        {
            let negative = [&line[..line.len() - 3], b"-128"].concat();
            instead(answer, &negative, buffers)
        }
        _ => answer,
    }),
    ("small letters in a word accepted", |request, buffers, answer| match request {
        Request::Read(line) if answer == 15 => instead(answer, &line.to_ascii_uppercase(), buffers),
        _ => answer,
    }),
    ("a blank behind NOP accepted", |request, buffers, answer| match request {
        Request::Read(b"NOP ") => instead(answer, b"NOP", buffers),
        _ => answer,
    }),
    (
        "a line without a blank and with operands answered by 15",
        |request, _, answer| match request {
            Request::Read(line) if answer == 14 && line.starts_with(b"LISP,") => 15,
            _ => answer,
        },
    ),
];

/// Checks that each mistake is reported, and prints where.
fn caught(mistakes: &[(&str, Mistake)]) {
    for (what, mistake) in mistakes {
        let text = reported(*mistake).unwrap_or_else(|| panic!("not found: {what}"));
        assert!(text.contains(&format!("seed {SEED} ")), "{what}: {text}");
        println!("{what}: {}", text.lines().next().unwrap_or_default());
    }
}

#[test]
fn mistakes_of_printing() {
    caught(&PRINTING);
}

#[test]
fn mistakes_of_reading() {
    caught(&READING);
}

#[test]
fn mistakes_of_refusing() {
    caught(&REFUSING);
}
