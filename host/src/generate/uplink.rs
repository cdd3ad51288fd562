//! Inputs of `uplink`: lines of text, mostly one a case.

use super::put::Put;
use super::rng::Rng;
use super::writer::{Message, auth_size, message};
use super::{Case, case};
use crate::limits::MOST_LINE;
use crate::text::hex_bytes;

/// README's frame, which is accepted.
const FRAME: &str = "00c0ffee 291 - 0 aa55";
/// Another one, with every kind of digit.
const BIT: &str = "09afAF00 4095 bit1 1 F0a9";
/// Characters of a label.
const LABEL: usize = 60;

/// A line's words, and which is which.
type Words = [String; 5];
const DEVICE: usize = 0;
const COUNTER: usize = 1;
const PAYLOAD: usize = 2;
const DOWNLINK: usize = 3;
const AUTH: usize = 4;

/// Each word in each way that it can't be.
const WRONG: [&[&str]; 5] = [
    &["", "-", "00c0ffe", "000c0ffee", "00c0ffeg", "0x00c0ff", "+0c0ffee"],
    &["", "-", "29a", "a29", "-1", "+1", "0x1", "1.0", "1,000"],
    &[
        "", "+", "--", "bit", "bit2", "bit01", "BIT0", "Bit1", "bit-", "0", "1", "caf", "cagf", "cafg", "0xca", "-ca",
    ],
    &["", "-", "2", "00", "01", "10", "+1", "a", "bit0"],
    &["", "-", "a", "aa5", "aag5", "aa5g", "0xaa", "bit0"],
];

/// Numbers that are a counter, then some that are too large: among them 291 above 2^12, 2^16, 2^32, 2^64 and 2^128.
const COUNTERS: [&str; 15] = [
    "0",
    "1",
    "0291",
    "00000000000000000000000000000000000000000291",
    "256",
    "4095",
    "4096",
    "4387",
    "65535",
    "65536",
    "65827",
    "4294967587",
    "18446744073709551907",
    "340282366920938463463374607431768211747",
    "99999999999999999999",
];

fn words(m: &Message) -> Words {
    let payload = match m.bit {
        0 if m.payload.is_empty() => "-".to_string(),
        0 => hex_bytes(&m.payload),
        bit => format!("bit{}", bit - 1),
    };
    let (device, counter) = (format!("{:08x}", m.device), m.counter.to_string());
    let downlink = u8::from(m.downlink).to_string();
    [device, counter, payload, downlink, hex_bytes(&m.auth)]
}

/// A frame of n bytes of payload.
fn of(n: usize) -> String {
    words(&Message::of(n, 0)).join(" ")
}

/// The line with another text for one word.
fn with(line: &str, word: usize, text: &str) -> String {
    let mut words: Vec<&str> = line.split(' ').collect();
    words[word] = text;
    words.join(" ")
}

/// A line, or some.
fn line(text: impl AsRef<[u8]>) -> Case {
    let text = text.as_ref();
    let label: String = text.escape_ascii().to_string().chars().take(LABEL).collect();
    case(label, Put::new().raw(text).raw(b"\n"))
}

/// A last line without an end of line.
fn last(text: impl AsRef<[u8]>) -> Case {
    let ended = line(text);
    let (_, bytes) = ended.bytes.split_last().expect("it has an end of line");
    Case {
        label: format!("{}, without an end of line", ended.label),
        bytes: bytes.to_vec(),
        short: true,
    }
}

/// An input without a line, which is a run alone.
fn nothing() -> Case {
    Case {
        short: true,
        ..case("nothing", Put::new())
    }
}

pub fn directed() -> Vec<Case> {
    let mut cases = vec![nothing()];
    cases.extend(kinds().iter().map(line));
    cases.extend([FRAME, BIT].into_iter().flat_map(any_byte));
    cases.extend(runs());
    let lasts = [FRAME, BIT, "00c0ffee 4096 - 0 aa55", "00c0ffee 291 - 0 aa5", " ", "\r"];
    cases.extend(lasts.map(last));
    cases.extend([MOST_LINE, MOST_LINE + 1].map(|n| last(zeros(n))));
    cases
}

/// Lines of every kind.
fn kinds() -> Vec<String> {
    [frames(), wrong_words(), wrong_gaps(), lengths()].concat()
}

/// Lines that say a frame, accepted or refused.
fn frames() -> Vec<String> {
    let mut lines = vec![FRAME.to_string(), FRAME.to_uppercase(), BIT.to_string()];
    lines.extend((0..=14).map(of));
    lines.extend(["bit0", "bit1"].map(|bit| with(FRAME, PAYLOAD, bit)));
    lines.push(with(FRAME, DOWNLINK, "1"));
    lines.extend(["00000000", "01020304", "ffffffff"].map(|device| with(FRAME, DEVICE, device)));
    lines.extend(COUNTERS.map(|counter| with(FRAME, COUNTER, counter)));
    for n in 0..=12 {
        for size in [auth_size(n) - 1, auth_size(n) + 1] {
            lines.push(with(&of(n), AUTH, &"5a".repeat(size)));
        }
    }
    lines.extend(["aa", "aa5501"].map(|auth| with(BIT, AUTH, auth)));
    lines
}

/// Each word wrong; then each one's last character beside the digits or the letters.
fn wrong_words() -> Vec<String> {
    let mut lines = vec![];
    for (word, texts) in WRONG.iter().enumerate() {
        lines.extend(texts.iter().map(|text| with(FRAME, word, text)));
    }
    let two = words(&Message::of(2, 0));
    for (word, text) in two.iter().enumerate() {
        let (first, _) = text.split_at(text.len() - 1);
        lines.extend(
            "/:@G`g"
                .chars()
                .map(|c| with(&two.join(" "), word, &format!("{first}{c}"))),
        );
    }
    lines
}

/// Words missing and in excess, and other than one space between them.
fn wrong_gaps() -> Vec<String> {
    let words: Vec<&str> = FRAME.split(' ').collect();
    let mut lines: Vec<String> = (0..5).map(|n| words[..n].join(" ")).collect();
    for gap in ["", "  ", "\t", " \t", ","] {
        lines.extend((1..5).map(|n| [words[..n].join(" "), words[n..].join(" ")].join(gap)));
    }
    for end in [" ", "\t"] {
        lines.extend([format!("{end}{FRAME}"), format!("{FRAME}{end}")]);
    }
    lines.extend([" 00", " #", "\r"].map(|end| format!("{FRAME}{end}")));
    lines.extend([" ", "    ", "# a comment"].map(str::to_string));
    lines
}

/// README's frame with zeros before the counter, so many characters in all.
fn zeros(length: usize) -> String {
    let zeros = "0".repeat(length - FRAME.len());
    with(FRAME, COUNTER, &format!("{zeros}291"))
}

/// Lines near the most characters, and longer ones whose first or last part alone would be a line.
fn lengths() -> Vec<String> {
    let near = MOST_LINE - 1..=MOST_LINE + 2;
    let mut lines: Vec<String> = near.clone().map(zeros).collect();
    for n in [245, 246, 247, 400] {
        lines.push(with(FRAME, PAYLOAD, &"ab".repeat(n)));
    }
    for n in [247, 248] {
        lines.push(with(FRAME, AUTH, &"ab".repeat(n)));
    }
    lines.extend(near.map(|n| " ".repeat(n)));
    lines.extend(["0", " ", FRAME].map(|end| zeros(MOST_LINE) + end));
    lines.extend([MOST_LINE, MOST_LINE + 1].map(|n| "x".repeat(n) + FRAME));
    lines.push(FRAME.to_string());
    lines
}

/// The line with each byte in each place, a case a place; an end of line makes two lines of it.
fn any_byte(text: &str) -> Vec<Case> {
    let changed = |place: usize, byte| {
        let mut bytes = text.as_bytes().to_vec();
        bytes[place] = byte;
        bytes
    };
    let all = |place| -> Vec<Vec<u8>> { (0..=u8::MAX).map(|byte| changed(place, byte)).collect() };
    (0..text.len()).map(|place| line(all(place).join(&b'\n'))).collect()
}

/// Many lines, and long ones.
fn runs() -> Vec<Case> {
    let longest = of(12);
    let mut cases = vec![line("\n".repeat(70_000)), line(vec![longest.as_str(); 2000].join("\n"))];
    for length in [4096, 5000, 70_000, 1 << 20] {
        cases.push(line([zeros(length), FRAME.to_string()].join("\n")));
    }
    cases
}

/// What the gate replays: a line of each kind, some random ones, and one without an end of line.
pub fn sample() -> Case {
    let mut rng = Rng::new(1);
    let random = (0..10).map(|_| words(&message(&mut rng)).join(" "));
    let lines: Vec<String> = kinds()
        .into_iter()
        .chain(random)
        .chain([with(FRAME, COUNTER, "292")])
        .collect();
    last(lines.join("\n"))
}

pub fn random(rng: &mut Rng) -> Case {
    let mut words = words(&message(rng));
    if rng.chance(0.1) {
        words[COUNTER].insert_str(0, &"0".repeat(rng.below(30)));
    }
    if rng.chance(0.05) {
        stretch(rng, &mut words);
    }
    let mut text = words.join(" ").into_bytes();
    if rng.chance(0.3) {
        let mixed = |c: &mut u8| *c = rng.pick(&[c.to_ascii_uppercase(), *c]);
        text.iter_mut().for_each(mixed);
    }
    if rng.chance(0.4) {
        for _ in 0..rng.range(1, 3) {
            damage(rng, &mut text);
        }
    }
    if rng.chance(0.01) { last(text) } else { line(text) }
}

/// Zeros before a word, so that the line is near the most characters.
fn stretch(rng: &mut Rng, words: &mut Words) {
    let zeros = rng.range(MOST_LINE - 8, MOST_LINE + 8) - words.join(" ").len();
    words[rng.below(5)].insert_str(0, &"0".repeat(zeros));
}

/// One character changed, lost, gained or doubled.
fn damage(rng: &mut Rng, text: &mut Vec<u8>) {
    if text.is_empty() {
        return;
    }
    let at = rng.below(text.len());
    let byte = if rng.chance(0.1) {
        rng.next() as u8
    } else {
        rng.pick(b"0123456789abcdefABCDEF  \t-+bitgG\r")
    };
    match rng.below(4) {
        0 => text[at] = byte,
        1 => drop(text.remove(at)),
        2 => text.insert(at, byte),
        _ => text.insert(at, text[at]),
    }
}
