//! What spoils a line of a book. Each kind of damage aims at one of the reader's four refusals or at the edge of one, and the line may
//! come through it good. None brings an LF in.

use std::iter::repeat_n;

use crate::random::Random;

/// What a first field may become, what a number, and what a field may be that is one too many.
const FIRST_FIELDS: [&[u8]; 9] = [b"", b"c", b"R", b"CC", b" C", b"C ", b"D", b"\0", b"C\0"];
const NUMBERS: [&[u8]; 30] = [
    b"0", b"1", b"9", b"10", b"63", b"64", b"100", b"255", b"", b"00", b"000", b"01", b"064",
    b"65", b"66", b"99", b"256", b"257", b"300", b"1000", b"+1", b"-1", b"-0", b" 1", b"1 ", b"1/",
    b"1:", b"0x1", b"1e1", b"1\0",
];
const MORE_FIELDS: [&[u8]; 4] = [b"", b"0", b"C", b"0f"];
/// The bytes about the digits and the letters of hex, and some that are no text.
const NEAR_HEX: [u8; 12] = *b"/:@`gGAF -\0\xFF";
const NEAR_TEXT: [u8; 10] = *b"\t\r C0f\0\xFF\x80\x7F";
/// About the greatest length of a good line, about that of any line, and far above it.
const LENGTHS: [usize; 9] = [137, 138, 139, 140, 140, 140, 141, 142, 5_000];

/// Once, and now and then once more.
pub fn damage(line: &mut Vec<u8>, random: &mut Random) {
    match random.below(12) {
        0 | 1 => *line = any_bytes(random),
        2..=4 => spoil_a_part(line, random),
        5 => stretch(line, random),
        _ => spoil_a_field(line, random),
    }
    line.retain(|byte| *byte != b'\n');
    if random.one_in(5) {
        damage(line, random);
    }
}

/// A line that no good one was made into, or an empty one.
fn any_bytes(random: &mut Random) -> Vec<u8> {
    let length = random.pick(&[1, 4, 20, 150, 300]);
    let mut line = vec![0; random.below(length)];
    for byte in &mut line {
        *byte = match random.below(3) {
            0 => random.byte(),
            1 => random.pick(&NEAR_TEXT),
            _ => random.pick(b"C\t\t\t0123456789abcdef"),
        };
    }
    line
}

/// A byte is changed or missing, or there is one too many; or the line is cut, and one more byte may stand there.
fn spoil_a_part(line: &mut Vec<u8>, random: &mut Random) {
    let (at, end) = (random.below(line.len() + 1), line.len());
    let next = end.min(at + 1);
    let (from, to) = random.pick(&[(at, at), (at, next), (at, next), (at, end), (0, at)]);
    let byte = match random.below(4) {
        0 => None,
        1 => Some(random.byte()),
        2 => Some(random.pick(&NEAR_TEXT)),
        _ => line.get(at).map(|byte| byte ^ 1 << random.below(8)),
    };
    line.splice(from..to, byte);
}

/// Brings the line to a length, with the same byte again and again at any place, or by cutting it.
fn stretch(line: &mut Vec<u8>, random: &mut Random) {
    let length = random.pick(&LENGTHS);
    let missing = length.saturating_sub(line.len());
    let at = random.below(line.len() + 1);
    let byte = random.pick(b"\t0fC\r\0\xFF");
    line.splice(at..at, repeat_n(byte, missing));
    line.truncate(length);
}

/// A field is another text or missing, or there is one too many; or it isn't one tab that parts them.
fn spoil_a_field(line: &mut Vec<u8>, random: &mut Random) {
    let fields = line.split(|byte| *byte == b'\t');
    let mut fields: Vec<Vec<u8>> = fields.map(<[u8]>::to_vec).collect();
    let at = random.below(fields.len());
    let mut between = &b"\t"[..];
    match (random.below(12), at) {
        (0, _) => drop(fields.remove(at)),
        (1, _) => fields.insert(at, random.pick(&MORE_FIELDS).to_vec()),
        (2, _) => between = random.pick(&[b" ", b"", b"\t\t"]),
        (_, 0) => fields[at] = random.pick(&FIRST_FIELDS).to_vec(),
        (_, 1 | 2) => fields[at] = any_number(random),
        _ => spoil_hex(&mut fields[at], random),
    }
    *line = fields.join(between);
}

/// Also one that an overflow would leave in its range, and one far above it.
fn any_number(random: &mut Random) -> Vec<u8> {
    let power = 1_u128 << random.pick(&[8, 16, 32, 64, 127]);
    match random.below(6) {
        0 => (power + 16).to_string().into_bytes(),
        1 => b"9".repeat(random.pick(&[3, 30])),
        _ => random.pick(&NUMBERS).to_vec(),
    }
}

fn spoil_hex(hex: &mut Vec<u8>, random: &mut Random) {
    let at = random.below(hex.len().max(1));
    let near = random.pick(&NEAR_HEX);
    match random.below(6) {
        0 => hex.make_ascii_uppercase(),
        1 => hex.truncate(hex.len().saturating_sub(random.pick(&[1, 2]))),
        2 => hex.extend(random.pick(&[&b"0"[..], b"ff", b"\r"])),
        _ => hex[at..].iter_mut().take(1).for_each(|digit| *digit = near),
    }
}
