//! Good lines made bad, in each of the ways that a line can be bad.

use crate::protocol::command::{Command, Operand, LONGEST_LINE, MOST_TICKS, NAMES};
use crate::random::Random;

/// Numbers that some operand or every one has no room for.
const OUT_OF_RANGE: &str = "256 4097 65536 65792 -129 128 100000 4294967296 18446744073709551616";

pub fn spoiled(line: &[u8], random: &mut Random) -> Vec<u8> {
    loop {
        let spoiled = spoiled_somehow(line, random);
        // Some ways leave some lines good, as the one that takes the operands away does where there are none.
        if Command::read(&spoiled).is_none() {
            return spoiled;
        }
    }
}

fn spoiled_somehow(line: &[u8], random: &mut Random) -> Vec<u8> {
    let fields = line.split(|byte| *byte == b' ');
    let mut fields: Vec<Vec<u8>> = fields.map(<[u8]>::to_vec).collect();
    let last = fields.len() - 1;
    // One of the operands; the word itself where there are none.
    let one = random.between(1.min(last), last);
    match random.below(22) {
        0 => fields[0] = other_word(&fields[0], random),
        1 => drop(fields.remove(one)),
        2 => fields.push(random.pick(&[&b"0"[..], b"00", b"-", b"x", b""]).to_vec()),
        3 => fields.insert(random.pick(&[0, one]), Vec::new()),
        4 => fields[0].make_ascii_uppercase(),
        5 => fields[one].make_ascii_uppercase(),
        6 => fields[last].fill(b'A'),
        7 => fields[one].insert(0, random.pick(b"0+-")),
        8 => fields[one] = b"-0".to_vec(),
        9 => {
            let numbers: Vec<&str> = OUT_OF_RANGE.split(' ').collect();
            fields[one] = random.pick(&numbers).into();
        }
        10 => drop(fields[last].pop()),
        11 => {
            let kept = fields[last].len().saturating_sub(2);
            fields[last].truncate(kept);
        }
        12 => fields[last].extend_from_slice(b"00"),
        13 => fields[last].push(b'\r'),
        14 => {
            let at = random.below(fields[last].len());
            fields[last][at] = random.pick(b"gGxA/:@`\0\x7f\xff");
        }
        15 => fields.truncate(1),
        16 => return Vec::new(),
        17 => return fields.join(&b'\t'),
        18 => return over_long(line, random),
        19 => return ticks_that_do_not_fit(random),
        20 => return format!("lticks {}", MOST_TICKS + any_excess(random)).into_bytes(),
        _ => return any_line(random),
    }
    fields.join(&b' ')
}

/// A word near to this command's or another's, or another command's, which has other operands.
fn other_word(word: &[u8], random: &mut Random) -> Vec<u8> {
    let any = random.pick(NAMES).as_bytes();
    let mut other = random.pick(&[word, any]).to_vec();
    match random.below(5) {
        0 => drop(other.pop()),
        1 => drop(other.remove(0)),
        2 => other.push(random.pick(b"s_x0")),
        3 => other.insert(0, b'l'),
        _ => {}
    }
    other
}

fn any_excess(random: &mut Random) -> usize {
    random.pick(&[1, 2, 8, 100, 512, 4096, 61439, 61440, 61441, 1 << 20])
}

/// More ticks than a line may have, or other than the bytes are for.
fn ticks_that_do_not_fit(random: &mut Random) -> Vec<u8> {
    let ticks = match random.below(3) {
        0 => MOST_TICKS + random.between(1, 8),
        1 => random.between(0, MOST_TICKS),
        _ => random.between(0, 40),
    };
    let bytes = (ticks.div_ceil(8) + random.below(3)).saturating_sub(1);
    format!("ticks {} {ticks}", random.bytes(bytes).text()).into_bytes()
}

fn over_long(line: &[u8], random: &mut Random) -> Vec<u8> {
    let mut long = random
        .pick(&[line, line, b"lengths ", b"ticks ", b"state "])
        .to_vec();
    let excess = random.pick(&[1, 1, 2, 3, 100, LONGEST_LINE, 3 * LONGEST_LINE]);
    long.resize(LONGEST_LINE + excess, random.pick(b"0 8"));
    long
}

fn any_line(random: &mut Random) -> Vec<u8> {
    let size = random.between(1, 12);
    let mut line = random.bytes(size);
    line.retain(|byte| *byte != b'\n');
    line
}
