//! Two frames for two senders that start together.

use crate::random::Random;

/// Frames of these numbers of bytes that are equal, or part first at a chosen bit, or of which one goes on
/// where the other ends, or are any two. There is more than one number.
pub fn any_pair(lengths: &[usize], random: &mut Random) -> [Vec<u8>; 2] {
    let first = any_data(random.pick(lengths), random);
    let second = match random.below(6) {
        0 => first.clone(),
        1..=3 => parting_at_any_bit(&first, random.pick(lengths), random),
        4 => of_another_length(&first, lengths, random),
        _ => any_data(random.pick(lengths), random),
    };
    [first, second]
}

fn any_data(length: usize, random: &mut Random) -> Vec<u8> {
    match random.below(8) {
        0 => vec![0x00; length],
        1 => vec![0xFF; length],
        _ => (0..length).map(|_| random.byte()).collect(),
    }
}

/// The bits before it are the first frame's, and the bit itself is the other one.
fn parting_at_any_bit(first: &[u8], length: usize, random: &mut Random) -> Vec<u8> {
    let mut second = any_data(length, random);
    let bit = random.below(8 * length.min(first.len()));
    let (byte, place) = (bit / 8, 0x80 >> (bit % 8));
    let later_bits = place - 1;
    second[..byte].copy_from_slice(&first[..byte]);
    second[byte] = (first[byte] ^ place) & !later_bits | second[byte] & later_bits;
    second
}

/// The first frame cut off, or with more after it.
fn of_another_length(first: &[u8], lengths: &[usize], random: &mut Random) -> Vec<u8> {
    let length = loop {
        let length = random.pick(lengths);
        if length != first.len() {
            break length;
        }
    };
    let mut second = any_data(length, random);
    let both = length.min(first.len());
    second[..both].copy_from_slice(&first[..both]);
    second
}
