//! Document 01's bench reader, written from its words alone; the decoder beneath it is the unchanged Rust's.

use std::io::{self, BufRead, BufReader, BufWriter, Read, Write};

use crate::fsm::RxCompletedEvent;
use crate::rust::original::rx_decode::{RxDecode, SniffedFrame};

/// Later lines are neither read nor counted.
pub const MOST_LINES: u32 = 999_999;
/// A line may have so many bytes before its LF.
const MOST_BYTES: usize = 140;
const MOST_SILENCE: u16 = 255;
const MOST_SAMPLES: u16 = 64;
const TICK_MICROSECONDS: u32 = 104;
const BUFFER: usize = 1 << 16;

/// The first that is true of a line, in this order, is its refusal.
enum Refusal {
    TooLong = 1,
    Fields = 2,
    Number = 3,
    Samples = 4,
}

/// Answers standard input on standard output.
pub fn answer_standard_input() -> io::Result<()> {
    let input = BufReader::with_capacity(BUFFER, io::stdin().lock());
    let output = BufWriter::with_capacity(BUFFER, io::stdout().lock());
    answer_book(input, output)
}

/// The answers to a book that is at hand as a whole.
pub fn answers(book: &[u8]) -> Vec<u8> {
    let mut text = Vec::new();
    answer_book(book, &mut text).expect("memory takes what is written");
    text
}

/// Of the book no more is kept than the line at hand.
fn answer_book(mut input: impl BufRead, mut output: impl Write) -> io::Result<()> {
    let (mut lines, mut decoded, mut refused) = (0, 0, 0);
    let mut line = Vec::with_capacity(MOST_BYTES + 1);
    while lines < MOST_LINES && next_line(&mut input, &mut line)? {
        lines += 1;
        match event_of(&line) {
            Ok(event) => decoded += u32::from(write_reading(&mut output, lines, &event)?),
            Err(refusal) => {
                refused += 1;
                writeln!(output, "{lines}\tBAD\t{}", refusal as u8)?;
            }
        }
    }
    writeln!(output, "END\t{lines}\t{decoded}\t{refused}")?;
    output.flush()
}

/// The next line without its LF, and false where the input has no more. A line that is too long is taken whole, however long it is, and
/// only its first bytes are kept, one more than a line may have.
fn next_line(input: &mut impl BufRead, line: &mut Vec<u8>) -> io::Result<bool> {
    line.clear();
    let room = MOST_BYTES + 1;
    let read = input.by_ref().take(room as u64).read_until(b'\n', line)?;
    if line.last() == Some(&b'\n') {
        line.pop();
    } else if read == room {
        input.skip_until(b'\n')?;
    }
    Ok(read > 0)
}

/// The capture that a line tells. Samples past the count are zeros.
fn event_of(line: &[u8]) -> Result<RxCompletedEvent, Refusal> {
    if line.len() > MOST_BYTES {
        return Err(Refusal::TooLong);
    }
    let [silence, count, samples] = fields_of(line).ok_or(Refusal::Fields)?;
    let silence = decimal(silence, MOST_SILENCE).ok_or(Refusal::Number)?;
    let count = decimal(count, MOST_SAMPLES).ok_or(Refusal::Number)?;
    let mut event = RxCompletedEvent::new();
    event.pre_idle_ticks = silence as u8;
    event.sample_count = count;
    read_samples(samples, &mut event.samples[..usize::from(count)]).ok_or(Refusal::Samples)?;
    Ok(event)
}

/// The three fields after the `C`.
fn fields_of(line: &[u8]) -> Option<[&[u8]; 3]> {
    let mut fields = line.strip_prefix(b"C\t")?.split(|byte| *byte == b'\t');
    let three = [fields.next()?, fields.next()?, fields.next()?];
    fields.next().is_none().then_some(three)
}

/// A number from 0 to `most`, of at most three digits and without a leading zero.
fn decimal(text: &[u8], most: u16) -> Option<u16> {
    if text.len() > 3 || !matches!(text, [b'0'] | [b'1'..=b'9', ..]) {
        return None;
    }
    let number = text.iter().try_fold(0, |number, byte| match byte {
        b'0'..=b'9' => Some(10 * number + u16::from(byte - b'0')),
        _ => None,
    })?;
    (number <= most).then_some(number)
}

/// Fills the samples, each from two digits; none are left and none are missing.
fn read_samples(text: &[u8], samples: &mut [u8]) -> Option<()> {
    if text.len() != 2 * samples.len() {
        return None;
    }
    for (sample, pair) in samples.iter_mut().zip(text.chunks_exact(2)) {
        *sample = hex_digit(pair[0])? << 4 | hex_digit(pair[1])?;
    }
    Some(())
}

fn hex_digit(byte: u8) -> Option<u8> {
    match byte {
        b'0'..=b'9' => Some(byte - b'0'),
        b'a'..=b'f' => Some(byte - b'a' + 10),
        _ => None,
    }
}

/// True for a frame of 8, 16 or 24 bits, which counts as decoded.
fn write_reading(output: &mut impl Write, line: u32, event: &RxCompletedEvent) -> io::Result<bool> {
    let reading = event.decode_sniffed_with_phase();
    write!(output, "{line}\t")?;
    match reading.frame {
        SniffedFrame::Backward8(byte) => write!(output, "B8\t{byte:02x}"),
        SniffedFrame::Forward16(word) => write!(output, "F16\t{word:04x}"),
        SniffedFrame::Forward24([a, b, c]) => write!(output, "F24\t{a:02x}{b:02x}{c:02x}"),
        SniffedFrame::UnsupportedLength(length) => write!(output, "LEN\t{length}"),
        SniffedFrame::DecodeFailed => write!(output, "FAIL\t-"),
    }?;
    let (phase, score) = (reading.phase_ticks, reading.score);
    let low_run = event.longest_dominant_run_ticks();
    let silence = u32::from(event.pre_idle_ticks) * TICK_MICROSECONDS;
    writeln!(output, "\t{phase}\t{score}\t{low_run}\t{silence}")?;
    Ok(!matches!(
        reading.frame,
        SniffedFrame::UnsupportedLength(_) | SniffedFrame::DecodeFailed
    ))
}
