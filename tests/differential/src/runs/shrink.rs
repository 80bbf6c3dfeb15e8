//! Few lines of a script that still show a difference, as far as leaving lines and ticks out finds them.

use crate::protocol::command::Command;

type Lines = [Vec<u8>];

/// None if the script shows no difference.
pub fn smallest(script: Vec<Vec<u8>>, differs: impl Fn(&Lines) -> bool) -> Option<Vec<Vec<u8>>> {
    let mut small = shortest_end(&script, &differs)?;
    while drop_lines(&mut small, &differs) | shorten_ticks(&mut small, &differs) {}
    Some(small)
}

/// Mostly a few lines before the one that shows it are enough, so the ends that are tried double in length.
fn shortest_end(script: &Lines, differs: &impl Fn(&Lines) -> bool) -> Option<Vec<Vec<u8>>> {
    let doubling = (0..usize::BITS).map(|power| 1 << power);
    let shorter = doubling.take_while(|lines| *lines < script.len());
    let mut ends = shorter.chain([script.len()]);
    ends.find_map(|lines| {
        let end = &script[script.len() - lines..];
        differs(end).then(|| end.to_vec())
    })
}

/// Leaves out stretches of lines, halves at first and single lines at last. False if none could be.
fn drop_lines(script: &mut Vec<Vec<u8>>, differs: &impl Fn(&Lines) -> bool) -> bool {
    let before = script.len();
    for size in halvings(script.len()) {
        let mut at = 0;
        while at < script.len() {
            let rest = script.len().min(at + size);
            let fewer = [&script[..at], &script[rest..]].concat();
            if differs(&fewer) {
                *script = fewer;
            } else {
                at = rest;
            }
        }
    }
    script.len() < before
}

/// Leaves out the last ticks of the lines that make many. False if none could be.
fn shorten_ticks(script: &mut Vec<Vec<u8>>, differs: &impl Fn(&Lines) -> bool) -> bool {
    let mut shortened = false;
    for line in 0..script.len() {
        for fewer in halvings(ticks_of(&script[line])) {
            while let Some(shorter) = with_fewer_ticks(&script[line], fewer) {
                let longer = std::mem::replace(&mut script[line], shorter);
                if !differs(script) {
                    script[line] = longer;
                    break;
                }
                shortened = true;
            }
        }
    }
    shortened
}

/// Half of a number, half of that, and so on down to 1.
fn halvings(number: usize) -> impl Iterator<Item = usize> {
    let halves = std::iter::successors(Some(number / 2), |half| Some(half / 2));
    halves.take_while(|half| *half > 0)
}

fn ticks_of(line: &[u8]) -> usize {
    Command::read(line).map_or(0, |command| command.ticks())
}

/// None where there are not more ticks than these.
fn with_fewer_ticks(line: &[u8], fewer: usize) -> Option<Vec<u8>> {
    let left = ticks_of(line).checked_sub(fewer).filter(|left| *left > 0)?;
    let shorter = match Command::read(line)? {
        Command::Ticks { levels } => Command::Ticks {
            levels: levels.iter().take(left).collect(),
        },
        Command::LineTicks { .. } => Command::LineTicks { ticks: left },
        _ => return None,
    };
    Some(shorter.line())
}
