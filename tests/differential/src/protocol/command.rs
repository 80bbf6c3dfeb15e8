//! The protocol's commands as values. One table says their names and operands; lines are read and written
//! by it.

use std::fmt::Display;
use std::iter::once;

use crate::fsm::CollisionPolicy;
use crate::manchester::PhaseDecode;
use crate::protocol::levels::Levels;
use crate::rust::encoder::{Frame, FRAME_BYTES};
use crate::rust::station::{Call, HalfBits, Start};

pub const LONGEST_LINE: usize = 2047;
pub const SAMPLES: usize = 64;
pub const MOST_TICKS: usize = 4096;
pub const MOST_STEP_CALLS: u8 = 8;

pub const POLICIES: [CollisionPolicy; 3] = [
    CollisionPolicy::Auto,
    CollisionPolicy::Off,
    CollisionPolicy::On,
];

#[derive(Clone, PartialEq, Eq)]
pub struct Capture {
    pub count: u16,
    pub samples: [u8; SAMPLES],
}

/// What `better` is told of a decode.
#[derive(Clone, Copy, PartialEq, Eq)]
pub struct Rank {
    pub len: u8,
    pub phase: i8,
    pub score: u16,
}

macro_rules! commands {
    (calls { $($call:literal)* }
    $($name:literal $variant:ident $({ $($operand:ident: $kind:ty),* })?)*) => {
        #[derive(Clone, PartialEq, Eq)]
        pub enum Command {
            $($variant $({ $($operand: $kind),* })?,)*
            Call(Call),
            LineCall { station: u8, call: Call },
        }

        pub const NAMES: &[&str] = &[$($name,)* $($call,)* $(concat!("l", $call),)*];

        impl Command {
            fn read_operands(name: &[u8], fields: Fields) -> Option<Self> {
                $(if name == $name.as_bytes() {
                    return Some(Command::$variant $({ $($operand: Operand::read(fields)?),* })?);
                })*
                match name {
                    [b'l', name @ ..] => Some(Command::LineCall {
                        station: Operand::read(fields)?,
                        call: read_call(name, fields)?,
                    }),
                    _ => read_call(name, fields).map(Command::Call),
                }
            }

            fn operands(&self) -> Vec<String> {
                match self {
                    $(Command::$variant $({ $($operand),* })? => vec![$($($operand.text()),*)?],)*
                    Command::Call(call) => operands_of(call),
                    Command::LineCall { station, call } => {
                        once(station.text()).chain(operands_of(call)).collect()
                    }
                }
            }

            pub fn name(&self) -> &'static str {
                match self {
                    $(Command::$variant $({ $($operand: _),* })? => $name,)*
                    Command::Call(call) => [$($call),*][place_among_calls(call)],
                    Command::LineCall { call, .. } => [$(concat!("l", $call)),*][place_among_calls(call)],
                }
            }
        }
    };
}

// A call on one of the line's stations has an l before its name, and the station's number before its
// operands.
commands! {
    calls { "policy" "start_tx" "start_answer" "poll" "take_idle" "take_rx" "ack" "state" }
    "weight" Weight { sample: [u8; 1] }
    "phase" Phase { max: u8, phase: i8, capture: Capture }
    "search" Search { mask: u32, capture: Capture }
    "steps" Steps { mask: u32, k: u8, capture: Capture }
    "bsnew" BsNew { mask: u32 }
    "bsstep" BsStep { capture: Capture }
    "bsrun" BsRun { capture: Capture }
    "better" Better { mask: u32, candidate: Rank, current: Rank }
    "lengths" Lengths { bytes: Vec<u8>, n: u8 }
    "sniff" Sniff { capture: Capture }
    "sniffdec" SniffDec { found: Option<PhaseDecode> }
    "backward" Backward { capture: Capture }
    "lowrun" LowRun { capture: Capture }
    "held" Held { capture: Capture }
    "encode" Encode { frame: Frame }
    "encodebuf" EncodeBuf { frame: Frame, buffer: Vec<u8> }
    "new" New
    "tick" Tick { high: bool }
    "ticks" Ticks { levels: Levels }
    "settle" Settle { ticks: u16, lead: u8 }
    "gate" Gate { ticks: u8 }
    "line" Line { stations: u8 }
    "lticks" LineTicks { ticks: usize }
    "llevel" LineLevel
}

/// The place in the table of calls.
fn place_among_calls(call: &Call) -> usize {
    match call {
        Call::Policy { .. } => 0,
        Call::Start { start, .. } => match start {
            Start::Tx => 1,
            Start::Answer => 2,
        },
        Call::Poll => 3,
        Call::TakeIdle => 4,
        Call::TakeRx => 5,
        Call::Ack => 6,
        Call::State => 7,
    }
}

impl Command {
    /// The place in `NAMES`.
    pub fn number(&self) -> usize {
        let place = NAMES.iter().position(|name| *name == self.name());
        place.expect("every command has a name")
    }

    /// The ticks that the command makes, of the station or of the line.
    pub fn ticks(&self) -> usize {
        match self {
            Command::Tick { .. } => 1,
            Command::Ticks { levels } => levels.ticks(),
            Command::LineTicks { ticks } => *ticks,
            _ => 0,
        }
    }

    /// The command that a line without its LF says, and none for a bad line.
    pub fn read(line: &[u8]) -> Option<Self> {
        if line.len() > LONGEST_LINE {
            return None;
        }
        let mut fields = line.split(|byte| *byte == b' ');
        let command = Self::read_operands(fields.next()?, &mut fields)?;
        (fields.next().is_none() && command.is_within_limits()).then_some(command)
    }

    fn is_within_limits(&self) -> bool {
        match self {
            Command::Steps { k, .. } => *k <= MOST_STEP_CALLS,
            _ => self.ticks() <= MOST_TICKS,
        }
    }

    pub fn write(&self, out: &mut Vec<u8>) {
        out.extend_from_slice(self.name().as_bytes());
        self.operands()
            .iter()
            .for_each(|text| push_field(out, text));
    }

    pub fn line(&self) -> Vec<u8> {
        let mut line = Vec::with_capacity(160);
        self.write(&mut line);
        line
    }
}

fn read_call(name: &[u8], fields: Fields) -> Option<Call> {
    Some(match name {
        b"policy" => Call::Policy {
            policy: Operand::read(fields)?,
        },
        b"start_tx" => Call::Start {
            start: Start::Tx,
            half_bits: Operand::read(fields)?,
        },
        b"start_answer" => Call::Start {
            start: Start::Answer,
            half_bits: Operand::read(fields)?,
        },
        b"poll" => Call::Poll,
        b"take_idle" => Call::TakeIdle,
        b"take_rx" => Call::TakeRx,
        b"ack" => Call::Ack,
        b"state" => Call::State,
        _ => return None,
    })
}

fn operands_of(call: &Call) -> Vec<String> {
    match call {
        Call::Policy { policy } => vec![policy.text()],
        Call::Start { half_bits, .. } => vec![half_bits.text()],
        Call::Poll | Call::TakeIdle | Call::TakeRx | Call::Ack | Call::State => Vec::new(),
    }
}

/// What stands between a line's spaces, from some field on.
type Fields<'a, 'line> = &'a mut dyn Iterator<Item = &'line [u8]>;

/// One field of a line or more, as a value: read from where the line is now, and told with a space between
/// two fields.
pub trait Operand: Sized {
    fn read(fields: Fields) -> Option<Self>;
    fn text(&self) -> String;
}

macro_rules! decimal_operands {
    ($($number:ty)*) => { $(impl Operand for $number {
        /// A number is written in one way only.
        fn read(fields: Fields) -> Option<Self> {
            let given = std::str::from_utf8(fields.next()?).ok()?;
            let number: Self = given.parse().ok()?;
            (number.text() == given).then_some(number)
        }

        fn text(&self) -> String {
            self.to_string()
        }
    })* };
}

decimal_operands! { u8 i8 u16 usize }

/// Values whose parts stand one after the other.
macro_rules! joint_operands {
    ($($value:ident { $($part:ident),* })*) => { $(impl Operand for $value {
        fn read(fields: Fields) -> Option<Self> {
            Some(Self { $($part: Operand::read(fields)?),* })
        }

        fn text(&self) -> String {
            [$(self.$part.text()),*].join(" ")
        }
    })* };
}

joint_operands! {
    Capture { count, samples }
    Rank { len, phase, score }
    PhaseDecode { bit_len, phase_ticks, score, data }
    HalfBits { len, data }
}

/// A level: high is 1.
impl Operand for bool {
    fn read(fields: Fields) -> Option<Self> {
        match fields.next()? {
            b"0" => Some(false),
            b"1" => Some(true),
            _ => None,
        }
    }

    fn text(&self) -> String {
        u8::from(*self).to_string()
    }
}

impl Operand for CollisionPolicy {
    fn read(fields: Fields) -> Option<Self> {
        let given = fields.next()?;
        let mut policies = POLICIES.into_iter();
        policies.find(|policy| policy.text().as_bytes() == given)
    }

    fn text(&self) -> String {
        let word = match self {
            CollisionPolicy::Auto => "auto",
            CollisionPolicy::Off => "off",
            CollisionPolicy::On => "on",
        };
        word.to_string()
    }
}

/// What stands for the decode of a search that found nothing.
const FOUND_NONE: &str = "none";

impl Operand for Option<PhaseDecode> {
    fn read(fields: Fields) -> Option<Self> {
        let first = fields.next()?;
        if first == FOUND_NONE.as_bytes() {
            return Some(None);
        }
        PhaseDecode::read(&mut once(first).chain(fields)).map(Some)
    }

    fn text(&self) -> String {
        self.map_or(FOUND_NONE.to_string(), |decode| decode.text())
    }
}

/// The bytes stand apart.
impl Operand for Frame {
    fn read(fields: Fields) -> Option<Self> {
        let bits = Operand::read(fields)?;
        let mut bytes = [0; FRAME_BYTES];
        for byte in &mut bytes {
            [*byte] = Operand::read(fields)?;
        }
        Some(Frame { bits, bytes })
    }

    fn text(&self) -> String {
        let [first, second, third] = self.bytes;
        format!("{} {first:02x} {second:02x} {third:02x}", self.bits)
    }
}

impl Operand for Levels {
    fn read(fields: Fields) -> Option<Self> {
        let bytes = Operand::read(fields)?;
        Levels::of_bytes(bytes, Operand::read(fields)?)
    }

    fn text(&self) -> String {
        format!("{} {}", byte_string(self.bytes()), self.ticks())
    }
}

/// A mask.
impl Operand for u32 {
    fn read(fields: Fields) -> Option<Self> {
        Operand::read(fields).map(u32::from_be_bytes)
    }

    fn text(&self) -> String {
        format!("{self:08x}")
    }
}

/// Bytes of which the protocol says how many there are.
impl<const N: usize> Operand for [u8; N] {
    fn read(fields: Fields) -> Option<Self> {
        bytes_of(fields.next()?)?.try_into().ok()
    }

    fn text(&self) -> String {
        hex(self)
    }
}

/// Bytes of any number.
impl Operand for Vec<u8> {
    fn read(fields: Fields) -> Option<Self> {
        match fields.next()? {
            b"-" => Some(Vec::new()),
            b"" => None,
            digits => bytes_of(digits),
        }
    }

    fn text(&self) -> String {
        byte_string(self)
    }
}

const DIGITS: &[u8; 16] = b"0123456789abcdef";

fn bytes_of(digits: &[u8]) -> Option<Vec<u8>> {
    let value = |digit| DIGITS.iter().position(|each| *each == digit);
    let pairs = digits.chunks(2).map(|pair| match pair {
        [high, low] => Some((value(*high)? << 4 | value(*low)?) as u8),
        _ => None,
    });
    pairs.collect()
}

pub fn hex(bytes: &[u8]) -> String {
    let halves = bytes.iter().flat_map(|byte| [byte >> 4, byte & 15]);
    halves
        .map(|half| char::from(DIGITS[usize::from(half)]))
        .collect()
}

/// Bytes of any number, none of them too.
pub fn byte_string(bytes: &[u8]) -> String {
    match bytes {
        [] => "-".to_string(),
        _ => hex(bytes),
    }
}

fn push_field(out: &mut Vec<u8>, text: &str) {
    out.push(b' ');
    out.extend_from_slice(text.as_bytes());
}

pub fn push_hex_field(out: &mut Vec<u8>, bytes: &[u8]) {
    push_field(out, &hex(bytes));
}

pub fn push_byte_string_field(out: &mut Vec<u8>, bytes: &[u8]) {
    push_field(out, &byte_string(bytes));
}

pub fn push_number_field(out: &mut Vec<u8>, number: impl Display) {
    push_field(out, &number.to_string());
}
