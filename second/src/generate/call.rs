//! Single calls of the writer, with arguments that may be right.

use super::field;
use super::random::Random;
use super::script::script;
use super::text;
use crate::basic::Basic;
use crate::command::{Argument, Command};
use crate::limits;
use crate::meaning::Document;
use crate::writer::state::Turn;

const LETTERS: &[u8] = b"123456789kmcnuovxze";

pub fn any_call(random: &mut Random) -> Command {
    let letter = random.pick(LETTERS);
    call(random, letter)
}

/// A call that the turn allows; giving up and closing too where they are.
pub fn call_in_turn(random: &mut Random, turn: Turn) -> Command {
    let letters: &[u8] = match turn {
        Turn::Recorder => b"1",
        Turn::StartTime => b"2",
        Turn::DefaultNamespace => b"3",
        Turn::NamespaceCount => b"4",
        Turn::Uri => b"5",
        Turn::ShortName => b"6",
        Turn::ServiceCount => b"7",
        Turn::Service => b"8",
        Turn::DocumentId => b"9",
        Turn::Element => b"kkooe",
        Turn::TypeName => b"mmz",
        Turn::AttributeCount => b"cccz",
        Turn::AttributeName => b"nnz",
        Turn::AttributeType => b"uuuz",
        Turn::Value => b"vvvxxz",
        Turn::Nothing => LETTERS,
    };
    let letter = random.pick(letters);
    call(random, letter)
}

/// A call for the turn; at elements and values one that fits the document.
pub fn fitting_call(random: &mut Random, turn: Turn, document: &Document) -> Command {
    let calls: Vec<Command> = script(document);
    let fitting: Vec<&Command> = calls
        .iter()
        .filter(|call| match turn {
            Turn::Element => b"ko".contains(&call.letter),
            Turn::Value => b"vx".contains(&call.letter),
            _ => false,
        })
        .collect();
    match random.below(4) {
        _ if fitting.is_empty() => call_in_turn(random, turn),
        0 => call_in_turn(random, turn),
        1 => {
            let call = random.pick(&fitting);
            changed(random, call)
        }
        _ => random.pick(&fitting).clone(),
    }
}

/// A call of this letter.
pub fn call(random: &mut Random, letter: u8) -> Command {
    match letter {
        b'1' | b'3' | b'5' | b'6' | b'8' | b'm' | b'n' => Command::octets(letter, &string(random)),
        b'2' | b'e' => Command::numbers(letter, &[field::time(random) as u64]),
        b'4' | b'7' | b'c' => Command::numbers(letter, &[count(random)]),
        b'9' => {
            let size = random.pick(&[0, 15, limits::ID, limits::ID, 17]);
            Command::octets(letter, &random.octets(size))
        }
        b'k' => Command::numbers(letter, &[field::number(random).into()]),
        b'u' => Command::numbers(letter, &[field::doubtful_kind(random).into()]),
        b'o' => Command::numbers(letter, &[field::number(random).into(), random.below(2) as u64]),
        b'v' => {
            let basic = field::basic(random);
            given(random, basic)
        }
        _ => Command::new(letter),
    }
}

/// A string that may be bad, and may be too long for the room.
fn string(random: &mut Random) -> Vec<u8> {
    match random.below(90) {
        0 => vec![b'l'; random.pick(&[1000, 65_535, 65_600])],
        1 => [vec![b'l'; random.pick(&[1000, 65_535, 65_599])], vec![0xe9]].concat(),
        2..=24 => text::bad(random),
        _ => text::string(random),
    }
}

fn count(random: &mut Random) -> u64 {
    match random.below(4) {
        0 => random.pick(&field::BORDERS32).into(),
        _ => random.below(4) as u64,
    }
}

/// A value of a type: any bits and any octets, whichever of them count.
/// Booleans are those about 0 and 1.
fn given(random: &mut Random, basic: Basic) -> Command {
    let bits = match basic {
        Basic::Boolean => random.pick(&[0, 1, 1, 2, 3, 255, 256, 257, 258, u64::MAX - 254]),
        _ => field::bits(random),
    };
    let octets = match basic {
        Basic::HexBinary => field::octets(random),
        _ => string(random),
    };
    Command::numbers(b'v', &[basic.low().into(), bits]).and(Argument::Octets(octets))
}

/// The same call with a bad string; none where it takes no string.
pub fn spoiled(random: &mut Random, old: &Command) -> Option<Command> {
    let takes_a_string = match old.arguments[..] {
        [Argument::Number(low), ..] if old.letter == b'v' => low == Basic::String.low().into(),
        _ => b"13568mn".contains(&old.letter),
    };
    let mut command = old.clone();
    match command.arguments.last_mut() {
        Some(Argument::Octets(octets)) if takes_a_string => *octets = text::bad(random),
        _ => return None,
    }
    Some(command)
}

/// A call with other arguments; a value mostly keeps its type.
pub fn changed(random: &mut Random, old: &Command) -> Command {
    match old.arguments[..] {
        [Argument::Number(low), ..] if old.letter == b'v' && !random.one_in(4) => {
            given(random, Basic::of(low as u8).unwrap_or(Basic::Boolean))
        }
        _ => call(random, old.letter),
    }
}

/// The same value with octets that do not count: bits above its width, or the
/// argument that its type has no use for.
pub fn noisy(random: &mut Random, old: &Command) -> Command {
    let mut command = old.clone();
    if let [Argument::Number(low), Argument::Number(bits), Argument::Octets(octets)] =
        &mut command.arguments[..]
    {
        match Basic::of(*low as u8).and_then(Basic::width) {
            Some(8) => *octets = random.octets(3),
            Some(width) => *bits |= random.draw() << (8 * width),
            None => *bits = random.draw(),
        }
    }
    command
}
