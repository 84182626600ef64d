//! The probe over the C entry points: fewer commands, documents of any length.

use super::input::Input;
use super::reading::Reading;
use super::reply::{self, Reply};

pub fn run(input: &[u8]) -> String {
    let mut reading = Reading::default();
    reply::run(input, |letter, input| command(&mut reading, letter, input))
}

fn command(reading: &mut Reading, letter: u8, input: &mut Input) -> Option<Reply> {
    match letter {
        b'D' => {
            reading.document = input.octets(u64::MAX)?.to_vec();
            Some(Reply::Silent)
        }
        b's' => {
            let (at, rows, used) = (input.number()?, input.number()?, input.number()?);
            Some(Reply::Line(if fits(at) && fits(rows) && fits(used) {
                reading.step(at, rows, used)
            } else {
                "too large".to_string()
            }))
        }
        b'B' | b'h' | b'w' => reading.command(letter, input),
        _ => None,
    }
}

/// Whether a number is one of a C parameter, which has 32 bits.
fn fits(number: u64) -> bool {
    u32::try_from(number).is_ok()
}
