//! The probe: commands on standard input, a line for each answer.

pub mod c;
pub mod input;
pub mod reading;
pub mod reply;
pub mod sum;
pub mod writing;

use reading::Reading;
use reply::Reply;
use writing::Writing;

pub const MOST_DOCUMENT: u64 = 65_600;

pub fn run(input: &[u8]) -> String {
    let mut reading = Reading::default();
    let mut writing = Writing::default();
    reply::run(input, |letter, input| match letter {
        b'D' => {
            reading.document = input.octets(MOST_DOCUMENT)?.to_vec();
            Some(Reply::Silent)
        }
        b'B' | b'h' | b'w' | b's' | b'f' | b'y' | b'a' | b't' => reading.command(letter, input),
        _ => writing.command(letter, input),
    })
}
