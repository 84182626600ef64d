//! Generated cases. A case depends on a seed and its index alone.

pub mod bad_input;
pub mod by_hand;
pub mod call;
pub mod damage;
pub mod desk;
pub mod document;
pub mod exhaustive;
pub mod field;
pub mod large;
pub mod lent_book;
pub mod random;
pub mod reading;
pub mod script;
pub mod spoil;
pub mod states;
pub mod stray;
pub mod strings;
pub mod text;
pub mod values;
pub mod visit;
pub mod wander;
pub mod writing;

use crate::command::Command;
use crate::image::image;
use crate::probe::MOST_DOCUMENT;
use crate::specimen::SPECIMEN;
use random::Random;

pub struct Case {
    pub document: Vec<u8>,
    /// Commands that read the document, and then some that write.
    pub commands: Vec<Command>,
}

/// A document, good, with a bad string or damaged, what is done with it, and
/// a writer's script.
pub fn case(seed: u64, index: u64) -> Case {
    let mut random = Random::of(seed, index);
    let mut meaning = document::document(&mut random);
    if random.one_in(6) {
        meaning = spoil::spoiled(&mut random, &meaning);
    }
    let image = image(&meaning);
    let mut document = match random.below(5) {
        0 | 1 => image.octets.clone(),
        _ => damage::damaged(&mut random, &image),
    };
    document.truncate(MOST_DOCUMENT as usize);
    let mut commands = reading::commands(&mut random, &document, &image.starts);
    commands.extend(writing::commands(&mut random));
    commands.extend(afterwards());
    Case { document, commands }
}

/// Whether writing left the lent document alone, and whether another document
/// is read over the book as it stands.
fn afterwards() -> [Command; 4] {
    let step = Command::numbers(b's', &[104, 1, 31]);
    [Command::new(b'h'), Command::octets(b'D', &SPECIMEN), step, Command::new(b'w')]
}
