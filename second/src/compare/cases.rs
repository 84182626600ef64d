//! The cases compared: fixed ones, generated ones, and bad input.

use super::entry::Entry;
use crate::command::Command;
use crate::examples;
use crate::generate::document::{fullest, padded};
use crate::generate::random::Random;
use crate::generate::script::script;
use crate::generate::{self, bad_input, exhaustive, large, reading, states, strings, values, writing, Case};
use crate::image::image;
use crate::limits;
use crate::specimen::{fixed_cases, meaning, SPECIMEN};
use crate::string_cases::string_cases;

/// Every so many generated cases end in bad input once.
const BAD_EVERY: u64 = 20;

/// A case and the name it is shown by.
pub struct Named {
    pub label: String,
    pub case: Case,
}

impl Named {
    pub fn entry(&self) -> Entry {
        Entry::good(self.label.clone(), self.case.commands.clone())
    }
}

/// The documents of the scope, those about strings, the examples and some
/// documents about the listing's longest, read in ways that do not depend on a
/// seed.
pub fn fixed() -> Vec<Named> {
    let cases = fixed_cases().into_iter().chain(string_cases());
    let listed = cases.map(|case| (format!("fixed case \"{}\"", case.name), case.document));
    let documents = listed.chain(examples()).chain(sized()).zip(0..);
    documents.map(|((label, document), index)| read(index, label, document)).collect()
}

/// Entries that a probe alone is given: every cut and every changed octet of
/// small documents, short strings, and the specimen in detail, read, asked
/// about and written.
pub fn fixed_entries() -> Vec<Entry> {
    let mut entries = vec![
        entry("the specimen from 104", specimen_from_104()),
        entry("questions on the specimen", specimen_asked()),
        entry("the specimen written", specimen_written()),
        entry("the fullest document written", fullest_written()),
        entry("states about every border", states::every_border()),
        entry("a value of every type", values::every_value()),
        entry("short strings as recorders", strings::recorders(&strings::short_strings())),
        entry("short strings as values", strings::values(&strings::of_borders())),
        entry("characters at every place of a value", strings::values(&strings::at_every_place(40))),
        entry("strings given to a writer", strings::given()),
    ];
    for (label, document) in examples() {
        entries.push(entry(&format!("{label}, cut"), exhaustive::every_cut(&document)));
        entries.push(entry(&format!("{label}, an octet changed"), exhaustive::every_octet(&document)));
    }
    entries
}

fn entry(label: &str, commands: Vec<Command>) -> Entry {
    Entry::good(label.to_string(), commands)
}

fn read(index: u64, label: String, document: Vec<u8>) -> Named {
    let commands = reading::commands(&mut Random::of(0, index), &document, &[]);
    Named { label, case: Case { document, commands } }
}

fn examples() -> impl Iterator<Item = (String, Vec<u8>)> {
    examples::examples().into_iter().map(|example| (format!("example {}", example.name), example.document))
}

/// The specimen with a recorder so long that it has the size.
fn sized() -> Vec<(String, Vec<u8>)> {
    let sizes = [65_535, 65_536, 65_537, 65_600];
    sizes.map(|size| (format!("fixed case of {size} octets"), image(&padded(meaning(), size)).octets)).into()
}

/// The specimen, with its layout in the book.
fn specimen_lent() -> Vec<Command> {
    let mut book = SPECIMEN[56..87].to_vec();
    book.resize(limits::BOOK, 0);
    vec![Command::octets(b'D', &SPECIMEN), Command::octets(b'B', &book)]
}

/// With 1 row passed, then with 0, then over an empty book.
fn specimen_from_104() -> Vec<Command> {
    let steps = [[104, 1, 31], [121, 2, 31], [104, 0, 31], [121, 1, 31], [104, 1, 0]];
    let steps = steps.iter().map(|step| Command::numbers(b's', step));
    specimen_lent().into_iter().chain(steps).collect()
}

fn specimen_asked() -> Vec<Command> {
    let mut commands = specimen_lent();
    for place in [52, 87, 104, 121, 137] {
        commands.push(Command::numbers(b'y', &[place, 0, 31]));
        for n in [0, 1, 2, u64::MAX] {
            commands.push(Command::numbers(b'f', &[place, 0, 31, n]));
            commands.push(Command::numbers(b'a', &[place, 0, 31, n]));
        }
    }
    commands.extend((0..6).map(|which| Command::numbers(b't', &[which, 0])));
    commands
}

fn specimen_written() -> Vec<Command> {
    let calls = script(&meaning());
    let size = SPECIMEN.len();
    let whole = [&[Command::numbers(b'N', &[size as u64])], &calls[..], &[Command::new(b'i')]].concat();
    [whole, writing::every_smaller_room(&calls, size)].concat()
}

fn fullest_written() -> Vec<Command> {
    let document = fullest(&mut Random::of(0, 0));
    let size = image(&document).octets.len() as u64;
    [&[Command::numbers(b'N', &[size])], &script(&document)[..], &[Command::new(b'i')]].concat()
}

pub fn generated(seed: u64, index: u64) -> Named {
    Named { label: format!("seed {seed} case {index}"), case: generate::case(seed, index) }
}

pub fn generated_large(seed: u64, index: u64) -> Named {
    Named { label: format!("seed {seed} large case {index}"), case: large::case(seed, index) }
}

pub fn fixed_bad() -> Vec<Entry> {
    let label = |index| format!("fixed bad input {index}");
    bad_input::fixed().into_iter().enumerate().map(|(index, last)| bad_entry(label(index), last)).collect()
}

/// The entries of bad input that belong to these indexes.
pub fn generated_bad(seed: u64, indexes: std::ops::Range<u64>) -> Vec<Entry> {
    indexes
        .filter(|index| index % BAD_EVERY == 0)
        .map(|index| {
            let commands = generate::case(seed, index).commands;
            let last = bad_input::command(&mut Random::of(!seed, index), &commands);
            bad_entry(format!("seed {seed} bad input {index}"), last)
        })
        .collect()
}

/// One good answer, then the command that is bad.
fn bad_entry(label: String, last: Command) -> Entry {
    let commands = vec![Command::octets(b'D', &SPECIMEN), Command::new(b'h'), last];
    Entry { label, commands, bad: true }
}
