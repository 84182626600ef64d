//! Comparing other programs with this one, answer by answer.

mod batch;
mod cases;
mod entry;
mod flags;
mod listings;
mod program;
mod tally;

use std::path::Path;

use crate::generate::large;
use crate::probe;
use batch::Probe;
use cases::Named;
use entry::Entry;
pub use flags::Flags;
use tally::Tally;

const CASES_A_RUN: usize = 25;

const QUESTIONS: &[u8] = b"fyat";
const READING: &[u8] = b"DBhwsfyat";
const C_PROBE: &[u8] = b"DBhws";

/// Compares all that the flags ask for; whether nothing differed.
pub fn compare(flags: &Flags) -> bool {
    let mut tally = Tally::new(flags.root.join("target"));
    compare_cases(flags, &cases::fixed(), &mut tally);
    compare_entries(flags, &cases::fixed_entries(), &mut tally);
    compare_entries(flags, &cases::fixed_bad(), &mut tally);
    for first in (0..flags.count).step_by(CASES_A_RUN) {
        let indexes = first..flags.count.min(first + CASES_A_RUN as u64);
        let generated: Vec<Named> =
            indexes.clone().map(|index| cases::generated(flags.seed, index)).collect();
        compare_cases(flags, &generated, &mut tally);
        compare_entries(flags, &cases::generated_bad(flags.seed, indexes), &mut tally);
    }
    compare_large(flags, &mut tally);
    tally.finish()
}

fn compare_cases(flags: &Flags, cases: &[Named], tally: &mut Tally) {
    compare_listings(flags, cases, tally);
    let entries: Vec<Entry> = cases.iter().map(Named::entry).collect();
    compare_entries(flags, &entries, tally);
}

fn compare_listings(flags: &Flags, cases: &[Named], tally: &mut Tally) {
    if let Some(path) = &flags.listing {
        for named in cases {
            listings::compare(&flags.start, path, &named.label, &named.case.document, tally);
        }
    }
}

/// Gives each probe the commands of the entries that it has.
fn compare_entries(flags: &Flags, entries: &[Entry], tally: &mut Tally) {
    let only = |wanted: &dyn Fn(u8) -> bool| -> Vec<Entry> {
        entries.iter().map(|entry| entry.only(wanted)).collect()
    };
    if let Some(path) = &flags.probe {
        let wanted = |letter| {
            (flags.questions || !QUESTIONS.contains(&letter)) && (flags.writing || READING.contains(&letter))
        };
        our_probe(flags, path).compare(&only(&wanted), tally);
    }
    if let Some(path) = &flags.c_probe {
        our_c_probe(flags, path).compare(&only(&|letter| C_PROBE.contains(&letter)), tally);
    }
}

/// Documents about the limit of all documents: for the C probe to read, and
/// for the listing to find too long.
fn compare_large(flags: &Flags, tally: &mut Tally) {
    for index in 0..large::COUNT {
        let named = [cases::generated_large(flags.seed, index)];
        compare_listings(flags, &named, tally);
        if let Some(path) = &flags.c_probe {
            our_c_probe(flags, path).compare(&[named[0].entry()], tally);
        }
    }
}

fn our_probe<'a>(flags: &'a Flags, path: &'a Path) -> Probe<'a> {
    Probe { name: "probe", start: &flags.start, path, answers: probe::run }
}

fn our_c_probe<'a>(flags: &'a Flags, path: &'a Path) -> Probe<'a> {
    Probe { name: "c-probe", start: &flags.start, path, answers: probe::c::run }
}
