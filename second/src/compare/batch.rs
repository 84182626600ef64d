//! Giving many entries to a probe at once and comparing its lines.

use std::path::Path;

use super::entry::Entry;
use super::program::{self, Running};
use super::tally::{lines, readable, Difference, Tally};
use crate::command::stream;

/// A probe to compare with, and the function it must agree with.
pub struct Probe<'a> {
    pub name: &'static str,
    pub start: &'a [String],
    pub path: &'a Path,
    pub answers: fn(&[u8]) -> String,
}

impl Probe<'_> {
    /// Entries of bad input go one by one, all others in one run.
    pub fn compare(&self, entries: &[Entry], tally: &mut Tally) {
        let (bad, good): (Vec<&Entry>, Vec<&Entry>) = entries.iter().partition(|entry| entry.bad);
        if !good.is_empty() {
            self.compare_run(&good, tally);
        }
        for entry in bad {
            self.compare_run(&[entry], tally);
        }
    }

    fn compare_run(&self, entries: &[&Entry], tally: &mut Tally) {
        let input: Vec<u8> = entries.iter().flat_map(|entry| stream(&entry.commands)).collect();
        let running = program::start(self.start, self.path, input.clone());
        let ours = (self.answers)(&input);
        let run = match running.and_then(Running::finish) {
            Ok(run) => run,
            Err(fault) => return tally.fault(&fault),
        };
        let (ours, theirs) = (lines(ours.as_bytes()), lines(&run.output));
        if let Some(line) = tally.count(&ours, &theirs) {
            let (ours, theirs) = (readable(ours.get(line)), readable(theirs.get(line)));
            tally.show(&self.difference(entries, line, ours, theirs));
        }
        if !run.status.success() {
            tally.fault(&format!("{} ended with {}", self.path.display(), run.status));
        }
    }

    fn difference(&self, entries: &[&Entry], line: usize, ours: String, theirs: String) -> Difference {
        let places =
            entries.iter().flat_map(|entry| entry.lines().into_iter().map(move |index| (entry, index)));
        let (label, given, octets) = match places.into_iter().nth(line) {
            Some((entry, index)) => {
                (entry.label.clone(), entry.shown(index), stream(&entry.commands[..=index]))
            }
            None => ("more lines than commands".to_string(), String::new(), Vec::new()),
        };
        Difference { program: self.name, label, given, ours, theirs, octets }
    }
}
