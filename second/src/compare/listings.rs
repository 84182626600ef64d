//! Giving documents to a listing, one a run.

use std::path::Path;

use super::program::{self, Running};
use super::tally::{lines, readable, Difference, Tally};
use crate::command::Command;
use crate::listing::list;

pub fn compare(start: &[String], path: &Path, label: &str, document: &[u8], tally: &mut Tally) {
    let running = program::start(start, path, document.to_vec());
    let ours = list(document);
    let run = match running.and_then(Running::finish) {
        Ok(run) => run,
        Err(fault) => return tally.fault(&fault),
    };
    let (ours, theirs) = (lines(ours.as_bytes()), lines(&run.output));
    if let Some(line) = tally.count(&ours, &theirs) {
        tally.show(&Difference {
            program: "listing",
            label: format!("{label}, line {}", line + 1),
            given: format!("  document {}\n", Command::octets(b'D', document).readable()),
            ours: readable(ours.get(line)),
            theirs: readable(theirs.get(line)),
            octets: document.to_vec(),
        });
    }
    if run.status.code().is_none() {
        tally.fault(&format!("{} ended with {}", path.display(), run.status));
    }
}
