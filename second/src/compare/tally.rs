//! Counting what was compared, and showing the first difference.

use std::fs;
use std::path::PathBuf;

pub struct Tally {
    pub passed: u64,
    pub failed: u64,
    /// Programs with a difference that was shown, and faults that were.
    shown: Vec<String>,
    folder: PathBuf,
}

/// A difference as it is shown, and the octets that lead to it.
pub struct Difference {
    pub program: &'static str,
    pub label: String,
    pub given: String,
    pub ours: String,
    pub theirs: String,
    pub octets: Vec<u8>,
}

impl Tally {
    /// Differences will be saved in the folder.
    pub fn new(folder: PathBuf) -> Self {
        Tally { passed: 0, failed: 0, shown: Vec::new(), folder }
    }

    /// Compares line by line; a missing line and one too many count as failed.
    /// Answers the index of the first line that differs.
    pub fn count(&mut self, ours: &[&[u8]], theirs: &[&[u8]]) -> Option<usize> {
        let most = ours.len().max(theirs.len());
        let differs = |index: &usize| ours.get(*index) != theirs.get(*index);
        let failed = (0..most).filter(differs).count();
        self.passed += (most - failed) as u64;
        self.failed += failed as u64;
        (0..most).find(differs)
    }

    /// A program that could not be compared at all; the same fault is shown
    /// only once.
    pub fn fault(&mut self, fault: &str) {
        self.failed += 1;
        if self.is_first(fault) {
            println!("{fault}");
        }
    }

    fn is_first(&mut self, what: &str) -> bool {
        let first = !self.shown.iter().any(|shown| shown == what);
        if first {
            self.shown.push(what.to_string());
        }
        first
    }

    /// Shows the first difference of a program, and saves its octets whole.
    pub fn show(&mut self, difference: &Difference) {
        if !self.is_first(difference.program) {
            return;
        }
        println!("{} differs, {}", difference.program, difference.label);
        print!("{}", difference.given);
        println!("  second  {}", difference.ours);
        println!("  other   {}", difference.theirs);
        let path = self.folder.join(format!("difference.{}", difference.program));
        match fs::create_dir_all(&self.folder).and_then(|()| fs::write(&path, &difference.octets)) {
            Ok(()) => println!("  input   {} ({} octets)", path.display(), difference.octets.len()),
            Err(fault) => println!("  input   not saved in {}: {fault}", path.display()),
        }
    }

    /// The last line, and whether all is well: something was compared, and
    /// nothing differed.
    pub fn finish(&self) -> bool {
        println!("{} passed, {} failed", self.passed, self.failed);
        self.passed > 0 && self.failed == 0
    }
}

/// The lines of an output, each with its newline if it has one.
pub fn lines(output: &[u8]) -> Vec<&[u8]> {
    output.split_inclusive(|octet| *octet == b'\n').collect()
}

/// A line for showing.
pub fn readable(line: Option<&&[u8]>) -> String {
    match line {
        Some(line) => line.escape_ascii().to_string(),
        None => "(no line)".to_string(),
    }
}

#[cfg(test)]
mod tests {
    use super::*;

    fn counted(ours: &[u8], theirs: &[u8]) -> (Option<usize>, u64, u64) {
        let mut tally = Tally::new(PathBuf::new());
        let first = tally.count(&lines(ours), &lines(theirs));
        (first, tally.passed, tally.failed)
    }

    #[test]
    fn every_line_is_counted() {
        assert_eq!(counted(b"a\nb\n", b"a\nb\n"), (None, 2, 0));
        assert_eq!(counted(b"a\nb\n", b"a\nc\n"), (Some(1), 1, 1));
        assert_eq!(counted(b"a\nb\n", b"a\n"), (Some(1), 1, 1));
        assert_eq!(counted(b"a\n", b"a\nb\nc\n"), (Some(1), 1, 2));
        assert_eq!(counted(b"a\n", b"a"), (Some(0), 0, 1));
        assert_eq!(counted(b"", b""), (None, 0, 0));
    }

    #[test]
    fn comparing_nothing_is_not_well() {
        assert!(!Tally::new(PathBuf::new()).finish());
    }
}
