//! The comparison, with this program itself as the other one, and with
//! variants of it that are wrong in one answer.

use std::fs;
use std::os::unix::fs::PermissionsExt;
use std::path::{Path, PathBuf};
use std::process::Command;

const SECOND: &str = env!("CARGO_BIN_EXE_second");

/// A folder of its own for one test.
fn folder(name: &str) -> PathBuf {
    let folder = Path::new(env!("CARGO_TARGET_TMPDIR")).join(name);
    fs::create_dir_all(&folder).unwrap();
    folder
}

/// A program made of one line of shell.
fn program(folder: &Path, name: &str, line: &str) -> String {
    let path = folder.join(name);
    fs::write(&path, format!("#!/bin/sh\n{line}\n")).unwrap();
    fs::set_permissions(&path, fs::Permissions::from_mode(0o755)).unwrap();
    path.display().to_string()
}

/// Whether the comparison was content, and what it printed.
fn compare(folder: &Path, flags: &[&str]) -> (bool, Vec<String>) {
    let output = Command::new(SECOND)
        .args(["compare", "--root", &folder.display().to_string(), "--seed", "3"])
        .args(flags)
        .output()
        .unwrap();
    let text = String::from_utf8(output.stdout).unwrap();
    (output.status.success(), text.lines().map(String::from).collect())
}

/// The passed and failed answers of the last line.
fn counts(lines: &[String]) -> (u64, u64) {
    let words: Vec<&str> = lines.last().unwrap().split(' ').collect();
    assert_eq!((words[1], words[3], words.len()), ("passed,", "failed", 4));
    (words[0].parse().unwrap(), words[2].parse().unwrap())
}

#[test]
fn agrees_with_itself() {
    let folder = folder("itself");
    let listing = program(&folder, "listing", &format!("exec {SECOND} list"));
    let probe = program(&folder, "probe", &format!("exec {SECOND} probe"));
    let c_probe = program(&folder, "c-probe", &format!("exec {SECOND} c-probe"));
    let (content, lines) =
        compare(&folder, &["--count", "60", "--listing", &listing, "--probe", &probe, "--c-probe", &c_probe]);
    let (passed, failed) = counts(&lines);
    assert!(content && passed > 4000 && failed == 0 && lines.len() == 1, "{lines:#?}");
}

#[test]
fn takes_the_programs_of_the_repository() {
    let folder = folder("repository");
    fs::create_dir_all(folder.join("target/bin")).unwrap();
    fs::create_dir_all(folder.join("target/c")).unwrap();
    program(&folder, "target/bin/listing", &format!("exec {SECOND} list"));
    program(&folder, "target/bin/probe", &format!("exec {SECOND} probe"));
    program(&folder, "target/c/probe", &format!("exec {SECOND} c-probe"));
    let (content, lines) = compare(&folder, &["--count", "2"]);
    assert!(content && counts(&lines).1 == 0, "{lines:#?}");
}

#[test]
fn shows_the_first_difference() {
    let folder = folder("difference");
    let probe = program(&folder, "probe", &format!("{SECOND} probe | sed 's/^refused 15 /refused 16 /'"));
    let (content, lines) = compare(&folder, &["--count", "30", "--probe", &probe]);
    let (passed, failed) = counts(&lines);
    assert!(!content && failed > 0 && passed > 1000, "{lines:#?}");
    let shown = lines.join("\n");
    assert!(lines[0].starts_with("probe differs, "), "{shown}");
    assert!(shown.contains("  given   D ["), "{shown}");
    assert!(shown.contains("  command "), "{shown}");
    assert!(shown.contains("  second  refused 15 "), "{shown}");
    assert!(shown.contains("  other   refused 16 "), "{shown}");
    let saved = fs::read(folder.join("target/difference.probe")).unwrap();
    let answers = second::probe::run(&saved);
    assert!(answers.lines().last().unwrap().starts_with("refused 15 "), "{answers}");
}

#[test]
fn shows_a_listing_that_differs() {
    let folder = folder("listing");
    let listing = program(&folder, "listing", &format!("{SECOND} list | sed 's/%20/+/g; s/ -2$/ 254/'"));
    let (content, lines) = compare(&folder, &["--count", "0", "--listing", &listing]);
    assert!(!content);
    assert_eq!(lines[0], "listing differs, fixed case \"unchanged\", line 3");
    assert_eq!(lines[2], "  second  row 87 7 10 -2\\n");
    assert_eq!(lines[3], "  other   row 87 7 10 254\\n");
    assert_eq!(fs::read(folder.join("target/difference.listing")).unwrap(), second::specimen::SPECIMEN);
}

#[test]
fn a_program_that_prints_less_or_more_differs() {
    let folder = folder("less");
    let less = program(&folder, "less", &format!("{SECOND} c-probe | head -n 3"));
    let more = program(&folder, "more", &format!("{SECOND} c-probe; echo more"));
    let silent = program(&folder, "silent", "exec cat > /dev/null");
    for other in [less, more, silent] {
        let (content, lines) = compare(&folder, &["--count", "3", "--c-probe", &other]);
        assert!(!content && counts(&lines).1 > 0, "{lines:#?}");
    }
}

#[test]
fn a_program_that_fails_differs() {
    let folder = folder("fails");
    let fails = program(&folder, "fails", &format!("{SECOND} probe; exit 3"));
    let (content, lines) = compare(&folder, &["--count", "1", "--probe", &fails]);
    assert!(!content && counts(&lines).1 > 0);
    let missing = folder.join("missing").display().to_string();
    let (content, lines) = compare(&folder, &["--count", "1", "--listing", &missing]);
    let (passed, failed) = counts(&lines);
    assert!(!content && passed == 0 && failed > 0);
}

#[test]
fn halves_can_be_left_out() {
    let folder = folder("halves");
    let letters = "tr -d 'fyat' > /dev/null; echo";
    let silent = program(&folder, "silent", letters);
    let run = |flags: &[&str]| {
        counts(&compare(&folder, &[flags, &["--count", "20", "--probe", &silent]].concat()).1)
    };
    let all = run(&[]).1;
    let reading = run(&["--no-writing"]).1;
    let least = run(&["--no-writing", "--no-questions"]).1;
    assert!(all > reading && reading > least && least > 100, "{all} {reading} {least}");
}

#[test]
fn wrong_flags_are_a_failure() {
    let (content, lines) = compare(&folder("flags"), &["--fast"]);
    assert!(!content && lines.is_empty());
}

#[test]
fn words_that_start_a_program_stand_before_it() {
    let folder = folder("start");
    let listing = folder.join("listing");
    fs::write(&listing, format!("exec {SECOND} list\n")).unwrap();
    let listing = listing.display().to_string();
    let (content, lines) = compare(&folder, &["--count", "1", "--start", "env\nsh", "--listing", &listing]);
    assert!(content && counts(&lines).1 == 0, "{lines:#?}");
    let (content, _) = compare(&folder, &["--count", "1", "--start", "", "--listing", &listing]);
    assert!(!content);
}
