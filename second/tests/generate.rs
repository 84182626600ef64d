//! What generated cases reach, and that they can be repeated.

use std::collections::BTreeMap;
use std::sync::OnceLock;

use second::command::{stream, Command};
use second::generate::case;
use second::generate::document::{document, fullest};
use second::generate::field;
use second::generate::random::Random;
use second::generate::script::script;
use second::generate::text::{self, CHARACTERS, FAULTS, WORDS};
use second::image::image;
use second::limits;
use second::probe;
use second::time::{self, LAST};
use second::whole::whole_check;

/// How often each first word, or call or refusal with its letter, was answered.
fn answers() -> &'static BTreeMap<String, u64> {
    static ANSWERS: OnceLock<BTreeMap<String, u64>> = OnceLock::new();
    ANSWERS.get_or_init(|| count_answers(1500))
}

fn count_answers(cases: u64) -> BTreeMap<String, u64> {
    let mut counts = BTreeMap::new();
    for index in 0..cases {
        let commands = case(5, index).commands;
        let text = probe::run(&stream(&commands));
        let asking = commands.iter().filter(|command| !command.is_silent());
        for (command, line) in asking.zip(text.lines()) {
            let mut words = line.split(' ');
            let first = match words.next() {
                Some("refused") => format!("{} {}", char::from(command.letter), words.next().unwrap_or("")),
                Some("done") => format!("{} done", char::from(command.letter)),
                word => word.unwrap_or("").to_string(),
            };
            *counts.entry(first).or_insert(0) += 1;
        }
    }
    counts
}

#[test]
fn every_answer_is_reached() {
    let counts = answers();
    for word in ["header", "whole", "layout", "row", "end", "field", "name", "attribute", "text"] {
        assert!(counts.get(word).copied().unwrap_or(0) >= 20, "{word}");
    }
    let refusals: [(char, &[u8]); 7] = [
        ('h', &[1, 3, 4, 5, 6, 24]),
        ('w', &[1, 3, 4, 5, 6, 7, 8, 9, 10, 11, 12, 13, 14, 15, 16, 24]),
        ('t', &[1, 3, 4, 5, 6, 18, 24]),
        ('s', &[1, 7, 8, 9, 10, 11, 12, 13, 14, 15, 16, 17, 24]),
        ('f', &[1, 7, 12, 13, 14, 17, 18, 19, 24]),
        ('a', &[1, 4, 7, 8, 9, 10, 11, 17, 18, 19, 24]),
        ('y', &[1, 4, 7, 8, 9, 10, 11, 17, 19, 24]),
    ];
    for (letter, numbers) in refusals {
        for number in numbers {
            assert!(counts.contains_key(&format!("{letter} {number}")), "{letter} {number}");
        }
    }
}

/// Bad strings must not hide what stands behind them, nor be too few.
#[test]
fn good_and_bad_strings_have_their_share() {
    let of = |answer: &str| answers().get(answer).copied().unwrap_or(0);
    for (answer, least) in
        [("whole", 1500 + 400), ("w 24", 150), ("h 24", 60), ("s 24", 150), ("f 24", 20), ("v 24", 20)]
    {
        assert!(of(answer) >= least, "{answer}: {}", of(answer));
    }
}

#[test]
fn every_refusal_of_the_writer_is_reached() {
    let counts = answers();
    let refusals: [(char, &[u8]); 19] = [
        ('1', &[24]),
        ('2', &[]),
        ('3', &[24]),
        ('4', &[4]),
        ('5', &[24]),
        ('6', &[24]),
        ('7', &[4]),
        ('8', &[24]),
        ('9', &[5]),
        ('k', &[]),
        ('m', &[24]),
        ('c', &[4, 10, 11]),
        ('n', &[24]),
        ('u', &[8, 9, 10, 11]),
        ('o', &[12]),
        ('v', &[12, 21, 24]),
        ('x', &[12, 22]),
        ('z', &[]),
        ('e', &[]),
    ];
    for (letter, own) in refusals {
        let fits: &[u8] = if ['x', 'z'].contains(&letter) { &[] } else { &[23] };
        for number in [17, 20].iter().chain(own).chain(fits) {
            assert!(counts.contains_key(&format!("{letter} {number}")), "{letter} {number}");
        }
        assert!(counts.contains_key(&format!("{letter} done")), "{letter} done");
    }
    assert!(!counts.contains_key("x 23") && !counts.contains_key("z 23"));
}

#[test]
fn a_case_is_repeated_by_its_seed_and_index() {
    let octets = |seed, index| stream(&case(seed, index).commands);
    assert_eq!(octets(3, 40), octets(3, 40));
    assert_ne!(octets(3, 40), octets(3, 41));
    assert_ne!(octets(3, 40), octets(4, 40));
}

#[test]
fn the_fullest_document_is_written_and_read() {
    let document = fullest(&mut Random::of(9, 0));
    let octets = image(&document).octets;
    assert_eq!(whole_check(&octets), Ok(2));
    let fresh = Command::numbers(b'N', &[octets.len() as u64]);
    let text = probe::run(&stream(&[&[fresh], &script(&document)[..]].concat()));
    let done = text.lines().filter(|line| line.starts_with("done ")).count();
    assert_eq!(done, 6 + 2 * 16 + 16 + (3 + 2 * 64) + 2 * (2 + 64) + 63 * 3 + 1);
    assert_eq!(text.lines().count(), done);
}

#[test]
fn good_documents_are_accepted() {
    let mut accepted = 0;
    for index in 0..1000 {
        let document = document(&mut Random::of(8, index));
        let octets = image(&document).octets;
        match whole_check(&octets) {
            Ok(rows) => {
                assert_eq!(rows, document.rows() as u64);
                accepted += 1;
            }
            // Shapes just beyond a limit.
            Err(refusal) => assert!([4, 11].contains(&refusal.number) || octets.len() > limits::DOCUMENT),
        }
    }
    assert!(accepted > 900, "{accepted} of 1000 accepted");
}

#[test]
fn strings_are_of_every_kind() {
    let mut random = Random::of(6, 0);
    let strings: Vec<Vec<u8>> = (0..20_000).map(|_| text::string(&mut random)).collect();
    let strings: Vec<&str> = strings.iter().map(|octets| std::str::from_utf8(octets).unwrap()).collect();
    let holding = |wanted: &dyn Fn(&str) -> bool| strings.iter().filter(|text| wanted(text)).count();
    assert!(holding(&|text| text.is_empty()) > 1000);
    assert!(holding(&|text| text.is_ascii()) > 8000);
    assert!(holding(&|text| !text.is_ascii()) > 6000);
    assert!(holding(&|text| text.len() > 255) > 100);
    for character in CHARACTERS {
        assert!(holding(&|text| text.contains(character)) >= 100, "{character:?}");
    }
    for word in WORDS {
        assert!(holding(&|text| text.contains(word)) >= 100, "{word}");
    }
    for octets in 1..=4 {
        let has = |text: &str| text.chars().any(|character| character.len_utf8() == octets);
        assert!(holding(&has) > 2000, "characters of {octets} octets");
    }
}

#[test]
fn bad_strings_are_of_every_kind() {
    let mut random = Random::of(6, 1);
    let strings: Vec<Vec<u8>> = (0..20_000).map(|_| text::bad(&mut random)).collect();
    assert!(strings.iter().all(|octets| std::str::from_utf8(octets).is_err()));
    let holding = |wanted: &dyn Fn(&[u8]) -> bool| strings.iter().filter(|octets| wanted(octets)).count();
    for fault in FAULTS {
        assert!(holding(&|octets| octets == fault) >= 20, "{fault:x?} alone");
        assert!(
            holding(&|octets| octets.len() > fault.len() && octets.starts_with(fault)) >= 100,
            "{fault:x?} first"
        );
        assert!(
            holding(&|octets| octets.len() > fault.len() && octets.ends_with(fault)) >= 100,
            "{fault:x?} last"
        );
    }
}

#[test]
fn spoiling_leaves_the_length_and_mostly_no_string() {
    let mut bad = 0;
    for index in 0..2000 {
        let mut random = Random::of(6, 2 + index);
        let before = text::string(&mut random);
        let mut after = before.clone();
        text::spoil(&mut random, &mut after);
        assert_eq!(after.len(), before.len());
        bad += u64::from(std::str::from_utf8(&after).is_err());
    }
    assert!(bad > 1500, "{bad} of 2000");
}

#[test]
fn times_reach_the_borders() {
    let mut random = Random::of(7, 0);
    let times: Vec<i64> = (0..20_000).map(|_| field::time(&mut random)).collect();
    for border in [0, 1, -1, 999, 1000, 86_400, 86_401, LAST - 1, LAST, LAST + 1, i64::MIN, i64::MAX] {
        assert!(times.iter().filter(|time| **time == border).count() >= 20, "{border}");
    }
    let texts: Vec<String> = times.iter().map(|time| time::text(*time)).collect();
    let parts = [
        "-02-28T23:59:59.999Z",
        "-02-29T00:00:00.000Z",
        "-02-29T23:59:59.999Z",
        "-03-01T00:00:00.000Z",
        "-03-01T00:00:00.001Z",
        ":59:59.999Z",
        ":00:00.000Z",
        ".00",
        ".01",
        "@-",
        "@9",
    ];
    for part in parts {
        assert!(texts.iter().filter(|text| text.contains(part)).count() >= 20, "{part}");
    }
    for year in (1970..10_000).step_by(10) {
        let decade = format!("{:03}", year / 10);
        assert!(texts.iter().any(|text| text.starts_with(&decade)), "{year}");
    }
}
