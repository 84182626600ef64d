//! The reading half of the probe, and the C probe, compared with literal lines.

use second::command::{stream, Argument, Command};
use second::probe;
use second::specimen::{with, SPECIMEN};

/// FNV-1a of the 32,768 octets 55, and of the same with the specimen's layout.
const EMPTY_BOOK: &str = "b110f9ae9bd4a325";
const BOOK: &str = "3bca11b1178fb2b2";

fn run(commands: &[Command]) -> Vec<String> {
    probe::run(&stream(commands)).lines().map(String::from).collect()
}

fn specimen(commands: &[Command]) -> Vec<String> {
    let lent = [Command::octets(b'D', &SPECIMEN), Command::octets(b'B', &vec![0x55; 32_768])];
    run(&[&lent[..], commands].concat())
}

fn s(at: u64, rows: u64, used: u64) -> Command {
    Command::numbers(b's', &[at, rows, used])
}

#[test]
fn steps() {
    let lines = specimen(&[
        Command::new(b'h'),
        Command::new(b'w'),
        s(104, 0, 0),
        s(52, 0, 0),
        s(87, 0, 31),
        s(104, 1, 31),
        s(121, 2, 31),
        s(121, 3, 31),
        s(u64::MAX, 0, 0),
    ]);
    assert_eq!(
        lines,
        [
            "header 86400 0 0 52".to_string(),
            "whole 2".to_string(),
            format!("refused 12 108 {EMPTY_BOOK}"),
            format!("layout 7 2 87 0 31 {BOOK}"),
            format!("row 7 1 2 104 1 31 {BOOK}"),
            format!("row 7 0 2 121 2 31 {BOOK}"),
            format!("end 2 86401 137 2 31 {BOOK}"),
            format!("refused 15 125 {BOOK}"),
            format!("refused 1 18446744073709551615 {BOOK}"),
        ]
    );
}

#[test]
fn questions() {
    let lines = specimen(&[
        Command::numbers(b'y', &[52, 0, 0]),
        Command::numbers(b'a', &[52, 0, 0, 1]),
        Command::numbers(b'a', &[52, 0, 0, 2]),
        Command::numbers(b'y', &[87, 0, 0]),
        s(52, 0, 0),
        Command::numbers(b'f', &[87, 0, 31, 0]),
        Command::numbers(b'f', &[87, 0, 31, 1]),
        Command::numbers(b'f', &[87, 0, 31, 2]),
        Command::numbers(b'f', &[87, 0, 30, 0]),
        Command::numbers(b't', &[0, 9]),
        Command::numbers(b't', &[2, 0]),
        Command::numbers(b't', &[4, 0]),
        Command::numbers(b't', &[5, u64::MAX]),
    ]);
    let mut lines = lines.iter();
    for expected in ["name 41", "attribute 0000002a 64", "refused 18 52 -", "refused 19 87 -"] {
        assert_eq!(lines.next().unwrap(), expected);
    }
    assert_eq!(lines.next().unwrap(), &format!("layout 7 2 87 0 31 {BOOK}"));
    for expected in [
        "field 00000022 10 75 -",
        "field 0000002a -2 64 -",
        "refused 18 87 - -",
        "refused 17 0 - -",
        "text -",
        "refused 18 20 -",
        "refused 18 24 -",
        "text 00000000000000000000000000000000",
    ] {
        assert_eq!(lines.next().unwrap(), expected);
    }
}

#[test]
fn values_of_other_types() {
    let line = |kind: &[u8], row: &[u8]| {
        let changed = with(83, kind);
        let document =
            [&changed[..87], &[0, 0, 0, 2, 0, 0, 0, 7, 0xff, 0xff, 0xff, 0xff, 0, 0, 0, 1], row].concat();
        run(&[
            Command::octets(b'D', &document),
            Command::octets(b'B', &vec![0; 32_768]),
            s(52, 0, 0),
            Command::numbers(b'f', &[87, 0, 31, 1]),
        ])[1]
            .clone()
    };
    assert_eq!(line(&[0, 0, 0, 0x25], &[1, 2, 3, 0xff]), "field 00000025 x010203ff 64 -");
    assert_eq!(line(&[0, 0, 7, 0x26], &[0; 8]), "field 00000726 x0000000000000000 64 -");
    assert_eq!(line(&[0, 0, 0, 0x27], &[0, 0, 0, 2, 0xab, 0xcd]), "field 00000027 - 64 abcd");
    assert_eq!(line(&[0, 0, 0, 0x28], &[0; 4]), "field 00000028 - 64 -");
    assert_eq!(line(&[0, 0, 0, 0x29], &[1]), "field 00000029 1 64 -");
    assert_eq!(line(&[0, 0, 0, 0x29], &[2]), "refused 14 103 - -");
    assert_eq!(line(&[0, 0, 0, 0x2c], &[0xff, 0xfe]), "field 0000002c -2 64 -");
    assert_eq!(line(&[0, 0, 0, 0x24], &[0xff; 8]), "field 00000024 18446744073709551615 64 -");
}

#[test]
fn before_anything_is_lent() {
    let lines =
        run(&[Command::new(b'h'), Command::new(b'w'), s(0, 0, 0), Command::numbers(b'y', &[0, 0, 0])]);
    assert_eq!(lines, ["refused 1 0", "refused 1 0", "refused 17 0 cbf29ce484222325", "refused 17 0 -"]);
    assert!(run(&[]).is_empty());
}

#[test]
fn bad_input_ends_a_run() {
    let bad = |commands: &[Command]| run(commands).last().unwrap() == "bad input";
    let h = Command::new(b'h');
    assert_eq!(run(&[h.clone(), Command::new(b'\n'), h.clone()]), ["refused 1 0", "bad input"]);
    assert!(bad(&[Command::new(b'q')]));
    assert!(bad(&[Command::new(b's').and(Argument::Raw(vec![0; 23]))]));
    assert!(bad(&[Command::new(b'D').and(Argument::Raw(vec![0, 0, 0, 0, 0, 0, 0, 2, 9]))]));
    assert!(bad(&[Command::new(b'D').and(Argument::Raw(vec![0xff; 8]))]));
    assert!(bad(&[Command::octets(b'D', &vec![0; 65_601]), h.clone()]));
    assert!(!bad(&[Command::octets(b'D', &vec![0; 65_600]), h.clone()]));
    assert!(bad(&[Command::octets(b'B', &vec![0; 40_001]), h.clone()]));
    assert!(!bad(&[Command::octets(b'B', &vec![0; 40_000]), h.clone()]));
    assert!(bad(&[Command::numbers(b't', &[6, 0])]));
}

#[test]
fn c_probe() {
    let lines = |commands: &[Command]| -> Vec<String> {
        probe::c::run(&stream(commands)).lines().map(String::from).collect()
    };
    let mut large = vec![0; 1_048_576];
    large[3] = 4;
    large[4..8].copy_from_slice(&(1_048_576u32 - 68).to_be_bytes());
    let tail = 1_048_576 - 60;
    large[tail..].copy_from_slice(&[&[0; 20][..], &[0, 0, 0, 16], &[0; 16], &[0xff; 4], &[0; 16]].concat());
    large[1_048_576 - 13] = 3;
    let more = [&large[..], &[0]].concat();
    assert_eq!(
        lines(&[
            Command::octets(b'D', &large),
            Command::new(b'w'),
            Command::new(b'h'),
            Command::octets(b'D', &more),
            Command::new(b'w'),
            s(0, 0, 1 << 32),
            s(1 << 32, 0, 0),
            s(0, u64::MAX, 0),
            s(0xffff_ffff, 0, 0),
            Command::octets(b'D', &[]),
            s(0xffff_ffff, 0, 0),
            Command::octets(b'B', &vec![0x55; 32_768]),
            s(0xffff_ffff, 0, 0),
            Command::numbers(b'y', &[0, 0, 0]),
        ]),
        [
            "whole 0",
            "header 0 0 0 1048560",
            "refused 2 0",
            "too large",
            "too large",
            "too large",
            "refused 2 0 cbf29ce484222325",
            "refused 17 0 cbf29ce484222325",
            &format!("refused 1 4294967295 {EMPTY_BOOK}"),
            "bad input",
        ]
    );
}
