//! The examples: what each shows, and that the folder is up to date.

use std::fs;
use std::path::Path;

use second::examples::{examples, file, readme};
use second::listing::list;

fn last_line(name: &str) -> String {
    let example = examples().into_iter().find(|example| example.name == name).unwrap();
    list(&example.document).lines().last().unwrap().to_string()
}

#[test]
fn last_lines() {
    assert_eq!(last_line("specimen"), "end 121 2 1970-01-01T00:01:26.401Z");
    assert_eq!(last_line("bare"), "end 52 0 2000-02-29T23:59:59.999Z");
    assert_eq!(last_line("every-type"), "end 411 2 1970-01-01T00:00:00.001Z");
    assert_eq!(last_line("odd-strings"), "end 299 5 @253402300800000");
    assert_eq!(last_line("repeated-layout"), "end 315 4 2001-09-09T02:46:40.050Z");
    assert_eq!(last_line("june"), "refused 10 166");
    assert_eq!(last_line("lacking-layout"), "refused 12 91");
    assert_eq!(last_line("wrong-length"), "refused 13 95");
    assert_eq!(last_line("old-code"), "refused 24 145");
    assert_eq!(last_line("unstated-string"), "refused 1 96");
    assert_eq!(last_line("cut"), "refused 1 129");
}

#[test]
fn lowest_and_highest_values() {
    let every = examples().into_iter().find(|example| example.name == "every-type").unwrap();
    let text = list(&every.document);
    let rows: Vec<&str> = text.lines().filter(|line| line.starts_with("row")).collect();
    assert_eq!(
        rows,
        [
            "row 278 -7 -2147483648 0 -9223372036854775808 0 xff800000 xfff0000000000000 x = 0 -128 0 -32768 0",
            "row 341 -7 2147483647 4294967295 9223372036854775807 18446744073709551615 x7f800000 \
             x7ff0000000000000 x00abff =100%25 1 127 255 32767 65535",
        ]
    );
}

#[test]
fn folder_is_up_to_date() {
    let folder = Path::new(env!("CARGO_MANIFEST_DIR")).join("../examples");
    for example in examples() {
        assert_eq!(fs::read(folder.join(file(&example))).unwrap(), example.document, "{}", example.name);
    }
    assert_eq!(fs::read_to_string(folder.join("README.md")).unwrap(), readme());
}
