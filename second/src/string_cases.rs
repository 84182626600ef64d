//! Documents about strings that are UTF-8 or not, and about what comes first
//! where such a string is not the only fault, each with its answer.

use crate::specimen::FixedCase;

/// In no character, anywhere.
const BAD: &[u8] = &[0xff];

pub fn string_cases() -> Vec<FixedCase> {
    [header_cases(), layout_cases(), row_cases(), stated_cases()].concat()
}

fn case(name: &'static str, parts: &[&[u8]], outcome: Result<u64, (u8, u64)>) -> FixedCase {
    FixedCase { name, document: parts.concat(), outcome }
}

fn number(number: u32) -> Vec<u8> {
    number.to_be_bytes().to_vec()
}

fn led(octets: &[u8]) -> Vec<u8> {
    [number(octets.len() as u32), octets.to_vec()].concat()
}

/// An empty recorder, a start time and an empty default namespace, 20 octets.
fn beginning() -> Vec<u8> {
    [number(4), led(b""), vec![0; 8], led(b"")].concat()
}

/// A header without strings whose id is no UTF-8, 52 octets.
fn header() -> Vec<u8> {
    [beginning(), number(0), number(0), led(&[0xff; 16]), vec![0xff; 4]].concat()
}

fn end(rows: u32) -> Vec<u8> {
    [number(3), number(rows), vec![0; 8]].concat()
}

fn header_cases() -> Vec<FixedCase> {
    let beginning = &beginning()[..];
    let version = &number(4)[..];
    let bad = &led(BAD)[..];
    let rest = [number(0), number(0), led(&[0xff; 16]), vec![0xff; 4], end(0)].concat();
    let lists =
        [number(1), led("é".as_bytes()), led("ж".as_bytes()), number(1), led("東".as_bytes())].concat();
    vec![
        case(
            "a header of many scripts",
            &[version, &led("José".as_bytes()), &[0; 8], &led("\u{feff}\0".as_bytes()), &lists, &rest[8..]],
            Ok(0),
        ),
        case("an id that is no UTF-8", &[&header(), &end(0)], Ok(0)),
        case("a bad recorder", &[version, bad, &beginning[8..], &rest], Err((24, 4))),
        case("a bad recorder and nothing more", &[version, bad], Err((24, 4))),
        case("a bad recorder, its last octet missing", &[version, &number(2), BAD], Err((1, 4))),
        case("a bad recorder of FFFFFFFF octets", &[version, &number(u32::MAX), BAD, &rest], Err((1, 4))),
        case("a bad recorder of version 3", &[&number(3), bad, &beginning[8..], &rest], Err((3, 0))),
        case(
            "a recorder that ends in a character",
            &[version, &led(&[0xc3]), &[0xa9; 8], &rest],
            Err((24, 4)),
        ),
        case("a bad default namespace and 17 more", &[&beginning[..16], bad, &number(17)], Err((24, 16))),
        case("17 namespaces, the first bad", &[beginning, &number(17), bad], Err((4, 20))),
        case("a bad URI", &[beginning, &number(1), bad], Err((24, 24))),
        case("a bad short name", &[beginning, &number(1), &led(b""), bad], Err((24, 28))),
        case("a bad second URI", &[beginning, &number(2), &led(b""), &led(b""), bad], Err((24, 32))),
        case(
            "a bad service and an id of 15 octets",
            &[beginning, &number(0), &number(1), bad, &number(15)],
            Err((24, 28)),
        ),
        case("a bad second service", &[beginning, &number(0), &number(2), &led(b"s"), bad], Err((24, 33))),
    ]
}

/// A layout of a name and attributes, and what stands behind it.
fn layout(layout: u32, name: &[u8], attributes: &[(&[u8], u32)]) -> Vec<u8> {
    let attribute = |(name, kind): &(&[u8], u32)| [led(name), number(*kind)].concat();
    let attributes =
        [number(attributes.len() as u32), attributes.iter().flat_map(attribute).collect()].concat();
    [number(1), number(layout), led(name), attributes].concat()
}

fn layout_cases() -> Vec<FixedCase> {
    let header = &header()[..];
    let first = &[header, &layout(7, b"A", &[])].concat()[..];
    let full =
        &[header, &(0..64).flat_map(|number| layout(number, b"", &[])).collect::<Vec<u8>>()].concat()[..];
    let opened = &[number(1), number(7)].concat()[..];
    let one = |name: &[u8], kind| layout(7, b"", &[(name, kind)]);
    vec![
        case(
            "names of many scripts",
            &[header, &layout(7, "Größe".as_bytes(), &[("ж".as_bytes(), 0x22)]), &end(0)],
            Ok(0),
        ),
        case("a bad type name", &[header, &layout(7, BAD, &[]), &end(0)], Err((24, 60))),
        case("a bad type name and nothing more", &[header, opened, &led(BAD)], Err((24, 60))),
        case("a bad type name and 65 attributes", &[header, opened, &led(BAD), &number(65)], Err((24, 60))),
        case("a bad type name, its last octet missing", &[header, opened, &number(2), BAD], Err((1, 60))),
        case("a bad attribute name", &[header, &one(BAD, 0x22), &end(0)], Err((24, 68))),
        case("a bad attribute name of no type", &[header, &one(BAD, 0x20), &end(0)], Err((24, 68))),
        case(
            "a bad attribute name of a user's type",
            &[header, &one(BAD, 0x8000_0022), &end(0)],
            Err((24, 68)),
        ),
        case(
            "no type before a bad attribute name",
            &[header, &layout(7, b"", &[(b"", 0x20), (BAD, 0x22)])],
            Err((8, 72)),
        ),
        case(
            "a bad second attribute name",
            &[header, &layout(7, b"", &[(b"u", 0x22), (BAD, 0x22)])],
            Err((24, 77)),
        ),
        case("a known number and another name", &[first, &layout(7, b"B", &[]), &end(0)], Err((10, 73))),
        case("a known number and a bad name", &[first, &layout(7, BAD, &[]), &end(0)], Err((24, 77))),
        case(
            "a known number and a bad attribute name",
            &[first, &layout(7, b"A", &[(BAD, 0x22)])],
            Err((24, 86)),
        ),
        case("a full book", &[full, &layout(64, b"", &[]), &end(0)], Err((11, 1080))),
        case("a full book and a bad name", &[full, &layout(64, BAD, &[]), &end(0)], Err((24, 1084))),
        case(
            "a full book and a bad attribute name",
            &[full, &layout(64, b"", &[(BAD, 0x22)])],
            Err((24, 1092)),
        ),
    ]
}

/// The beginning of a row; its length is unstated where none is given.
fn row(length: Option<u32>) -> Vec<u8> {
    [number(2), number(7), number(length.unwrap_or(u32::MAX))].concat()
}

/// Rows of a string, a boolean, a hexBinary and a string of a derived type;
/// the first row stands at 100 and its values at 112.
fn row_cases() -> Vec<FixedCase> {
    let kinds = [0x28, 0x29, 0x0527, 0x0528].map(|kind| (&b""[..], kind));
    let before = &[header(), layout(7, b"", &kinds)].concat()[..];
    let (good, bad, hex) = (&led("ж".as_bytes())[..], &led(BAD)[..], &led(&[0xff, 0xc3])[..]);
    let row = &row(None)[..];
    vec![
        case("a hexBinary that is no UTF-8", &[before, row, good, &[1], hex, good, &end(1)], Ok(1)),
        case("a bad string", &[before, row, bad, &[1], hex, good, &end(1)], Err((24, 112))),
        case("a bad string and nothing more", &[before, row, bad], Err((24, 112))),
        case("a bad string, its last octet missing", &[before, row, &number(2), BAD], Err((1, 112))),
        case(
            "a bad string before a bad boolean",
            &[before, row, bad, &[2], hex, good, &end(1)],
            Err((24, 112)),
        ),
        case(
            "a bad boolean before a bad string",
            &[before, row, good, &[2], hex, bad, &end(1)],
            Err((14, 118)),
        ),
        case("a bad string of a derived type", &[before, row, good, &[1], hex, bad, &end(1)], Err((24, 125))),
        case(
            "a bad string in the second row",
            &[before, row, good, &[1], hex, good, row, bad, &[1], hex, good, &end(2)],
            Err((24, 143)),
        ),
        case(
            "a bad string before a wrong end",
            &[before, row, bad, &[1], hex, good, &end(9)],
            Err((24, 112)),
        ),
    ]
}

/// Rows of two strings that state their length; the row stands at 84, its
/// length at 92 and its values at 96.
fn stated_cases() -> Vec<FixedCase> {
    let before = &[header(), layout(7, b"", &[(b"", 0x28), (b"", 0x28)])].concat()[..];
    let (good, bad) = (&led(b"a")[..], &led(BAD)[..]);
    let stated = |length| row(Some(length));
    let long = [vec![b'a'; 60_000], BAD.to_vec()].concat();
    vec![
        case("a bad first string of a stated row", &[before, &stated(10), bad, good, &end(1)], Err((24, 96))),
        case("a bad last string of a stated row", &[before, &stated(10), good, bad, &end(1)], Err((24, 101))),
        case(
            "a bad string that passes the row's end",
            &[before, &stated(9), good, bad, &end(1)],
            Err((13, 92)),
        ),
        case(
            "a bad string before one that passes it",
            &[before, &stated(9), bad, good, &end(1)],
            Err((24, 96)),
        ),
        case(
            "a bad string before octets left over",
            &[before, &stated(11), good, bad, &[0], &end(1)],
            Err((24, 101)),
        ),
        case(
            "good strings before octets left over",
            &[before, &stated(11), good, good, &[0], &end(1)],
            Err((13, 92)),
        ),
        case(
            "a bad string of FFFFFFFF octets",
            &[before, &stated(10), &number(u32::MAX), BAD, good],
            Err((13, 92)),
        ),
        case("a bad string in a row past the end", &[before, &stated(11), good, bad], Err((1, 92))),
        case(
            "a string that ends in a character",
            &[before, &stated(10), good, &led(&[0xc3]), &[0xa9; 4]],
            Err((24, 101)),
        ),
        case(
            "a long string with its last octet bad",
            &[before, &row(None), good, &led(&long), &end(1)],
            Err((24, 101)),
        ),
    ]
}
