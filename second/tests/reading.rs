//! The reader on the specimen, on every change that the scope lists, and on
//! each refusal number at its place.

use second::element::Element;
use second::header;
use second::image::{book_octets, image};
use second::meaning::{Attribute, Document, Header, Layout, Namespace};
use second::refusal::Refusal;
use second::specimen::{fixed_cases, meaning, with, SPECIMEN};
use second::step::{step, Step};
use second::whole::whole_check;

fn refusal<T>(number: u8, place: u64) -> Result<T, Refusal> {
    Err(Refusal { number, place })
}

/// The specimen's layout as a book holds it, 31 octets.
fn specimen_book() -> Vec<u8> {
    let mut book = vec![0x55; 32_768];
    book[..31].copy_from_slice(&SPECIMEN[56..87]);
    book
}

/// A number, a place, and a document or book that is refused so.
fn whole(document: &[u8]) -> (u8, u64) {
    match whole_check(document) {
        Ok(rows) => panic!("accepted with {rows} rows"),
        Err(Refusal { number, place }) => (number, place),
    }
}

#[test]
fn every_case_of_document_01() {
    let cases = fixed_cases();
    assert_eq!(cases.len(), 18);
    for case in cases {
        let answer = whole_check(&case.document).map_err(|refusal| (refusal.number, refusal.place));
        assert_eq!(answer, case.outcome, "{}", case.name);
    }
}

#[test]
fn sizes_of_the_cases_of_document_01() {
    let sizes: Vec<(&str, usize)> =
        fixed_cases().iter().map(|case| (case.name, case.document.len())).collect();
    assert!(sizes.contains(&("unchanged", 137)));
    assert!(sizes.contains(&("short FFFE", 139)));
    assert!(sizes.contains(&("header and end alone", 68)));
    assert!(sizes.contains(&("book of 32768 octets", 68 + 32_768 + 8)));
    assert!(sizes.contains(&("book of 32769 octets", 68 + 32_769 + 8)));
}

#[test]
fn specimen_is_the_image_of_its_meaning() {
    assert_eq!(image(&meaning()).octets, SPECIMEN);
}

#[test]
fn header_of_the_specimen() {
    let header = header::read(&SPECIMEN).unwrap();
    assert_eq!((header.start, header.next), (86_400, 52));
    assert_eq!((header.namespaces.place, header.services.place), (20, 24));
    assert_eq!(header.id, [0; 16]);
}

#[test]
fn every_cut_of_the_specimen_is_refused_at_its_field() {
    let fields = [
        0, 4, 8, 16, 20, 24, 28, 48, 52, 56, 60, 65, 69, 74, 78, 83, 87, 91, 95, 104, 108, 112, 116, 120,
        121, 125, 129, 137,
    ];
    for size in 0..137 {
        let field = fields.iter().rev().find(|field| **field <= size).unwrap();
        let expected = match size {
            // A document id and a string are cut at their length, a stated row
            // at its own.
            99..=103 => (1, 95),
            _ => (1, *field as u64),
        };
        assert_eq!(whole(&SPECIMEN[..size]), expected, "{size} octets");
    }
}

#[test]
fn steps_over_the_specimen() {
    let mut book = vec![0x55; 32_768];
    let first = step(&SPECIMEN, 52, 0, &mut book, 0).unwrap();
    assert_eq!((first.next, first.rows, first.used), (87, 0, 31));
    assert_eq!(book, specimen_book());
    let second = step(&SPECIMEN, 87, 0, &mut book, 31).unwrap();
    assert_eq!((second.next, second.rows, second.used), (104, 1, 31));
    let again = step(&SPECIMEN, 52, 0, &mut book, 31).unwrap();
    assert!(matches!(
        again,
        Step { element: Element::Layout { new: false, .. }, next: 87, rows: 0, used: 31 }
    ));
    assert_eq!(book, specimen_book());
}

#[test]
fn from_104_with_the_layout_in_the_book() {
    let mut book = specimen_book();
    let Step { element, next, rows, used } = step(&SPECIMEN, 104, 1, &mut book, 31).unwrap();
    let Element::Row(row) = element else { panic!("not a row") };
    let numbers: Vec<i128> = row.values.iter().map(|value| value.number()).collect();
    assert_eq!((row.number, row.stated, numbers), (7, false, vec![0, 127]));
    assert_eq!((next, rows, used), (121, 2, 31));
    let last = step(&SPECIMEN, 121, 2, &mut book, 31).unwrap();
    let Element::End(end) = last.element else { panic!("not an end") };
    assert_eq!((end.count, end.time, last.next, last.rows), (2, 86_401, 137, 2));
    assert_eq!(step(&SPECIMEN, 104, 0, &mut book, 31).unwrap().rows, 1);
    assert_eq!(step(&SPECIMEN, 121, 1, &mut book, 31), refusal(15, 125));
    assert_eq!(step(&SPECIMEN, 104, 1, &mut book, 0), refusal(12, 108));
    assert_eq!(book, specimen_book());
}

#[test]
fn short_fffe_is_minus_two() {
    let document = fixed_cases().into_iter().find(|case| case.name == "short FFFE").unwrap().document;
    let mut book = vec![0; 32_768];
    step(&document, 52, 0, &mut book, 0).unwrap();
    let Element::Row(first) = step(&document, 87, 0, &mut book, 31).unwrap().element else { panic!() };
    let Element::Row(second) = step(&document, 105, 1, &mut book, 31).unwrap().element else { panic!() };
    assert_eq!(first.values[1].number(), -2);
    assert_eq!(second.values[1].number(), 127);
    assert_eq!(step(&document, 123, 2, &mut book, 31).unwrap().next, 139);
}

#[test]
fn places_of_every_size() {
    let mut book = specimen_book();
    for place in [137, 138, 1_048_576, 1 << 32, 1 << 63, u64::MAX - 3, u64::MAX] {
        assert_eq!(step(&SPECIMEN, place, 0, &mut book, 31), refusal(1, place));
    }
    assert_eq!(step(&SPECIMEN, 134, 0, &mut book, 31), refusal(1, 134));
    assert_eq!(step(&SPECIMEN, 133, 0, &mut book, 31), refusal(7, 133));
    assert_eq!(step(&[], 0, 0, &mut book, 0), refusal(1, 0));
}

#[test]
fn documents_over_the_limit() {
    let mut book = specimen_book();
    let long = vec![0; 1_048_577];
    assert_eq!(whole(&long), (2, 0));
    assert_eq!(header::read(&long), refusal(2, 0));
    assert_eq!(step(&long, u64::MAX, u64::MAX, &mut book, u64::MAX), refusal(2, 0));
    assert_eq!(step(&long[1..], 5, u64::MAX, &mut book, 0), refusal(17, 0));
    assert_eq!(whole(&long[1..]), (3, 0));
}

#[test]
fn header_refusals() {
    assert_eq!(whole(&with(0, &[4, 0, 0, 0])), (3, 0));
    assert_eq!(whole(&with(4, &[0xff; 4])), (1, 4));
    assert_eq!(whole(&with(4, &[0, 0, 0, 130])), (1, 4));
    assert_eq!(whole(&with(16, &[0x80, 0, 0, 0])), (1, 16));
    assert_eq!(whole(&with(20, &[0, 0, 0, 17])), (4, 20));
    assert_eq!(whole(&with(20, &[0xff; 4])), (4, 20));
    assert_eq!(whole(&with(24, &[0, 0, 0, 17])), (4, 24));
    assert_eq!(whole(&with(28, &[0, 0, 0, 15])), (5, 28));
    assert_eq!(whole(&with(28, &[0xff; 4])), (5, 28));
    assert_eq!(whole(&with(28, &[0, 0, 0, 17])[..32]), (5, 28));
    assert_eq!(whole(&SPECIMEN[..47]), (1, 28));
    assert_eq!(whole(&with(51, &[0xfe])), (6, 48));
}

#[test]
fn sixteen_of_each_list() {
    let header = Header {
        namespaces: (0..16).map(|n| Namespace { uri: vec![n; 3], short: vec![n] }).collect(),
        services: (0..16).map(|n| vec![n]).collect(),
        ..Header::default()
    };
    let octets = image(&Document { header, items: vec![], end_time: 0 }).octets;
    assert_eq!(whole_check(&octets), Ok(0));
    let read = header::read(&octets).unwrap();
    assert_eq!((read.namespaces.items.len(), read.services.items.len()), (16, 16));
    assert_eq!(read.namespaces.items[15].uri, [15; 3]);
    assert_eq!((read.namespaces.place, read.services.place, read.next), (20, 216, 324));
}

#[test]
fn layout_refusals() {
    assert_eq!(whole(&with(52, &[0, 0, 0, 0])), (7, 52));
    assert_eq!(whole(&with(52, &[0, 0, 0, 4])), (7, 52));
    assert_eq!(whole(&with(60, &[0xff; 4])), (1, 60));
    assert_eq!(whole(&with(65, &[0, 0, 0, 65])), (4, 65));
    assert_eq!(whole(&with(65, &[0xff; 4])), (4, 65));
    assert_eq!(whole(&with(74, &[0, 1, 0, 0x22])), (8, 74));
    assert_eq!(whole(&with(74, &[0xff; 4])), (9, 74));
    assert_eq!(whole(&with(83, &[0, 0, 0, 0x2e])), (8, 83));
}

#[test]
fn a_layout_again() {
    let again = |layout: &[u8]| [&SPECIMEN[..121], layout, &SPECIMEN[121..]].concat();
    let layout = &SPECIMEN[52..87];
    assert_eq!(whole_check(&again(layout)), Ok(2));
    let mut changed = layout.to_vec();
    changed[34] = 0x2b;
    assert_eq!(whole(&again(&changed)), (10, 125));
    let mut derived = layout.to_vec();
    derived[33] = 1;
    assert_eq!(whole(&again(&derived)), (10, 125));
    let mut bad_type = layout.to_vec();
    bad_type[34] = 0x20;
    assert_eq!(whole(&again(&bad_type)), (8, 121 + 31));
    let fewer = [&layout[..16], &[1], &layout[17..26]].concat();
    assert_eq!(whole(&again(&fewer)), (10, 125));
}

#[test]
fn row_refusals() {
    assert_eq!(whole(&with(95, &[0, 0, 0, 38])), (13, 95));
    assert_eq!(whole(&with(95, &[0, 0, 0, 39])), (1, 95));
    assert_eq!(whole(&with(95, &[0x80, 0, 0, 0])), (1, 95));
    assert_eq!(whole(&with(95, &[0; 4])), (13, 95));
    assert_eq!(whole(&with(91, &[0, 0, 0, 8])[..95]), (12, 91));
    assert_eq!(whole_check(&with(95, &[0xff; 4])), Ok(2));
}

/// A row of a boolean and a string, whose values begin 12 octets behind its place.
fn boolean_and_string(length: u32, values: &[u8]) -> Result<Step<'static>, Refusal> {
    let attribute = |kind| Attribute { name: vec![], kind };
    let layout = Layout { number: 1, name: vec![], attributes: vec![attribute(0x29), attribute(0x28)] };
    let mut book = vec![0; 32_768];
    let octets = book_octets(&layout);
    book[..octets.len()].copy_from_slice(&octets);
    let row = [&[0, 0, 0, 2, 0, 0, 0, 1], &length.to_be_bytes()[..], values].concat();
    step(row.leak(), 0, 0, &mut book, octets.len() as u64)
}

#[test]
fn booleans_and_strings_inside_a_length() {
    const UNSTATED: u32 = u32::MAX;
    let good = [1, 0, 0, 0, 1, b'x'];
    assert_eq!(boolean_and_string(6, &good).unwrap().next, 18);
    assert_eq!(boolean_and_string(UNSTATED, &good).unwrap().next, 18);
    assert_eq!(boolean_and_string(6, &[2, 0, 0, 0, 1, b'x']), refusal(14, 12));
    assert_eq!(boolean_and_string(UNSTATED, &[0xff]), refusal(14, 12));
    assert_eq!(boolean_and_string(1, &[2]), refusal(14, 12));
    assert_eq!(boolean_and_string(0, &[2, 0]), refusal(13, 8));
    assert_eq!(boolean_and_string(4, &good), refusal(13, 8));
    assert_eq!(boolean_and_string(5, &good), refusal(13, 8));
    assert_eq!(boolean_and_string(5, &[1, 0, 0, 0, 0, b'x']).unwrap().next, 17);
    assert_eq!(boolean_and_string(6, &[1, 0, 0, 0, 0, b'x']), refusal(13, 8));
    assert_eq!(boolean_and_string(6, &[1, 0xff, 0xff, 0xff, 0xff, 0]), refusal(13, 8));
    assert_eq!(boolean_and_string(7, &good), refusal(1, 8));
    assert_eq!(boolean_and_string(UNSTATED, &good[..5]), refusal(1, 13));
    assert_eq!(boolean_and_string(UNSTATED, &good[..3]), refusal(1, 13));
    assert_eq!(boolean_and_string(UNSTATED, &[1, 0xff, 0xff, 0xff, 0xff, 0]), refusal(1, 13));
    assert_eq!(boolean_and_string(UNSTATED, &[]), refusal(1, 12));
}

#[test]
fn end_refusals() {
    assert_eq!(whole(&with(125, &[0xff; 4])), (15, 125));
    assert_eq!(whole(&with(125, &[0, 0, 0, 3])[..129]), (15, 125));
    assert_eq!(whole(&SPECIMEN[..128]), (1, 125));
    assert_eq!(whole(&[&SPECIMEN[..], &SPECIMEN[121..]].concat()), (16, 137));
}

#[test]
fn rows_passed_at_their_limit() {
    let mut book = specimen_book();
    assert_eq!(step(&SPECIMEN, 87, 1_048_576, &mut book, 31).unwrap().rows, 1_048_577);
    assert_eq!(step(&SPECIMEN, 87, 1_048_577, &mut book, 31), refusal(17, 0));
    assert_eq!(step(&SPECIMEN, 52, u64::MAX, &mut book, 31), refusal(17, 0));
    assert_eq!(step(&SPECIMEN, 121, (1 << 32) + 2, &mut book, 31), refusal(17, 0));
}

/// What a step at the specimen's second row answers over a lent book.
fn over(mut book: Vec<u8>, used: u64) -> Result<u64, (u8, u64)> {
    let before = book.clone();
    let answer = step(&SPECIMEN, 104, 0, &mut book, used);
    assert_eq!(book, before);
    answer.map(|step| step.next).map_err(|refusal| (refusal.number, refusal.place))
}

fn book_of(layouts: &[&[u8]], size: usize) -> (Vec<u8>, u64) {
    let mut book = layouts.concat();
    let used = book.len() as u64;
    book.resize(size, 0x55);
    (book, used)
}

#[test]
fn lent_books() {
    let layout = &SPECIMEN[56..87];
    let other: &[u8] = &[0, 0, 0, 8, 0, 0, 0, 0, 0, 0, 0, 0];
    let try_book = |layouts: &[&[u8]], size| {
        let (book, used) = book_of(layouts, size);
        over(book, used)
    };
    assert_eq!(try_book(&[layout], 32_768), Ok(121));
    assert_eq!(try_book(&[other, layout], 32_768), Ok(121));
    assert_eq!(try_book(&[layout], 40_000), Ok(121));
    assert_eq!(try_book(&[layout], 32_767), Err((17, 0)));
    assert_eq!(try_book(&[layout, layout], 32_768), Err((17, 0)));
    assert_eq!(try_book(&[layout, &other[..11]], 32_768), Err((17, 0)));
    assert_eq!(try_book(&[other], 32_768), Err((12, 108)));
    let (book, _) = book_of(&[layout], 32_768);
    for used in [30, 32, 32_768, 32_769, (1 << 32) + 31, u64::MAX] {
        assert_eq!(over(book.clone(), used), Err((17, 0)), "{used} used");
    }
    assert_eq!(over(vec![], 0), Err((17, 0)));
    let bad = Err((17, 0));
    let octets = [
        (3, 8, Err((12, 108))),
        (4, 0x80, bad),
        (8, b'B', Ok(121)),
        (12, 1, bad),
        (12, 3, bad),
        (12, 65, bad),
        (18, 0x80, bad),
        (19, 1, bad),
        (20, 1, Ok(121)),
        (21, 0x20, bad),
        (21, 0x23, Ok(125)),
    ];
    for (place, octet, expected) in octets {
        let mut changed = book.clone();
        changed[place] = octet;
        assert_eq!(over(changed, 31), expected, "octet {octet} at {place}");
    }
}

#[test]
fn books_at_their_limits() {
    let layout = |number: u32, name: usize| {
        book_octets(&Layout { number, name: vec![b'n'; name], attributes: vec![] })
    };
    let many = |count| (0..count).map(|number| layout(number, 0)).collect::<Vec<_>>().concat();
    assert_eq!(over(book_of(&[&many(64)], 32_768).0, 64 * 12).err(), None);
    assert_eq!(over(book_of(&[&many(65)], 32_768).0, 65 * 12), Err((17, 0)));
    let full = layout(7, 32_756);
    assert_eq!(over(book_of(&[&full], 32_768).0, 32_768), Ok(116));
    let over_full = layout(7, 32_757);
    assert_eq!(over(book_of(&[&over_full], 40_000).0, 32_769), Err((17, 0)));
}

#[test]
fn a_new_layout_in_a_full_book() {
    let layout = |number: u32, name: usize| {
        book_octets(&Layout { number, name: vec![b'n'; name], attributes: vec![] })
    };
    let try_new = |before: Vec<u8>, used: u64| {
        let mut book = before.clone();
        let answer = step(&SPECIMEN, 52, 0, &mut book, used);
        (answer.map(|step| step.used).map_err(|refusal| (refusal.number, refusal.place)), book != before)
    };
    let with_name = |name| book_of(&[&layout(1, name)], 40_000);
    let (book, used) = with_name(32_768 - 31 - 12);
    assert_eq!(try_new(book, used), (Ok(32_768), true));
    let (book, used) = with_name(32_768 - 31 - 11);
    assert_eq!(try_new(book, used), (Err((11, 56)), false));
    let many = |count| (0..count).map(|number: u32| layout(100 + number, 0)).collect::<Vec<_>>().concat();
    let (book, used) = book_of(&[&many(63)], 32_768);
    assert_eq!(try_new(book, used), (Ok(63 * 12 + 31), true));
    let (book, used) = book_of(&[&many(64)], 32_768);
    assert_eq!(try_new(book, used), (Err((11, 56)), false));
    let (book, used) = book_of(&[&many(63), &SPECIMEN[56..87]], 32_768);
    assert_eq!(try_new(book, used), (Ok(63 * 12 + 31), false));
}
