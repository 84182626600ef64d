//! Which octets are strings, and where and when a string that is not UTF-8 is
//! refused, in reading, in asking and in writing.

use second::basic::Basic;
use second::element::Element;
use second::generate::random::Random;
use second::generate::strings::{at_every_place, of_borders, short_strings};
use second::generate::text::{self, CHARACTERS, FAULTS, OCTETS, WORDS};
use second::header;
use second::image::{book_octets, image};
use second::meaning::{Attribute, Document, Header, Item, Layout, Namespace, Row, Value};
use second::question::{text, Inputs, Text};
use second::refusal::Refusal;
use second::specimen::{with, SPECIMEN};
use second::step::step;
use second::string_cases::string_cases;
use second::utf8::is_well_formed;
use second::whole::whole_check;

fn as_the_library_has_it(octets: &[u8]) {
    assert_eq!(is_well_formed(octets), std::str::from_utf8(octets).is_ok(), "{octets:02x?}");
}

#[test]
fn every_string_of_up_to_three_octets() {
    as_the_library_has_it(&[]);
    for first in 0..=255 {
        as_the_library_has_it(&[first]);
        for second in 0..=255 {
            as_the_library_has_it(&[first, second]);
            for third in 0..=255 {
                as_the_library_has_it(&[first, second, third]);
            }
        }
    }
}

#[test]
fn strings_of_four_and_five_octets_at_the_borders() {
    for first in OCTETS {
        for second in OCTETS {
            for third in OCTETS {
                for fourth in OCTETS {
                    as_the_library_has_it(&[first, second, third, fourth]);
                    as_the_library_has_it(&[b'a', first, second, third, fourth]);
                    as_the_library_has_it(&[first, second, third, fourth, 0x80]);
                }
            }
        }
    }
}

/// All that begin as a character of four octets does, and one octet before.
#[test]
fn strings_of_four_octets() {
    for first in 0xef..=0xf5 {
        for second in 0x7f..=0xc0 {
            for third in 0x7f..=0xc0 {
                for fourth in 0..=255 {
                    as_the_library_has_it(&[first, second, third, fourth]);
                }
            }
        }
    }
}

#[test]
fn strings_by_chance() {
    let mut random = Random::of(31, 0);
    for _ in 0..100_000 {
        as_the_library_has_it(&text::string(&mut random));
        as_the_library_has_it(&text::bad(&mut random));
        let mut spoilt = text::string(&mut random);
        text::spoil(&mut random, &mut spoilt);
        as_the_library_has_it(&spoilt);
        let size = random.below(12);
        as_the_library_has_it(&random.octets(size));
        as_the_library_has_it(&(0..size).map(|_| random.pick(&OCTETS)).collect::<Vec<u8>>());
        let cut = random.below(spoilt.len() + 1);
        as_the_library_has_it(&spoilt[cut..]);
        as_the_library_has_it(&spoilt[..cut]);
    }
    for string in short_strings().iter().chain(&at_every_place(40)) {
        as_the_library_has_it(string);
    }
}

#[test]
fn every_character_alone_and_cut() {
    for number in 0..=0x10_ffff {
        let Some(character) = char::from_u32(number) else { continue };
        let mut octets = [0; 4];
        let octets = character.encode_utf8(&mut octets).as_bytes();
        assert!(is_well_formed(octets), "{number:x}");
        for size in 1..octets.len() {
            assert!(!is_well_formed(&octets[..size]) && !is_well_formed(&octets[size..]), "{number:x}");
        }
    }
}

/// Surrogates, and numbers past the last one, in the form of three or four octets.
#[test]
fn numbers_that_are_no_characters() {
    let tail = |number: u32, places: u32| 0x80 | (number >> (6 * places) & 0x3f) as u8;
    for number in 0xd800..=0xdfff {
        assert!(!is_well_formed(&[0xed, tail(number, 1), tail(number, 0)]), "{number:x}");
    }
    for number in 0x11_0000..=0x1f_ffff {
        let first = 0xf0 | (number >> 18) as u8;
        assert!(!is_well_formed(&[first, tail(number, 2), tail(number, 1), tail(number, 0)]), "{number:x}");
    }
}

/// Characters in more octets than they need.
#[test]
fn longer_forms() {
    let tail = |number: u32, places: u32| 0x80 | (number >> (6 * places) & 0x3f) as u8;
    for number in 0..=0xffff {
        let four = [0xf0, tail(number, 2), tail(number, 1), tail(number, 0)];
        assert!(!is_well_formed(&four), "{number:x}");
        let three = [0xe0, tail(number, 1), tail(number, 0)];
        assert!(number > 0x7ff || !is_well_formed(&three), "{number:x}");
        let two = [0xc0 | (number >> 6) as u8, tail(number, 0)];
        assert!(number > 0x7f || !is_well_formed(&two), "{number:x}");
    }
}

#[test]
fn lists_of_the_generator_are_what_they_say() {
    assert!(WORDS.iter().all(|word| is_well_formed(word.as_bytes())));
    assert!(CHARACTERS.iter().all(|character| is_well_formed(character.to_string().as_bytes())));
    assert!(FAULTS.iter().all(|fault| !is_well_formed(fault)));
    let good = of_borders().iter().filter(|string| is_well_formed(string)).count();
    assert!(good > 100, "{good}");
}

#[test]
fn every_case_about_strings() {
    let cases = string_cases();
    assert!(cases.len() >= 50, "{}", cases.len());
    for case in cases {
        let answer = whole_check(&case.document).map_err(|refusal| (refusal.number, refusal.place));
        assert_eq!(answer, case.outcome, "{}", case.name);
    }
}

fn refused<T: std::fmt::Debug>(answer: Result<T, Refusal>) -> (u8, u64) {
    let refusal = answer.unwrap_err();
    (refusal.number, refusal.place)
}

/// A document with a string in each place where one may stand.
fn with_strings(strings: [&[u8]; 8]) -> Vec<u8> {
    let [recorder, namespace, uri, short, service, name, attribute, value] = strings.map(<[u8]>::to_vec);
    let layout = Layout { number: 7, name, attributes: vec![Attribute { name: attribute, kind: 0x28 }] };
    let value = Value { basic: Basic::String, octets: value };
    let header = Header {
        recorder,
        namespace,
        namespaces: vec![Namespace { uri, short }],
        services: vec![service],
        id: [0xff; 16],
        ..Header::default()
    };
    let row = Row { number: 7, stated: true, values: vec![value] };
    image(&Document { header, items: vec![Item::Layout(layout), Item::Row(row)], end_time: 0 }).octets
}

/// With one octet each, the lengths stand at these places.
const LENGTHS: [u64; 8] = [4, 17, 26, 31, 40, 77, 86, 107];

#[test]
fn each_string_is_read_as_one() {
    assert_eq!(whole_check(&with_strings([b"x"; 8])), Ok(1));
    for word in WORDS.map(str::as_bytes) {
        assert_eq!(whole_check(&with_strings([word; 8])), Ok(1));
    }
    for index in 0..8 {
        let mut strings = [&b"x"[..]; 8];
        for fault in FAULTS {
            strings[index] = fault;
            assert_eq!(refused(whole_check(&with_strings(strings))), (24, LENGTHS[index]), "{fault:02x?}");
        }
        for word in WORDS {
            strings[index] = word.as_bytes();
            assert_eq!(whole_check(&with_strings(strings)), Ok(1), "{word}");
        }
    }
}

#[test]
fn the_first_bad_string_is_the_one_refused() {
    for (index, place) in LENGTHS.into_iter().enumerate() {
        let mut strings = [&b"\xff"[..]; 8];
        strings[..index].fill(b"x");
        assert_eq!(refused(whole_check(&with_strings(strings))), (24, place));
    }
}

#[test]
fn every_header_question_has_the_headers_refusal() {
    let asked = [
        Text::Recorder,
        Text::DefaultNamespace,
        Text::NamespaceUri(0),
        Text::NamespaceShort(9),
        Text::Service(u64::MAX),
        Text::DocumentId,
    ];
    for index in 0..5 {
        let mut strings = [&b"x"[..]; 8];
        strings[index] = b"\xe9";
        let document = with_strings(strings);
        assert_eq!(refused(header::read(&document)), (24, LENGTHS[index]));
        for which in asked {
            assert_eq!(refused(text(&document, which)), (24, LENGTHS[index]), "{which:?}");
        }
    }
    let document = with_strings([b"x", b"x", b"x", b"x", b"x", b"\xff", b"\xff", b"\xff"]);
    assert_eq!(text(&document, Text::DocumentId), Ok(&[0xff; 16][..]));
}

#[test]
fn questions_on_layouts_and_rows() {
    let layout_at = 69;
    let row_at = 95;
    let book = book_of(b"x", b"x").0;
    let used = 22;
    let ask = |document: &[u8], place, used| {
        let inputs = Inputs { document, place, rows: 0, book: &book, used };
        let shown = inputs.attribute(0).map(|attribute| attribute.kind.bits);
        let field = inputs.field(0).map(|field| field.kind.bits);
        (inputs.type_name().map(<[u8]>::len), shown, field)
    };
    let good = with_strings([b"x"; 8]);
    assert_eq!((ask(&good, layout_at, 0).0, ask(&good, row_at, used).2), (Ok(1), Ok(0x28)));
    for (index, used) in [(5, 0), (6, 0), (5, used), (6, used)] {
        let mut strings = [&b"x"[..]; 8];
        strings[index] = b"\xff";
        let (name, attribute, field) = ask(&with_strings(strings), layout_at, used);
        assert_eq!(refused(name), (24, LENGTHS[index]));
        assert_eq!(refused(attribute), (24, LENGTHS[index]));
        assert_eq!(refused(field), (19, layout_at));
    }
    let mut strings = [&b"x"[..]; 8];
    strings[7] = b"\xff";
    let document = with_strings(strings);
    assert_eq!(refused(ask(&document, row_at, used).2), (24, LENGTHS[7]));
    let past = Inputs { document: &document, place: row_at, rows: 0, book: &book, used };
    assert_eq!(refused(past.field(64)), (24, LENGTHS[7]));
}

/// A lent book with one layout of one attribute, and its used count.
fn book_of(name: &[u8], attribute: &[u8]) -> (Vec<u8>, u64) {
    let attributes = vec![Attribute { name: attribute.to_vec(), kind: 0x28 }];
    let mut book = book_octets(&Layout { number: 7, name: name.to_vec(), attributes });
    let used = book.len() as u64;
    book.resize(32_768, 0xff);
    (book, used)
}

#[test]
fn a_lent_book_with_a_bad_name_is_17() {
    let over = |place, (mut book, used): (Vec<u8>, u64)| {
        step(&SPECIMEN, place, 0, &mut book, used).map(|step| matches!(step.element, Element::Layout { .. }))
    };
    for place in [52, 87, 121, 137, u64::MAX] {
        for fault in FAULTS {
            assert_eq!(refused(over(place, book_of(fault, b""))), (17, 0), "{fault:02x?}");
            assert_eq!(refused(over(place, book_of(b"", fault))), (17, 0), "{fault:02x?}");
        }
    }
    for word in WORDS.map(str::as_bytes) {
        assert_eq!(refused(over(52, book_of(word, word))), (10, 56));
    }
    let (book, _) = book_of(b"\xff", b"");
    assert_eq!(over(52, (book.clone(), 0)), Ok(true));
    let long = vec![0; 1_048_577];
    let (mut bad, used) = book_of(b"\xff", b"");
    assert_eq!(refused(step(&long, 0, 0, &mut bad, used)), (2, 0));
}

#[test]
fn a_bad_name_behind_a_good_layout_of_the_book_is_17() {
    let mut octets = SPECIMEN[56..87].to_vec();
    octets.extend([0, 0, 0, 9, 0, 0, 0, 1, 0xff, 0, 0, 0, 0]);
    let used = octets.len() as u64;
    octets.resize(32_768, 0);
    assert_eq!(refused(step(&SPECIMEN, 87, 0, &mut octets, used)), (17, 0));
    assert_eq!(step(&SPECIMEN, 87, 0, &mut octets, 31).unwrap().next, 104);
    octets[39] = b'x';
    assert_eq!(step(&SPECIMEN, 87, 0, &mut octets, used).unwrap().next, 104);
}

#[test]
fn a_refused_layout_leaves_the_book_as_it_was() {
    let mut book = vec![0x55; 32_768];
    let before = book.clone();
    assert_eq!(refused(step(&with(82, &[0x80]), 52, 0, &mut book, 0)), (24, 78));
    assert_eq!(book, before);
}
