//! Questions on rows, layouts and the header, with their order of refusals.

use second::basic::Basic;
use second::image::image;
use second::meaning::{Document, Header, Namespace};
use second::question::{text, Inputs, Text};
use second::refusal::Refusal;
use second::specimen::{with, SPECIMEN};

fn book() -> Vec<u8> {
    let mut book = SPECIMEN[56..87].to_vec();
    book.resize(32_768, 0x55);
    book
}

fn at<'a>(document: &'a [u8], place: u64, book: &'a [u8], used: u64) -> Inputs<'a, 'a> {
    Inputs { document, place, rows: 0, book, used }
}

fn refused<T: std::fmt::Debug>(answer: Result<T, Refusal>) -> (u8, u64) {
    let refusal = answer.unwrap_err();
    (refusal.number, refusal.place)
}

#[test]
fn fields_of_the_specimen() {
    let book = book();
    let row = at(&SPECIMEN, 87, &book, 31);
    let (first, second) = (row.field(0).unwrap(), row.field(1).unwrap());
    assert_eq!((first.name, first.kind.bits, first.value.number()), (&b"u"[..], 0x22, 10));
    assert_eq!((second.name, second.kind.basic, second.value.number()), (&b"d"[..], Basic::Byte, -2));
    assert_eq!(first.name.as_ptr(), book[17..].as_ptr());
    assert_eq!(second.value.octets.as_ptr(), SPECIMEN[103..].as_ptr());
    assert_eq!(refused(row.field(2)), (18, 87));
    assert_eq!(refused(row.field(u64::MAX)), (18, 87));
}

#[test]
fn the_whole_row_decides() {
    let book = book();
    let wrong = with(95, &[0, 0, 0, 6]);
    assert_eq!(refused(at(&wrong, 87, &book, 31).field(0)), (13, 95));
    assert_eq!(refused(at(&wrong, 87, &book, 31).field(9)), (13, 95));
    assert_eq!(refused(at(&SPECIMEN, 87, &book, 0).field(0)), (12, 91));
}

#[test]
fn names_and_attributes_of_the_specimen() {
    let book = book();
    for used in [0, 31] {
        let layout = at(&SPECIMEN, 52, &book, used);
        assert_eq!(layout.type_name().unwrap(), b"A");
        assert_eq!(layout.type_name().unwrap().as_ptr(), SPECIMEN[64..].as_ptr());
        let second = layout.attribute(1).unwrap();
        assert_eq!((second.name, second.kind.bits), (&b"d"[..], 0x2a));
        assert_eq!(second.name.as_ptr(), SPECIMEN[82..].as_ptr());
        assert_eq!(refused(layout.attribute(2)), (18, 52));
    }
}

#[test]
fn another_kind_is_19_before_the_rest_is_read() {
    let book = book();
    assert_eq!(refused(at(&SPECIMEN, 52, &book, 31).field(0)), (19, 52));
    assert_eq!(refused(at(&SPECIMEN, 121, &book, 31).field(0)), (19, 121));
    assert_eq!(refused(at(&SPECIMEN, 87, &book, 31).type_name()), (19, 87));
    assert_eq!(refused(at(&SPECIMEN, 121, &book, 31).attribute(7)), (19, 121));
    assert_eq!(refused(at(&SPECIMEN[..56], 52, &book, 31).field(0)), (19, 52));
    assert_eq!(refused(at(&SPECIMEN[..55], 52, &book, 31).field(0)), (1, 52));
    assert_eq!(refused(at(&SPECIMEN, 53, &book, 31).field(0)), (7, 53));
    assert_eq!(refused(at(&SPECIMEN, u64::MAX, &book, 31).attribute(0)), (1, u64::MAX));
}

#[test]
fn what_is_lent_is_checked_first() {
    let book = book();
    let long = vec![0; 1_048_577];
    assert_eq!(refused(at(&long, 0, &[], 0).field(0)), (2, 0));
    assert_eq!(refused(at(&SPECIMEN, 53, &book, 30).field(0)), (17, 0));
    assert_eq!(refused(at(&SPECIMEN, 52, &book[1..], 0).type_name()), (17, 0));
    let many = Inputs { rows: 1_048_577, ..at(&SPECIMEN, 52, &book, 0) };
    assert_eq!(refused(many.type_name()), (17, 0));
    let most = Inputs { rows: 1_048_576, ..at(&SPECIMEN, 52, &book, 0) };
    assert_eq!(most.type_name().unwrap(), b"A");
}

#[test]
fn layouts_the_book_does_not_admit() {
    let book = book();
    let changed = with(64, b"B");
    assert_eq!(refused(at(&changed, 52, &book, 31).type_name()), (10, 56));
    assert_eq!(refused(at(&changed, 52, &book, 31).attribute(9)), (10, 56));
    let mut full: Vec<u8> = (0..64u32).flat_map(|n| [100 + n, 0, 0]).flat_map(u32::to_be_bytes).collect();
    full.resize(32_768, 0);
    assert_eq!(refused(at(&SPECIMEN, 52, &full, 64 * 12).attribute(0)), (11, 56));
}

#[test]
fn strings_of_a_header() {
    let namespace = |uri: &[u8], short: &[u8]| Namespace { uri: uri.to_vec(), short: short.to_vec() };
    let header = Header {
        recorder: b"rec".to_vec(),
        start: 0,
        namespace: b"default".to_vec(),
        namespaces: vec![namespace(b"urn:a", b"a"), namespace(b"", b"b")],
        services: vec![b"s0".to_vec()],
        id: *b"0123456789abcdef",
    };
    let document = image(&Document { header, items: vec![], end_time: 0 }).octets;
    let ask = |which| text(&document, which).map_err(|refusal| (refusal.number, refusal.place));
    assert_eq!(ask(Text::Recorder), Ok(&b"rec"[..]));
    assert_eq!(ask(Text::DefaultNamespace), Ok(&b"default"[..]));
    assert_eq!(ask(Text::NamespaceUri(0)), Ok(&b"urn:a"[..]));
    assert_eq!(ask(Text::NamespaceUri(1)), Ok(&b""[..]));
    assert_eq!(ask(Text::NamespaceShort(1)), Ok(&b"b"[..]));
    assert_eq!(ask(Text::Service(0)), Ok(&b"s0"[..]));
    assert_eq!(ask(Text::DocumentId), Ok(&b"0123456789abcdef"[..]));
    assert_eq!(ask(Text::NamespaceUri(2)), Err((18, 30)));
    assert_eq!(ask(Text::NamespaceShort(u64::MAX)), Err((18, 30)));
    assert_eq!(ask(Text::Service(1)), Err((18, 57)));
    assert_eq!(refused(text(&document[..60], Text::Recorder)), (1, 57));
    assert_eq!(refused(text(&with(48, &[0]), Text::Service(5))), (6, 48));
}
