//! The listing, compared with literal text.

use second::basic::{Basic, BASICS};
use second::image::image;
use second::listing::list;
use second::meaning::{Attribute, Document, Header, Item, Layout, Row, Value};
use second::specimen::{with, SPECIMEN};

const LISTED: &str = "\
document 4 1970-01-01T00:01:26.400Z
layout 52 7 =A 2
row 87 7 10 -2
row 104 7 0 127
end 121 2 1970-01-01T00:01:26.401Z
";

#[test]
fn specimen() {
    assert_eq!(list(&SPECIMEN), LISTED);
}

#[test]
fn refusals_stand_behind_the_lines_before_them() {
    assert_eq!(list(&[]), "refused 1 0\n");
    assert_eq!(list(&with(0, &[0, 0, 0, 3])), "refused 3 0\n");
    assert_eq!(list(&SPECIMEN[..52]), "document 4 1970-01-01T00:01:26.400Z\nrefused 1 52\n");
    let lines = &LISTED[..LISTED.find("end").unwrap()];
    assert_eq!(list(&with(125, &[0, 0, 0, 3])), format!("{lines}refused 15 125\n"));
    assert_eq!(list(&[&SPECIMEN[..], &[0]].concat()), format!("{lines}refused 16 137\n"));
    assert_eq!(list(&SPECIMEN[..136]), format!("{lines}refused 1 129\n"));
}

#[test]
fn inputs_about_the_longest() {
    let document = |size: usize| {
        let header = Header { recorder: vec![b'r'; size - 68], ..Header::default() };
        image(&Document { header, items: vec![], end_time: 0 }).octets
    };
    let listed = "document 4 1970-01-01T00:00:00.000Z\nend 65520 0 1970-01-01T00:00:00.000Z\n";
    assert_eq!(list(&document(65_536)), listed);
    assert_eq!(list(&document(65_537)), "input too long\n");
    assert_eq!(list(&vec![0; 2_000_000]), "input too long\n");
}

#[test]
fn times() {
    let at = |start: i64, end: i64| {
        let mut document = with(8, &start.to_be_bytes());
        document[129..].copy_from_slice(&end.to_be_bytes());
        let text = list(&document);
        let lines: Vec<&str> = text.lines().collect();
        (lines[0].to_string(), lines[4].to_string())
    };
    let cases = [
        (0, "1970-01-01T00:00:00.000Z"),
        (1, "1970-01-01T00:00:00.001Z"),
        (10, "1970-01-01T00:00:00.010Z"),
        (999, "1970-01-01T00:00:00.999Z"),
        (1000, "1970-01-01T00:00:01.000Z"),
        (951_782_400_000, "2000-02-29T00:00:00.000Z"),
        (951_868_799_999, "2000-02-29T23:59:59.999Z"),
        (4_107_542_399_999, "2100-02-28T23:59:59.999Z"),
        (4_107_542_400_000, "2100-03-01T00:00:00.000Z"),
        (253_402_300_799, "1978-01-11T21:31:40.799Z"),
        (253_402_300_800, "1978-01-11T21:31:40.800Z"),
        (253_402_300_799_999, "9999-12-31T23:59:59.999Z"),
        (253_402_300_800_000, "@253402300800000"),
        (-1, "@-1"),
        (i64::MIN, "@-9223372036854775808"),
        (i64::MAX, "@9223372036854775807"),
    ];
    for (start, first) in cases {
        for (end, last) in cases {
            assert_eq!(at(start, end), (format!("document 4 {first}"), format!("end 121 2 {last}")));
        }
    }
}

fn of(layout: Layout, rows: Vec<Vec<Value>>) -> Vec<u8> {
    let number = layout.number;
    let row = |values| Item::Row(Row { number, stated: true, values });
    let items = [Item::Layout(layout)].into_iter().chain(rows.into_iter().map(row)).collect();
    image(&Document { header: Header::default(), items, end_time: 0 }).octets
}

#[test]
fn every_type() {
    let attributes = BASICS.iter().map(|(low, _)| Attribute { name: vec![], kind: (*low).into() }).collect();
    let values = |bits: u64, octets: &[u8], string: &str| -> Vec<Value> {
        let value = |basic: Basic| match basic {
            Basic::HexBinary => Value::octets(basic, octets),
            Basic::String => Value::octets(basic, string.as_bytes()),
            Basic::Boolean => Value::number(basic, bits & 1),
            _ => Value::number(basic, bits),
        };
        BASICS.iter().map(|(_, basic)| value(*basic)).collect()
    };
    let layout = Layout { number: 0xffff_ffff, name: vec![], attributes };
    let document = of(
        layout,
        vec![
            values(u64::MAX, b"\xabZ", "«Z"),
            values(0, b"", ""),
            values(0x8000_0000_8000_8080, b"%", "%"),
            values(0x7fff_ffff_7fff_7f7f, b"~", "~"),
        ],
    );
    let expected = "\
document 4 1970-01-01T00:00:00.000Z
layout 52 -1 = 13
row 172 -1 -1 4294967295 -1 18446744073709551615 xffffffff xffffffffffffffff xab5a =%C2%ABZ 1 -1 255 -1 65535
row 240 -1 0 0 0 0 x00000000 x0000000000000000 x = 0 0 0 0 0
row 303 -1 -2147450752 2147516544 -9223372034707259264 9223372039002292352 x80008080 x8000000080008080 x25 =%25 0 -128 128 -32640 32896
row 368 -1 2147450751 2147450751 9223372034707259263 9223372034707259263 x7fff7f7f x7fffffff7fff7f7f x7e =~ 1 127 127 32639 32639
end 433 4 1970-01-01T00:00:00.000Z
";
    assert_eq!(list(&document), expected);
}

#[test]
fn strings_that_are_not_utf_8() {
    let layout = Layout { number: 1, name: vec![], attributes: vec![Attribute { name: vec![], kind: 0x28 }] };
    let string = |octets: &[u8]| vec![Value::octets(Basic::String, octets)];
    let document = of(layout, vec![string("é".as_bytes()), string(b"\xe9"), string(b"e")]);
    let expected = "\
document 4 1970-01-01T00:00:00.000Z
layout 52 1 = 1
row 76 1 =%C3%A9
refused 24 106
";
    assert_eq!(list(&document), expected);
    assert_eq!(list(&[0, 0, 0, 4, 0, 0, 0, 1, 0xe9]), "refused 24 4\n");
}

#[test]
fn escapes() {
    let name = "\0\x1f !%&=a~\x7f\u{80}ÿ東😀".as_bytes().to_vec();
    let document = of(Layout { number: 0x8000_0000, name, attributes: vec![] }, vec![vec![], vec![]]);
    let expected = "\
document 4 1970-01-01T00:00:00.000Z
layout 52 -2147483648 =%00%1F%20!%25&=a~%7F%C2%80%C3%BF%E6%9D%B1%F0%9F%98%80 0
row 89 -2147483648
row 101 -2147483648
end 113 2 1970-01-01T00:00:00.000Z
";
    assert_eq!(list(&document), expected);
}
