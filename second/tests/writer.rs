//! The writer: the specimen call by call, every refusal, every smaller room.

use second::basic::Basic;
use second::command::{stream, Command};
use second::generate::document::small;
use second::generate::random::Random;
use second::generate::script::script;
use second::generate::text::{FAULTS, WORDS};
use second::image::{book_octets, image};
use second::meaning::Layout;
use second::probe;
use second::refusal::Refusal;
use second::specimen::SPECIMEN;
use second::whole::whole_check;
use second::writer;
use second::writer::call::{Call, Given};
use second::writer::state::{State, Turn};

/// A writer with what is lent to it.
#[derive(Clone)]
struct Desk {
    state: State,
    buffer: Vec<u8>,
    book: Vec<u8>,
    used: u64,
}

impl Desk {
    fn of(size: usize) -> Desk {
        Desk { state: State::default(), buffer: vec![0xaa; size], book: vec![0x55; 32_768], used: 0 }
    }

    /// A desk on which these calls were all accepted.
    fn after(size: usize, calls: &[Call]) -> Desk {
        let mut desk = Desk::of(size);
        for call in calls {
            assert_eq!(desk.give(call), Ok(()), "{call:?}");
        }
        desk
    }

    /// One call; a refusal must change nothing and stand at the place.
    fn give(&mut self, call: &Call) -> Result<(), u8> {
        let before = self.clone();
        match writer::call(self.state, &mut self.buffer, &mut self.book, self.used, call) {
            Ok((state, used)) => {
                self.state = state;
                self.used = used;
                Ok(())
            }
            Err(Refusal { number, place }) => {
                assert_eq!(place, self.state.place);
                assert!(self.buffer == before.buffer && self.book == before.book);
                Err(number)
            }
        }
    }

    fn image(&self) -> &[u8] {
        &self.buffer[..self.state.place as usize]
    }
}

fn number(basic: Basic, bits: u64) -> Call<'static> {
    Call::Value(Given { basic, bits, octets: &[] })
}

fn octets(basic: Basic, octets: &[u8]) -> Call<'_> {
    Call::Value(Given { basic, bits: 0, octets })
}

const HEADER: [Call; 6] = [
    Call::Recorder(&[]),
    Call::StartTime(86_400),
    Call::DefaultNamespace(&[]),
    Call::NamespaceCount(0),
    Call::ServiceCount(0),
    Call::DocumentId(&[0; 16]),
];

const LAYOUT: [Call; 7] = [
    Call::OpenLayout(7),
    Call::TypeName(b"A"),
    Call::AttributeCount(2),
    Call::AttributeName(b"u"),
    Call::AttributeType(0x22),
    Call::AttributeName(b"d"),
    Call::AttributeType(0x2a),
];

fn rows() -> Vec<Call<'static>> {
    vec![
        Call::OpenRow { number: 7, stated: true },
        number(Basic::UnsignedInt, 10),
        number(Basic::Byte, -2i64 as u64),
        Call::CloseRow,
        Call::OpenRow { number: 7, stated: false },
        number(Basic::UnsignedInt, 0),
        number(Basic::Byte, 127),
        Call::CloseRow,
    ]
}

fn specimen_calls() -> Vec<Call<'static>> {
    [&HEADER[..], &LAYOUT, &rows(), &[Call::Finish(86_401)]].concat()
}

/// The specimen's calls up to its layout, and then some.
fn behind_layout(more: &[Call<'static>]) -> Desk {
    Desk::after(300, &[&HEADER[..], &LAYOUT, more].concat())
}

fn behind_header(more: &[Call<'static>]) -> Desk {
    Desk::after(300, &[&HEADER[..], more].concat())
}

#[test]
fn specimen_call_by_call() {
    let places =
        [8, 16, 20, 24, 28, 52, 60, 65, 69, 74, 78, 83, 87, 99, 103, 104, 104, 116, 120, 121, 121, 137];
    let mut desk = Desk::of(200);
    for (call, place) in specimen_calls().iter().zip(places) {
        assert_eq!(desk.give(call), Ok(()));
        assert_eq!(desk.state.place, place, "{call:?}");
        assert_eq!(desk.used, if place < 87 { 0 } else { 31 });
    }
    assert_eq!(desk.image(), SPECIMEN);
    assert_eq!(desk.buffer[137..], [0xaa; 63]);
    assert_eq!(desk.book[..31], SPECIMEN[56..87]);
    assert_eq!(desk.book[31..], [0x55; 32_768 - 31]);
    assert_eq!(desk.state.turn, Turn::Nothing);
    assert_eq!(desk.give(&Call::Finish(0)), Err(20));
    assert_eq!(desk.give(&Call::GiveUp), Err(20));
}

#[test]
fn every_smaller_room() {
    let calls = specimen_calls();
    for size in 0..137 {
        let mut desk = Desk::of(size);
        let refused = calls.iter().find_map(|call| desk.give(call).err());
        assert_eq!(refused, Some(23), "room {size}");
        let place = desk.state.place as usize;
        let mut written = SPECIMEN[..place].to_vec();
        if (99..104).contains(&place) && desk.state.turn == Turn::Value {
            written[95..99].fill(0);
        }
        assert_eq!(desk.image(), written, "room {size}");
        assert!(desk.buffer[place..].iter().all(|octet| *octet == 0xaa), "room {size}");
    }
    assert_eq!(Desk::after(137, &calls).image(), SPECIMEN);
}

#[test]
fn a_stated_length_is_zero_until_the_row_is_closed() {
    let mut desk = behind_layout(&rows()[..3]);
    assert_eq!(desk.image()[87..99], [0, 0, 0, 2, 0, 0, 0, 7, 0, 0, 0, 0]);
    assert_eq!((desk.state.count, desk.state.rows), (2, 0));
    assert_eq!(desk.give(&Call::CloseRow), Ok(()));
    assert_eq!(desk.image()[95..99], [0, 0, 0, 5]);
    assert_eq!((desk.state.place, desk.state.rows), (104, 1));
}

#[test]
fn giving_up() {
    let mut desk = behind_header(&LAYOUT[..5]);
    assert_eq!(desk.give(&Call::GiveUp), Ok(()));
    assert_eq!((desk.state.place, desk.state.turn, desk.used), (52, Turn::Element, 0));
    assert_eq!(desk.buffer[52..78], [0; 26]);
    assert_eq!(desk.buffer[78..], [0xaa; 222]);
    assert_eq!(desk.give(&Call::GiveUp), Err(20));
    let mut desk = behind_layout(&rows()[..3]);
    assert_eq!(desk.give(&Call::GiveUp), Ok(()));
    assert_eq!((desk.state.place, desk.state.rows), (87, 0));
    assert_eq!(desk.buffer[87..104], [0; 17]);
    assert_eq!(desk.buffer[104], 0xaa);
    for call in rows().iter().chain(&[Call::Finish(86_401)]) {
        assert_eq!(desk.give(call), Ok(()));
    }
    assert_eq!(desk.image(), SPECIMEN);
}

#[test]
fn the_header_cannot_be_given_up() {
    for count in 0..=HEADER.len() {
        assert_eq!(Desk::after(300, &HEADER[..count]).give(&Call::GiveUp), Err(20));
    }
}

#[test]
fn counts_over_their_limits_are_4() {
    let mut desk = Desk::after(300, &HEADER[..3]);
    assert_eq!(desk.give(&Call::NamespaceCount(17)), Err(4));
    assert_eq!(desk.give(&Call::NamespaceCount(u32::MAX)), Err(4));
    assert_eq!(desk.give(&Call::NamespaceCount(16)), Ok(()));
    assert_eq!((desk.state.turn, desk.state.count), (Turn::Uri, 16));
    let mut desk = Desk::after(300, &HEADER[..4]);
    assert_eq!(desk.give(&Call::ServiceCount(17)), Err(4));
    let mut desk = behind_header(&LAYOUT[..2]);
    assert_eq!(desk.give(&Call::AttributeCount(65)), Err(4));
    assert_eq!(desk.give(&Call::AttributeCount(64)), Ok(()));
    assert_eq!((desk.state.turn, desk.state.count), (Turn::AttributeName, 64));
}

#[test]
fn lists_count_down() {
    let mut desk = Desk::after(300, &HEADER[..3]);
    let calls = [
        (Call::NamespaceCount(2), Turn::Uri),
        (Call::Uri(b"u"), Turn::ShortName),
        (Call::ShortName(b"s"), Turn::Uri),
        (Call::Uri(b""), Turn::ShortName),
        (Call::ShortName(b""), Turn::ServiceCount),
        (Call::ServiceCount(2), Turn::Service),
        (Call::Service(b"one"), Turn::Service),
        (Call::Service(b"two"), Turn::DocumentId),
    ];
    for (call, turn) in calls {
        assert_eq!(desk.give(&call), Ok(()));
        assert_eq!(desk.state.turn, turn, "after {call:?}");
    }
    let expected = b"\0\0\0\x02\0\0\0\x01u\0\0\0\x01s\0\0\0\0\0\0\0\0\0\0\0\x02\0\0\0\x03one\0\0\0\x03two";
    assert_eq!(desk.image()[20..], expected[..]);
}

#[test]
fn ids_of_another_length_are_5() {
    let mut desk = Desk::after(300, &HEADER[..5]);
    for size in [0, 15, 17] {
        assert_eq!(desk.give(&Call::DocumentId(&vec![1; size])), Err(5));
    }
    assert_eq!(desk.give(&Call::DocumentId(&[1; 16])), Ok(()));
    assert_eq!(desk.image()[28..], [&[0, 0, 0, 16][..], &[1; 16], &[0xff; 4]].concat());
}

#[test]
fn types_are_8_or_9() {
    let mut desk = behind_header(&LAYOUT[..4]);
    for (bits, number) in [(0x20, 8), (0x0001_0022, 8), (0x8000_0022, 9), (u32::MAX, 9), (0, 8)] {
        assert_eq!(desk.give(&Call::AttributeType(bits)), Err(number));
    }
    assert_eq!(desk.give(&Call::AttributeType(0x0922)), Ok(()));
}

#[test]
fn a_layout_under_a_known_number() {
    let mut desk = behind_layout(&LAYOUT);
    assert_eq!((desk.state.place, desk.used), (122, 31));
    for call in &LAYOUT[..6] {
        assert_eq!(desk.give(call), Ok(()));
    }
    assert_eq!(desk.give(&Call::AttributeType(0x2b)), Err(10));
    assert_eq!(desk.give(&Call::AttributeType(0x12a)), Err(10));
    assert_eq!(desk.give(&Call::AttributeType(0x20)), Err(8));
    assert_eq!(desk.state.turn, Turn::AttributeType);
    assert_eq!(desk.give(&Call::AttributeType(0x2a)), Ok(()));
    assert_eq!(desk.used, 31);
    let mut desk = behind_layout(&LAYOUT[..2]);
    assert_eq!(desk.give(&Call::AttributeCount(0)), Err(10));
    assert_eq!(desk.give(&Call::GiveUp), Ok(()));
}

fn small_layouts(count: u32) -> Vec<u8> {
    let layout = |number| book_octets(&Layout { number, name: vec![], attributes: vec![] });
    (100..100 + count).flat_map(layout).collect()
}

fn lend(desk: &mut Desk, used: &[u8]) {
    desk.book[..used.len()].copy_from_slice(used);
    desk.used = used.len() as u64;
}

#[test]
fn a_layout_too_many_or_too_long_is_11_before_23() {
    let mut desk = behind_header(&[Call::OpenLayout(7), Call::TypeName(b"")]);
    lend(&mut desk, &small_layouts(64));
    assert_eq!(desk.give(&Call::AttributeCount(0)), Err(11));
    desk.buffer.truncate(desk.state.place as usize);
    assert_eq!(desk.give(&Call::AttributeCount(0)), Err(11));
    assert_eq!(desk.give(&Call::AttributeCount(1)), Err(23));
    lend(&mut desk, &small_layouts(63));
    assert_eq!(desk.give(&Call::AttributeCount(0)), Err(23));
    desk.buffer.extend([0xaa; 4]);
    assert_eq!(desk.give(&Call::AttributeCount(0)), Ok(()));
    assert_eq!(desk.used, 64 * 12);
}

#[test]
fn a_book_filled_to_its_last_octet() {
    let book_of =
        |name: usize| book_octets(&Layout { number: 1, name: vec![b'n'; name], attributes: vec![] });
    for (free, answer) in [(12, Ok(())), (11, Err(11))] {
        let mut desk = behind_header(&[Call::OpenLayout(7), Call::TypeName(b"")]);
        lend(&mut desk, &book_of(32_768 - 12 - free));
        assert_eq!(desk.give(&Call::AttributeCount(0)), answer);
    }
}

#[test]
fn rows_of_layouts_not_in_the_book_are_12() {
    let mut desk = behind_layout(&[]);
    assert_eq!(desk.give(&Call::OpenRow { number: 8, stated: true }), Err(12));
    let mut desk = behind_layout(&rows()[..3]);
    desk.used = 0;
    assert_eq!(desk.give(&number(Basic::Long, 0)), Err(12));
    assert_eq!(desk.give(&Call::CloseRow), Err(12));
    assert_eq!(desk.give(&Call::GiveUp), Ok(()));
}

#[test]
fn books_that_are_not_good_are_17_before_all_else() {
    for used in [30, 32, 32_769, u64::MAX] {
        let mut desk = behind_layout(&[]);
        desk.used = used;
        assert_eq!(desk.give(&Call::Finish(0)), Err(17));
        assert_eq!(desk.give(&Call::StartTime(0)), Err(17));
    }
    let mut desk = Desk::of(100);
    desk.book.pop();
    desk.state.place = 700;
    assert_eq!(desk.give(&Call::Recorder(b"")), Err(17));
}

#[test]
fn values_that_do_not_fit_their_field_are_21() {
    let mut desk = behind_layout(&rows()[..1]);
    assert_eq!(desk.give(&number(Basic::Int, 10)), Err(21));
    assert_eq!(desk.give(&octets(Basic::String, b"x")), Err(21));
    assert_eq!(desk.give(&rows()[1]), Ok(()));
    assert_eq!(desk.give(&rows()[1]), Err(21));
    assert_eq!(desk.give(&rows()[2]), Ok(()));
    assert_eq!(desk.give(&rows()[2]), Err(21));
    let mut desk = behind_header(&[]);
    assert_eq!(desk.give(&rows()[1]), Err(20));
}

#[test]
fn booleans_and_octets() {
    let layout = [
        Call::OpenLayout(1),
        Call::TypeName(b""),
        Call::AttributeCount(3),
        Call::AttributeName(b""),
        Call::AttributeType(0x29),
        Call::AttributeName(b""),
        Call::AttributeType(0x27),
        Call::AttributeName(b""),
        Call::AttributeType(0x128),
    ];
    let mut desk = behind_header(&[&layout[..], &[Call::OpenRow { number: 1, stated: true }]].concat());
    assert_eq!(desk.give(&number(Basic::Boolean, 2)), Err(21));
    assert_eq!(desk.give(&number(Basic::Boolean, 255)), Err(21));
    assert_eq!(desk.give(&number(Basic::Boolean, 0x101)), Ok(()));
    assert_eq!(desk.give(&octets(Basic::HexBinary, &[0xab])), Ok(()));
    assert_eq!(desk.give(&octets(Basic::String, b"")), Ok(()));
    assert_eq!(desk.give(&Call::CloseRow), Ok(()));
    assert!(desk.image().ends_with(&[0, 0, 0, 1, 0, 0, 0, 10, 1, 0, 0, 0, 1, 0xab, 0, 0, 0, 0]));
}

/// The calls of a document with every kind of string, each string the same.
fn calls_of_strings(string: &[u8]) -> Vec<Call<'_>> {
    vec![
        Call::Recorder(string),
        Call::StartTime(0),
        Call::DefaultNamespace(string),
        Call::NamespaceCount(1),
        Call::Uri(string),
        Call::ShortName(string),
        Call::ServiceCount(1),
        Call::Service(string),
        Call::DocumentId(&[0xff; 16]),
        Call::OpenLayout(7),
        Call::TypeName(string),
        Call::AttributeCount(2),
        Call::AttributeName(string),
        Call::AttributeType(0x528),
        Call::AttributeName(string),
        Call::AttributeType(0x27),
        Call::OpenRow { number: 7, stated: true },
        octets(Basic::String, string),
        octets(Basic::HexBinary, b"\xff\xc3"),
        Call::CloseRow,
        Call::Finish(0),
    ]
}

#[test]
fn bad_strings_are_24_and_can_be_given_anew() {
    for word in WORDS.map(str::as_bytes) {
        let mut desk = Desk::of(500);
        let mut refused = 0;
        for (good, bad) in calls_of_strings(word).iter().zip(calls_of_strings(b"Jos\xe9")) {
            if *good != bad {
                assert_eq!(desk.give(&bad), Err(24), "{bad:?}");
                refused += 1;
            }
            assert_eq!(desk.give(good), Ok(()), "{good:?}");
        }
        assert_eq!(refused, 9);
        assert_eq!(desk.state.turn, Turn::Nothing);
        assert_eq!(whole_check(desk.image()), Ok(1));
    }
}

#[test]
fn every_fault_in_every_call_is_24() {
    for fault in FAULTS {
        let (good, bad) = (calls_of_strings(b"x"), calls_of_strings(fault));
        for (index, call) in bad.iter().enumerate().filter(|(index, call)| **call != good[*index]) {
            let mut desk = Desk::after(500, &good[..index]);
            assert_eq!(desk.give(call), Err(24), "{call:?}");
        }
    }
}

#[test]
fn what_comes_before_24_and_what_behind() {
    let bad = b"\xff";
    let calls = calls_of_strings(b"x");
    let row = &calls[..17];
    // 17, then 20.
    let mut desk = Desk::of(100);
    desk.used = 1;
    assert_eq!(desk.give(&Call::Recorder(bad)), Err(17));
    desk.used = 0;
    assert_eq!(desk.give(&Call::DefaultNamespace(bad)), Err(20));
    desk.state.place = 101;
    assert_eq!(desk.give(&Call::Recorder(bad)), Err(20));
    // 12, then 21, for a value.
    let mut desk = Desk::after(500, row);
    assert_eq!(desk.give(&octets(Basic::HexBinary, bad)), Err(21));
    assert_eq!(desk.give(&octets(Basic::String, bad)), Err(24));
    assert_eq!(desk.give(&octets(Basic::String, b"x")), Ok(()));
    assert_eq!(desk.give(&octets(Basic::String, bad)), Err(21));
    assert_eq!(desk.give(&octets(Basic::HexBinary, bad)), Ok(()));
    assert_eq!(desk.give(&octets(Basic::String, bad)), Err(21));
    let mut desk = Desk::after(500, row);
    desk.used = 0;
    assert_eq!(desk.give(&octets(Basic::String, bad)), Err(12));
    // 23 comes last, also where no room would do.
    let long = [&vec![b'a'; 1_048_576][..], bad].concat();
    for (index, call) in calls_of_strings(&long).iter().enumerate() {
        if *call != calls[index] {
            let mut desk = Desk::after(500, &calls[..index]);
            assert_eq!(desk.give(call), Err(24));
            desk.buffer.truncate(desk.state.place as usize);
            assert_eq!(desk.give(call), Err(24));
            assert_eq!(desk.give(&calls[index]), Err(23));
        }
    }
}

#[test]
fn bad_octets_of_an_open_layout_are_taken_and_then_17() {
    let mut desk = behind_header(&LAYOUT[..6]);
    desk.buffer[64] = 0xff;
    assert_eq!(desk.give(&LAYOUT[6]), Ok(()));
    assert_eq!((desk.state.turn, desk.used, desk.book[8]), (Turn::Element, 31, 0xff));
    assert_eq!(desk.give(&Call::OpenRow { number: 7, stated: true }), Err(17));
    assert_eq!(desk.give(&Call::Finish(0)), Err(17));
}

#[test]
fn rows_closed_with_fields_missing_are_22() {
    let mut desk = behind_layout(&rows()[..1]);
    assert_eq!(desk.give(&Call::CloseRow), Err(22));
    assert_eq!(desk.give(&rows()[1]), Ok(()));
    assert_eq!(desk.give(&Call::CloseRow), Err(22));
    assert_eq!(behind_layout(&[]).give(&Call::CloseRow), Err(20));
}

#[test]
fn out_of_turn_is_20() {
    let calls = specimen_calls();
    for count in 0..calls.len() {
        let turn = Desk::after(300, &calls[..count]).state.turn;
        for call in &calls {
            let mut desk = Desk::after(300, &calls[..count]);
            if desk.give(call) == Err(20) {
                assert!(!call.is_in_turn(turn), "{call:?} in {turn:?}");
            } else {
                assert!(call.is_in_turn(turn), "{call:?} in {turn:?}");
            }
        }
    }
}

#[test]
fn states_nobody_answered() {
    let mut desk = behind_layout(&rows()[..3]);
    desk.state.count = 64;
    assert_eq!(desk.give(&rows()[2]), Err(21));
    assert_eq!(desk.clone().give(&Call::CloseRow), Ok(()));
    desk.state.count = 65;
    assert_eq!(desk.give(&Call::CloseRow), Err(20));
    assert_eq!(desk.give(&Call::GiveUp), Err(20));
    desk.state = State { count: 2, start: 93, ..desk.state };
    assert_eq!(desk.give(&Call::CloseRow), Err(20));
    desk.state.start = u64::MAX;
    assert_eq!(desk.give(&Call::GiveUp), Err(20));
    desk.state = State { start: 0, rows: 1_048_577, ..desk.state };
    assert_eq!(desk.give(&Call::GiveUp), Err(20));
    desk.state.rows = 1_048_576;
    assert_eq!(desk.give(&Call::GiveUp), Ok(()));
    assert_eq!(desk.buffer[..104], [0; 104]);
    let mut desk = Desk::of(100);
    desk.state.place = 101;
    assert_eq!(desk.give(&Call::Recorder(b"")), Err(20));
    desk.state.place = 92;
    assert_eq!(desk.give(&Call::Recorder(b"")), Ok(()));
    desk.state = State { turn: Turn::Uri, count: 0, place: 0, ..State::default() };
    assert_eq!(desk.give(&Call::Uri(b"")), Err(20));
}

#[test]
fn open_octets_are_taken_as_they_stand() {
    let mut desk = behind_layout(&rows()[..3]);
    desk.buffer[95..99].copy_from_slice(&[9, 9, 9, 9]);
    assert_eq!(desk.clone().give(&Call::CloseRow), Ok(()));
    desk.buffer[95..99].fill(0xff);
    let mut unstated = desk.clone();
    assert_eq!(unstated.give(&Call::CloseRow), Ok(()));
    assert_eq!(unstated.buffer[95..99], [0xff; 4]);
    desk.buffer[91..95].copy_from_slice(&[0, 0, 0, 8]);
    assert_eq!(desk.give(&Call::CloseRow), Err(12));
    let mut desk = behind_header(&LAYOUT[..6]);
    desk.buffer[64] = b'B';
    assert_eq!(desk.give(&LAYOUT[6]), Ok(()));
    assert_eq!(desk.book[8], b'B');
}

#[test]
fn rows_at_their_limit() {
    let mut desk = behind_layout(&rows()[..3]);
    desk.state.rows = 1_048_576;
    assert_eq!(desk.give(&Call::CloseRow), Ok(()));
    assert_eq!(desk.state.rows, 1_048_577);
    assert_eq!(desk.give(&Call::Finish(0)), Err(20));
}

#[test]
fn the_room_ends_at_the_limit_of_documents() {
    let mut desk = Desk::of(1_048_600);
    assert_eq!(desk.give(&Call::Recorder(&vec![0; 1_048_569])), Err(23));
    assert_eq!(desk.give(&Call::Recorder(&vec![0; 1_048_568])), Ok(()));
    assert_eq!(desk.state.place, 1_048_576);
    assert_eq!(desk.give(&Call::StartTime(0)), Err(23));
    desk.state.place = 1_048_577;
    assert_eq!(desk.give(&Call::StartTime(0)), Err(20));
}

#[test]
fn scripts_of_documents_leave_their_image() {
    for index in 0..200 {
        let document = small(&mut Random::of(11, index));
        let octets = image(&document).octets;
        let fresh = Command::numbers(b'N', &[octets.len() as u64]);
        let commands = [vec![fresh], script(&document), vec![Command::new(b'i')]].concat();
        let text = probe::run(&stream(&commands));
        assert_eq!(text.lines().last(), Some(&format!("image {}", second::hex::word(&octets))[..]));
    }
}

#[test]
fn probe_lines_of_writing() {
    let text = probe::run(&stream(&[
        Command::octets(b'1', b"x"),
        Command::numbers(b'N', &[9]),
        Command::new(b'i'),
        Command::octets(b'1', b"xy"),
        Command::octets(b'1', b"x"),
        Command::new(b'i'),
        Command::numbers(b'2', &[0]),
        Command::numbers(b'S', &[1, 1 << 40, 0, 0, 0]),
        Command::numbers(b'2', &[0]),
        Command::new(b'i'),
    ]));
    let sum = |octets: &[u8]| format!("{:016x}", probe::sum::sum(octets));
    let (book, aa) = (sum(&[0x55; 32_768]), sum(&[0xaa; 9]));
    let written = sum(b"\0\0\0\x04\0\0\0\x01x");
    let expected = [
        "refused 17 0 cbf29ce484222325 cbf29ce484222325".to_string(),
        "image -".to_string(),
        format!("refused 23 0 {aa} {book}"),
        format!("done 9 0 {written} {book}"),
        "image 000000040000000178".to_string(),
        format!("refused 23 9 {written} {book}"),
        format!("refused 20 1099511627776 {written} {book}"),
        "image 000000040000000178".to_string(),
    ];
    assert_eq!(text.lines().collect::<Vec<_>>(), expected);
}

#[test]
fn arguments_out_of_range_are_bad_input() {
    let bad = |command: Command| probe::run(&stream(&[command])) == "bad input\n";
    assert!(bad(Command::numbers(b'N', &[65_601])));
    assert!(bad(Command::numbers(b'S', &[16, 0, 0, 0, 0])));
    assert!(bad(Command::numbers(b'4', &[1 << 32])));
    assert!(bad(Command::numbers(b'7', &[1 << 32])));
    assert!(bad(Command::numbers(b'c', &[1 << 32])));
    assert!(bad(Command::numbers(b'k', &[1 << 32])));
    assert!(bad(Command::numbers(b'u', &[1 << 32])));
    assert!(bad(Command::numbers(b'o', &[1 << 32, 0])));
    assert!(bad(Command::numbers(b'o', &[1, 2])));
    assert!(bad(Command::numbers(b'v', &[0x20, 0, 0])));
    assert!(bad(Command::numbers(b'v', &[0x122, 0, 0])));
    assert!(bad(Command::octets(b'1', &vec![0; 65_601])));
    assert!(!bad(Command::numbers(b'4', &[0xffff_ffff])));
    assert!(!bad(Command::numbers(b'v', &[0x22, 0, 0])));
}
