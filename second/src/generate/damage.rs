//! Damage done to the image of a good document.

use super::field::{self, BORDERS32};
use super::random::Random;
use super::text;
use crate::image::{Image, Mark};

/// The kinds of damage; those inside rows count double.
const KINDS: [fn(&mut Random, &Image) -> Vec<u8>; 31] = [
    cut_anywhere,
    cut_at_a_field,
    grown,
    octets_changed,
    octet_left_out,
    octet_put_in,
    number_at_a_border,
    number_a_little_off,
    length_wrong,
    length_wrong,
    time_at_a_border,
    elements_swapped,
    element_repeated,
    element_removed,
    element_behind_the_end,
    layout_changed_under_its_number,
    row_length_wrong,
    row_length_wrong,
    boolean_bad,
    boolean_bad,
    kind_bad,
    type_doubtful,
    type_doubtful,
    end_count_changed,
    header_number_changed,
    row_of_another_layout,
    string_bad,
    string_bad,
    string_bad_and_its_length,
    string_bad_before_a_fault,
    layout_badly_named_under_its_number,
];

/// One kind of damage; where it moved nothing, sometimes a second one.
pub fn damaged(random: &mut Random, image: &Image) -> Vec<u8> {
    let octets = random.pick(&KINDS)(random, image);
    if octets.len() == image.octets.len() && random.one_in(3) {
        let image = Image { octets, ..image.clone() };
        return random.pick(&KINDS)(random, &image);
    }
    octets
}

fn cut_anywhere(random: &mut Random, image: &Image) -> Vec<u8> {
    image.octets[..random.below(image.octets.len())].to_vec()
}

fn cut_at_a_field(random: &mut Random, image: &Image) -> Vec<u8> {
    let (place, _) = random.pick(&image.marks);
    let end = (place + random.below(6)).min(image.octets.len());
    image.octets[..end].to_vec()
}

fn grown(random: &mut Random, image: &Image) -> Vec<u8> {
    let size = random.pick(&[1, 1, 2, 4, 16]);
    let more = match random.below(3) {
        0 => vec![0; size],
        1 => vec![0xff; size],
        _ => random.octets(size),
    };
    [&image.octets[..], &more].concat()
}

fn octets_changed(random: &mut Random, image: &Image) -> Vec<u8> {
    let mut octets = image.octets.clone();
    if octets.is_empty() {
        return octets;
    }
    for _ in 0..random.pick(&[1, 1, 1, 2, 5]) {
        let place = random.below(octets.len());
        octets[place] = match random.below(3) {
            0 => random.pick(&[0, 1, 2, 3, 0x7f, 0x80, 0xff]),
            1 => octets[place] ^ 1 << random.below(8),
            _ => random.draw() as u8,
        };
    }
    octets
}

fn octet_left_out(random: &mut Random, image: &Image) -> Vec<u8> {
    let mut octets = image.octets.clone();
    octets.remove(random.below(octets.len()));
    octets
}

fn octet_put_in(random: &mut Random, image: &Image) -> Vec<u8> {
    let mut octets = image.octets.clone();
    octets.insert(random.below(octets.len() + 1), random.pick(&[0, 1, 0xff]));
    octets
}

fn number_at_a_border(random: &mut Random, image: &Image) -> Vec<u8> {
    let to = match random.below(3) {
        0 => image.octets.len() as u32,
        _ => random.pick(&BORDERS32),
    };
    changed(random, image, |mark| !matches!(mark, Mark::Time | Mark::Boolean), |_, _| to)
}

fn number_a_little_off(random: &mut Random, image: &Image) -> Vec<u8> {
    let is_number = |mark| !matches!(mark, Mark::Time | Mark::Boolean);
    changed(random, image, is_number, a_little_off)
}

fn length_wrong(random: &mut Random, image: &Image) -> Vec<u8> {
    let rest = image.octets.len() as u32;
    changed(
        random,
        image,
        |mark| matches!(mark, Mark::Length | Mark::StringLength),
        |random, was| match random.below(4) {
            0 => random.pick(&[u32::MAX, u32::MAX - 3, 0x8000_0000, 0x7fff_ffff]),
            1 => rest.wrapping_sub(random.below(80) as u32),
            _ => a_little_off(random, was),
        },
    )
}

fn time_at_a_border(random: &mut Random, image: &Image) -> Vec<u8> {
    let time = field::time(random).to_be_bytes();
    let mut octets = image.octets.clone();
    if let Some(place) = a_mark(random, image, |mark| mark == Mark::Time) {
        octets[place..place + 8].copy_from_slice(&time);
    }
    octets
}

fn elements_swapped(random: &mut Random, image: &Image) -> Vec<u8> {
    let mut pieces = image.pieces();
    let (one, other) = (random.below(pieces.len()), random.below(pieces.len()));
    pieces.swap(one, other);
    pieces.concat()
}

fn element_repeated(random: &mut Random, image: &Image) -> Vec<u8> {
    let mut pieces = image.pieces();
    let piece = random.pick(&pieces);
    pieces.insert(random.below(pieces.len() + 1), piece);
    pieces.concat()
}

fn element_removed(random: &mut Random, image: &Image) -> Vec<u8> {
    let mut pieces = image.pieces();
    pieces.remove(random.below(pieces.len()));
    pieces.concat()
}

fn element_behind_the_end(random: &mut Random, image: &Image) -> Vec<u8> {
    let pieces = image.pieces();
    [image.octets.clone(), random.pick(&pieces)].concat()
}

/// A layout stands a second time before the end, with one octet changed that
/// is not of its kind or number.
fn layout_changed_under_its_number(random: &mut Random, image: &Image) -> Vec<u8> {
    layout_again(random, image, |random, layout| {
        let place = random.between(8, layout.len() - 1);
        layout[place] ^= 1 << random.below(8);
    })
}

/// A layout stands a second time before the end, and its type name is bad.
fn layout_badly_named_under_its_number(random: &mut Random, image: &Image) -> Vec<u8> {
    layout_again(random, image, |random, layout| {
        // Its length may have been damaged before.
        let end = (12 + number_at(layout, 8) as usize).min(layout.len());
        let name = text::bad(random);
        layout.splice(8..end, [&(name.len() as u32).to_be_bytes()[..], &name].concat());
    })
}

/// A layout once more, changed, behind itself and before the end.
fn layout_again(random: &mut Random, image: &Image, change: impl Fn(&mut Random, &mut Vec<u8>)) -> Vec<u8> {
    let mut pieces = image.pieces();
    let is_layout = |index: &usize| pieces[*index][..4] == [0, 0, 0, 1];
    let layouts: Vec<usize> = (1..pieces.len() - 1).filter(is_layout).collect();
    if layouts.is_empty() {
        return element_removed(random, image);
    }
    let index = random.pick(&layouts);
    let mut changed = pieces[index].clone();
    change(random, &mut changed);
    let again = random.between(index + 1, pieces.len() - 1);
    pieces.insert(again, changed);
    pieces.concat()
}

fn row_length_wrong(random: &mut Random, image: &Image) -> Vec<u8> {
    let rest = image.octets.len() as u32;
    changed(
        random,
        image,
        |mark| mark == Mark::RowLength,
        |random, was| match random.below(5) {
            0 => random.pick(&[0, u32::MAX, u32::MAX - 1, 0x8000_0000, 0x7fff_ffff]),
            1 => rest.wrapping_sub(random.below(80) as u32),
            2 => random.below(40) as u32,
            _ => a_little_off(random, was),
        },
    )
}

fn boolean_bad(random: &mut Random, image: &Image) -> Vec<u8> {
    let mut octets = image.octets.clone();
    match a_mark(random, image, |mark| mark == Mark::Boolean) {
        Some(place) => octets[place] = random.pick(&[2, 3, 0x7f, 0x80, 0xff]),
        None => return octets_changed(random, image),
    }
    octets
}

fn kind_bad(random: &mut Random, image: &Image) -> Vec<u8> {
    let to = random.pick(&[0, 1, 2, 3, 4, 0x0100_0001, 0x8000_0001, u32::MAX]);
    changed(random, image, |mark| mark == Mark::Kind, |_, _| to)
}

fn type_doubtful(random: &mut Random, image: &Image) -> Vec<u8> {
    let to = field::doubtful_kind(random);
    changed(random, image, |mark| mark == Mark::Type, |_, _| to)
}

fn end_count_changed(random: &mut Random, image: &Image) -> Vec<u8> {
    changed(
        random,
        image,
        |mark| mark == Mark::EndCount,
        |random, was| match random.below(3) {
            0 => random.pick(&BORDERS32),
            _ => a_little_off(random, was),
        },
    )
}

fn header_number_changed(random: &mut Random, image: &Image) -> Vec<u8> {
    let of_header =
        |mark| matches!(mark, Mark::Version | Mark::IdLength | Mark::NoElementCount | Mark::Count);
    changed(random, image, of_header, |random, was| match random.below(3) {
        0 => random.pick(&BORDERS32),
        1 => was ^ 1 << random.below(32),
        _ => a_little_off(random, was),
    })
}

fn row_of_another_layout(random: &mut Random, image: &Image) -> Vec<u8> {
    let numbers: Vec<usize> =
        image.marks.iter().filter(|(_, mark)| *mark == Mark::Number).map(|(place, _)| *place).collect();
    let mut octets = image.octets.clone();
    if !numbers.is_empty() {
        let (from, to) = (random.pick(&numbers), random.pick(&numbers));
        octets.copy_within(from..from + 4, to);
    }
    octets
}

/// A fault over some octets of a string.
fn string_bad(random: &mut Random, image: &Image) -> Vec<u8> {
    spoiled_at(random, image).map_or_else(|| octets_changed(random, image), |(octets, _)| octets)
}

/// A bad string, of which the length is wrong too.
fn string_bad_and_its_length(random: &mut Random, image: &Image) -> Vec<u8> {
    let Some((mut octets, place)) = spoiled_at(random, image) else {
        return length_wrong(random, image);
    };
    let length = match random.below(3) {
        0 => (octets.len() - place - 3) as u32,
        _ => a_little_off(random, number_at(&octets, place)),
    };
    octets[place..place + 4].copy_from_slice(&length.to_be_bytes());
    octets
}

/// A bad string, and a fault of another kind that may stand before or behind it.
fn string_bad_before_a_fault(random: &mut Random, image: &Image) -> Vec<u8> {
    let octets = string_bad(random, image);
    let image = Image { octets, ..image.clone() };
    random.pick(&[type_doubtful, boolean_bad, row_length_wrong, row_length_wrong])(random, &image)
}

/// The image with a fault in a string that has octets, and the place of its length.
fn spoiled_at(random: &mut Random, image: &Image) -> Option<(Vec<u8>, usize)> {
    let mut octets = image.octets.clone();
    let is_string = |mark: &Mark| *mark == Mark::StringLength;
    let strings = image.marks.iter().filter(|(_, mark)| is_string(mark)).map(|(place, _)| *place);
    let filled: Vec<usize> = strings.filter(|place| string_at(&octets, *place).is_some()).collect();
    let wanted = random.pick(&[Part::Header, Part::Layout, Part::Row, Part::Row]);
    let chosen: Vec<usize> = filled.iter().copied().filter(|place| part(image, *place) == wanted).collect();
    let place = match (&chosen[..], &filled[..]) {
        ([], []) => return None,
        ([], filled) => random.pick(filled),
        (chosen, _) => random.pick(chosen),
    };
    let string = string_at(&octets, place)?;
    text::spoil(random, &mut octets[string]);
    Some((octets, place))
}

#[derive(Clone, PartialEq)]
enum Part {
    Header,
    Layout,
    Row,
}

/// What a string at a place belongs to.
fn part(image: &Image, place: usize) -> Part {
    match image.starts.iter().rposition(|start| *start <= place) {
        None | Some(0) => Part::Header,
        Some(index) if image.octets[image.starts[index]..][..4] == [0, 0, 0, 1] => Part::Layout,
        Some(_) => Part::Row,
    }
}

/// Where the octets of a string stand, if it has any and they are all there.
fn string_at(octets: &[u8], place: usize) -> Option<std::ops::Range<usize>> {
    let from = place + 4;
    let to = from.checked_add(number_at(octets, place) as usize)?;
    (from < to && to <= octets.len()).then_some(from..to)
}

fn number_at(octets: &[u8], place: usize) -> u32 {
    octets[place..place + 4].iter().fold(0, |number, octet| number << 8 | u32::from(*octet))
}

fn a_little_off(random: &mut Random, was: u32) -> u32 {
    was.wrapping_add(random.pick(&[1, 1, 2, 4, 8])).wrapping_sub(random.pick(&[0, 2, 4, 9]))
}

fn a_mark(random: &mut Random, image: &Image, wanted: impl Fn(Mark) -> bool) -> Option<usize> {
    let places: Vec<usize> =
        image.marks.iter().filter(|(_, mark)| wanted(*mark)).map(|(place, _)| *place).collect();
    if places.is_empty() {
        return None;
    }
    Some(random.pick(&places))
}

/// The image with a new number at one of the marks wanted; with some octets
/// changed anywhere where it has none.
fn changed(
    random: &mut Random,
    image: &Image,
    wanted: impl Fn(Mark) -> bool,
    to: impl Fn(&mut Random, u32) -> u32,
) -> Vec<u8> {
    let Some(place) = a_mark(random, image, wanted) else {
        return octets_changed(random, image);
    };
    let mut octets = image.octets.clone();
    let number = to(random, number_at(&octets, place));
    octets[place..place + 4].copy_from_slice(&number.to_be_bytes());
    octets
}
