//! Scripts for the writer: whole documents, documents in too little room or
//! with calls that are wrong, and states that no call ever answered.

use super::by_hand::{into_a_full_book, opened_by_hand};
use super::call::{any_call, changed, noisy, spoiled};
use super::desk::{fresh, Desk};
use super::document::{document, small};
use super::random::Random;
use super::script::script;
use super::wander::wander;
use crate::command::Command;
use crate::image::image;

/// Most calls of a script, with few exceptions; a longer document is written
/// no further.
const MOST: usize = 60;

pub fn commands(random: &mut Random) -> Vec<Command> {
    let (document, most) = match random.below(20) {
        0 => (document(random), 5 * MOST),
        _ => (small(random), MOST),
    };
    let size = image(&document).octets.len();
    let mut calls = script(&document);
    calls.truncate(most);
    for call in calls.iter_mut().filter(|call| call.letter == b'v') {
        if random.one_in(4) {
            *call = noisy(random, call);
        }
    }
    match random.below(60) {
        0 if size < 160 && random.one_in(2) => every_smaller_room(&calls, size),
        1..=12 => written(&calls, size + random.pick(&[0, 0, 1, 100])),
        13..=20 => {
            let room = random.below(size);
            in_room(random, &calls, room)
        }
        21..=38 => {
            edit(random, &mut calls);
            let less = random.pick(&[0, 0, size / 2]);
            written(&calls, size + random.below(40) - less)
        }
        39..=43 => opened_by_hand(random, &document),
        44..=46 => into_a_full_book(random),
        _ => wander(random, &document, &calls, size),
    }
}

fn written(calls: &[Command], size: usize) -> Vec<Command> {
    [&[fresh(size)], calls, &[Command::new(b'i')]].concat()
}

/// Calls up to the first that is refused in this room, that one with a bad
/// string where it has one, and a giving up.
fn in_room(random: &mut Random, calls: &[Command], size: usize) -> Vec<Command> {
    let mut desk = Desk::new(size);
    let accepted = calls.iter().take_while(|call| desk.accepts(call)).count();
    let given = calls.len().min(accepted + 1);
    let bad = calls[..given].last().and_then(|call| spoiled(random, call));
    let last = [b'i', b'z', b'i'].map(Command::new);
    let given = [fresh(size)].into_iter().chain(calls[..given].iter().cloned());
    given.chain(bad).chain(last).collect()
}

pub fn every_smaller_room(calls: &[Command], size: usize) -> Vec<Command> {
    (0..size).flat_map(|room| in_room(&mut Random::of(0, room as u64), calls, room)).collect()
}

/// Before some call with a string the same with a bad one; often a value.
fn give_badly_first(random: &mut Random, calls: &mut Vec<Command>) {
    let values_only = random.one_in(2);
    let mut bad: Vec<(usize, Command)> = Vec::new();
    for (index, call) in calls.iter().enumerate() {
        if !values_only || call.letter == b'v' {
            bad.extend(spoiled(random, call).map(|call| (index, call)));
        }
    }
    if !bad.is_empty() {
        let (index, call) = random.pick(&bad);
        calls.insert(index, call);
    }
}

/// A few calls too many, left out, repeated, swapped, given up or changed, and
/// strings that are bad before they are given well.
fn edit(random: &mut Random, calls: &mut Vec<Command>) {
    for _ in 0..random.between(1, 4) {
        let index = random.below(calls.len());
        match random.below(11) {
            0 => calls.insert(index, any_call(random)),
            1 => {
                calls.remove(index);
            }
            2 => calls.insert(index, calls[index].clone()),
            3 => calls.swap(index, random.below(index + 1)),
            4 => calls.insert(index, Command::new(b'z')),
            5 => calls.insert(index, Command::new(b'x')),
            6..=8 => give_badly_first(random, calls),
            _ => calls[index] = changed(random, &calls[index]),
        }
    }
}
