//! States and octets that lead a writer astray.

use super::random::Random;
use crate::command::{Argument, Command};
use crate::limits;
use crate::writer::state::{State, TURNS};

/// A state near the one given, with one or two of its parts changed.
pub fn stray_state(random: &mut Random, good: &State, room: u64) -> State {
    let mut state = *good;
    for _ in 0..random.pick(&[1, 1, 2]) {
        match random.below(6) {
            0 => state.place = stray_place(random, state.place, room),
            1 | 2 => state.count = stray_count(random, state.count),
            3 => state.start = stray_start(random, &state),
            4 => state.rows = stray_rows(random, state.rows),
            _ => state.turn = random.pick(&TURNS),
        }
    }
    state
}

const HUGE: [u64; 5] = [1 << 31, 1 << 32, 1 << 63, u64::MAX - 7, u64::MAX];

fn near(random: &mut Random, number: u64) -> u64 {
    number.wrapping_add(random.between(1, 16) as u64).wrapping_sub(random.pick(&[0, 8, 17]))
}

fn stray_place(random: &mut Random, place: u64, room: u64) -> u64 {
    match random.below(5) {
        0 => room,
        1 => room + 1,
        2 => random.pick(&HUGE),
        3 => random.below(room as usize + 1) as u64,
        _ => near(random, place),
    }
}

fn stray_count(random: &mut Random, count: u64) -> u64 {
    match random.below(4) {
        0 => random.pick(&HUGE),
        1 => count.saturating_add(1).saturating_sub(random.pick(&[0, 2])),
        _ => random.pick(&[0, 1, 2, 15, 16, 17, 63, 64, 65]),
    }
}

fn stray_start(random: &mut Random, state: &State) -> u64 {
    match random.below(5) {
        0 => random.pick(&HUGE),
        1 => random.below(state.place.min(70_000) as usize + 1) as u64,
        2 => near(random, state.start),
        _ => state.place.saturating_sub(random.pick(&[7, 8, 11, 12, 13])),
    }
}

fn stray_rows(random: &mut Random, rows: u64) -> u64 {
    match random.below(3) {
        0 => random.pick(&HUGE),
        1 => rows.wrapping_add(random.pick(&[1, 2, 256])),
        _ => random.pick(&[0, limits::ROWS - 1, limits::ROWS, limits::ROWS + 1]),
    }
}

/// Octets put over the open element's number or length, or anywhere.
pub fn stray_octets(random: &mut Random, state: &State) -> Command {
    let word = random.pick(&[0, 1, 5, 7, 0xff, 0x100, 0x7fff_ffff, 0x8000_0000, u32::MAX]).to_be_bytes();
    let (at, octets) = match random.below(5) {
        0 => (state.start, word.to_vec()),
        1 => (state.start.saturating_add(4), word.to_vec()),
        2 => (state.start.saturating_add(8), word.to_vec()),
        3 => (random.below(state.place.min(70_000) as usize + 20) as u64, random.octets(6)),
        _ => (random.pick(&[0, 1 << 20, u64::MAX - 2]), random.octets(30)),
    };
    Command::numbers(b'P', &[at]).and(Argument::Octets(octets))
}
