//! Commands that read one document in many ways.

use super::lent_book::{lent_book, odd_used, whole};
use super::random::Random;
use super::visit::{visits, Visit, Visits};
use crate::command::{Argument, Command};
use crate::element::{self, Kind};
use crate::header;
use crate::limits;

/// A document, where a reading of it stands, and where else elements begin.
struct Read<'a> {
    document: &'a [u8],
    seen: Visits,
    starts: &'a [usize],
}

/// The document, what is asked of it as a whole, a walk from its first
/// element, and steps and questions over other places and books. The starts
/// are places where an element stands though no reading may come there.
pub fn commands(random: &mut Random, document: &[u8], starts: &[usize]) -> Vec<Command> {
    let read = Read { document, seen: visits(document), starts };
    let mut commands = vec![
        Command::octets(b'D', document),
        Command::octets(b'B', &vec![random.pick(&[0, 0x55]); limits::BOOK]),
        Command::new(b'h'),
        Command::new(b'w'),
    ];
    read.walk(random, &mut commands);
    for _ in 0..random.below(3) {
        read.strayed_step(random, &mut commands);
    }
    for _ in 0..random.pick(&[0, 0, 1, 1, 1]) {
        read.lend(random, &mut commands);
    }
    texts(random, document, &mut commands);
    commands
}

impl Read<'_> {
    /// Steps from an empty book, not so many in most cases; here and there, and
    /// often where the reading ends, questions on the element before the step
    /// takes it.
    fn walk(&self, random: &mut Random, commands: &mut Vec<Command>) {
        let most = random.pick(&[4, 8, 8, 12, 12, 70]);
        for visit in self.seen.visits.iter().take(most) {
            let is_last = self.seen.visits.last() == Some(visit);
            if random.one_in(if is_last { 2 } else { 3 }) {
                self.questions(random, visit, commands);
            }
            commands.push(step(visit));
        }
    }

    /// A step, and often questions, whose place, rows or used count is not
    /// what a reading would give.
    fn strayed_step(&self, random: &mut Random, commands: &mut Vec<Command>) {
        let mut visit = self.some_visit(random);
        match random.below(5) {
            0 => visit.place = odd_place(random, self.document),
            1 => visit.place = visit.place.saturating_add(random.between(1, 20) as u64),
            2 => visit.place = visit.place.saturating_add(1 << random.pick(&[16, 31, 32, 63])),
            3 => visit.rows = odd_rows(random, visit.rows),
            _ => visit.used = odd_used(random, visit.used),
        }
        if random.one_in(2) {
            self.questions(random, &visit, commands);
        }
        commands.push(step(&visit));
    }

    /// Another book, and steps and questions over it. A book of the
    /// document's layouts serves every place of the document.
    fn lend(&self, random: &mut Random, commands: &mut Vec<Command>) {
        let book = match random.below(4) {
            0 => whole(random, &self.seen.layouts.concat()),
            _ => lent_book(random, &self.seen.layouts),
        };
        commands.push(Command::octets(b'B', &book.octets));
        for _ in 0..random.between(1, 4) {
            let mut visit = Visit { used: book.used, ..self.some_visit(random) };
            if random.one_in(8) {
                visit.rows = odd_rows(random, visit.rows);
            }
            if random.one_in(8) {
                visit.place = odd_place(random, self.document);
            }
            if random.one_in(2) {
                self.questions(random, &visit, commands);
            }
            commands.push(step(&visit));
        }
    }

    fn some_visit(&self, random: &mut Random) -> Visit {
        if !self.seen.visits.is_empty() && !random.one_in(8) {
            return random.pick(&self.seen.visits);
        }
        let place = match self.starts {
            [] => odd_place(random, self.document),
            starts => random.pick(starts) as u64,
        };
        Visit { place, rows: random.below(3) as u64, used: 0 }
    }

    /// Questions on what stands at the place, now and then on what does not.
    fn questions(&self, random: &mut Random, visit: &Visit, commands: &mut Vec<Command>) {
        let Visit { place, rows, used } = *visit;
        let letters: &[u8] = match element::kind(self.document, place) {
            _ if random.one_in(5) => b"fya",
            Ok(Kind::Row) => b"ff",
            Ok(Kind::Layout) => b"yaa",
            _ => b"fya",
        };
        for letter in letters {
            let mut question = Command::numbers(*letter, &[place, rows, used]);
            if *letter != b'y' {
                question = question.and(Argument::Number(odd_n(random)));
            }
            commands.push(question);
        }
    }
}

fn step(visit: &Visit) -> Command {
    Command::numbers(b's', &[visit.place, visit.rows, visit.used])
}

fn odd_n(random: &mut Random) -> u64 {
    match random.below(6) {
        0 => random.pick(&[13, 63, 64, 65, 1 << 31, 1 << 32, 1 << 63, u64::MAX]),
        _ => random.below(6) as u64,
    }
}

fn odd_place(random: &mut Random, document: &[u8]) -> u64 {
    let size = document.len();
    match random.below(4) {
        0 => (size + random.below(3)) as u64,
        1 => size.saturating_sub(random.below(20)) as u64,
        2 => {
            random.pick(&[0, 4, 52, 1 << 20, 1 << 31, 0xffff_ffff, 1 << 32, 1 << 63, u64::MAX - 3, u64::MAX])
        }
        _ => random.below(size + 1) as u64,
    }
}

fn odd_rows(random: &mut Random, rows: u64) -> u64 {
    let most = limits::ROWS;
    match random.below(3) {
        0 => random.pick(&[most - 1, most, most, most + 1, 1 << 32, 1 << 63, u64::MAX]),
        1 => rows + (1 << random.pick(&[8, 20, 32])),
        _ => (rows + 1).saturating_sub(random.below(3) as u64),
    }
}

/// Strings of the header, each kind with an n about the end of its list.
fn texts(random: &mut Random, document: &[u8], commands: &mut Vec<Command>) {
    let (namespaces, services) = match header::read(document) {
        Ok(header) => (header.namespaces.items.len(), header.services.items.len()),
        Err(_) => (0, 0),
    };
    for (which, count) in [(0, 0), (1, 0), (2, namespaces), (3, namespaces), (4, services), (5, 0)] {
        if random.one_in(2) {
            let n = match random.below(4) {
                0 => odd_n(random),
                _ => random.below(count + 2) as u64,
            };
            commands.push(Command::numbers(b't', &[which, n]));
        }
    }
}
