//! Commands that are bad input for a probe.

use super::random::Random;
use crate::command::{stream, Argument, Command};

/// Arguments just outside what a probe takes, one of each kind.
pub fn fixed() -> Vec<Command> {
    let cut = |letter, octets: &[u8]| Command::new(letter).and(Argument::Raw(octets.to_vec()));
    vec![
        Command::new(b'\n'),
        Command::new(b'q'),
        Command::new(0),
        Command::new(0xff),
        Command::new(b'0'),
        Command::octets(b'D', &vec![0; 65_601]),
        Command::octets(b'B', &vec![0; 40_001]),
        Command::octets(b'W', &vec![0; 40_001]).and(Argument::Number(0)),
        Command::octets(b'1', &vec![0; 65_601]),
        Command::octets(b'n', &vec![0; 65_601]),
        Command::numbers(b'N', &[65_601]),
        Command::numbers(b'N', &[u64::MAX]),
        Command::numbers(b'S', &[16, 0, 0, 0, 0]),
        Command::numbers(b'S', &[1 << 32, 0, 0, 0, 0]),
        Command::numbers(b'4', &[1 << 32]),
        Command::numbers(b'7', &[1 << 32]),
        Command::numbers(b'c', &[1 << 63]),
        Command::numbers(b'k', &[1 << 32]),
        Command::numbers(b'u', &[u64::MAX]),
        Command::numbers(b'o', &[1 << 32, 0]),
        Command::numbers(b'o', &[1, 2]),
        Command::numbers(b'v', &[0x20, 0, 0]),
        Command::numbers(b'v', &[0x2e, 0, 0]),
        Command::numbers(b'v', &[0x122, 0, 0]),
        Command::numbers(b't', &[6, 0]),
        Command::numbers(b't', &[1 << 32, 0]),
        cut(b'D', &[]),
        cut(b'D', &[0; 7]),
        cut(b'D', &[0, 0, 0, 0, 0, 0, 0, 2, 9]),
        cut(b'D', &[0xff; 8]),
        cut(b's', &[0; 23]),
        cut(b's', &[]),
        cut(b'f', &[0; 31]),
        cut(b'P', &[0; 15]),
        cut(b'2', &[0; 7]),
    ]
}

/// A command that is cut short, or one of the fixed ones.
pub fn command(random: &mut Random, commands: &[Command]) -> Command {
    let long: Vec<&Command> = commands.iter().filter(|command| !command.arguments.is_empty()).collect();
    if long.is_empty() || random.one_in(3) {
        return random.pick(&fixed());
    }
    let whole = stream(&[random.pick(&long).clone()]);
    let size = random.between(1, (whole.len() - 1).min(60));
    Command::new(whole[0]).and(Argument::Raw(whole[1..size].to_vec()))
}
