//! Input of any kind gets an answer.

use second::command::{stream, Argument, Command};
use second::generate::field::BORDERS32;
use second::generate::random::Random;
use second::listing::list;
use second::probe;

fn number(random: &mut Random) -> u64 {
    match random.below(4) {
        0 => random.pick(&BORDERS32).into(),
        1 => random.below(200) as u64,
        2 => u64::MAX - random.below(70) as u64,
        _ => random.draw(),
    }
}

/// A command of any letter, with arguments of its form but of any value.
fn command(random: &mut Random) -> Command {
    let letter = random.pick(b"DBhwsfyatNWSP123456789kmcnuovxzei");
    let size = random.below(80);
    let octets = Argument::Octets(random.octets(size));
    let numbers = |random: &mut Random, count| {
        let numbers: Vec<u64> = (0..count).map(|_| number(random)).collect();
        Command::numbers(letter, &numbers)
    };
    match letter {
        b's' | b'y' => numbers(random, 3),
        b'f' | b'a' => numbers(random, 4),
        b't' => Command::numbers(letter, &[random.below(6) as u64, number(random)]),
        b'N' => Command::numbers(letter, &[random.below(300) as u64]),
        b'S' => {
            let turn = Argument::Number(random.below(16) as u64);
            let mut command = numbers(random, 4);
            command.arguments.insert(0, turn);
            command
        }
        b'P' => numbers(random, 1).and(octets),
        b'W' => Command::octets(letter, &vec![0; 32_768]).and(Argument::Number(number(random))),
        b'4' | b'7' | b'c' | b'k' | b'u' => Command::numbers(letter, &[number(random) >> 32]),
        b'o' => Command::numbers(letter, &[number(random) >> 32, random.below(2) as u64]),
        b'v' => Command::numbers(letter, &[random.between(0x21, 0x2d) as u64, number(random)]).and(octets),
        b'2' | b'e' => numbers(random, 1),
        b'h' | b'w' | b'x' | b'z' | b'i' => Command::new(letter),
        _ => Command::new(letter).and(octets),
    }
}

#[test]
fn commands_of_any_value_are_all_answered() {
    for index in 0..300 {
        let mut random = Random::of(21, index);
        let commands: Vec<Command> = (0..60).map(|_| command(&mut random)).collect();
        let asking = commands.iter().filter(|command| !command.is_silent()).count();
        let text = probe::run(&stream(&commands));
        assert!(!text.contains("bad input"), "case {index}");
        assert_eq!(text.lines().count(), asking, "case {index}");
    }
}

#[test]
fn octets_of_any_value_are_answered() {
    let mut bad = 0;
    for index in 0..3000 {
        let mut random = Random::of(22, index);
        let size = random.between(20, 200);
        let mut octets = random.octets(size);
        assert!(list(&octets).ends_with('\n'));
        octets.insert(0, random.pick(b"DBhwsfyatNWSP123456789kmcnuovxzei"));
        bad += usize::from(probe::run(&octets).ends_with("bad input\n"));
        bad += usize::from(probe::c::run(&octets).ends_with("bad input\n"));
        octets.splice(0..1, [0, 0, 0, 4, 0, 0, 0, 0]);
        assert!(list(&octets).lines().last().unwrap().starts_with("refused "), "case {index}");
    }
    // A few of them are whole commands by chance.
    assert!(bad > 5900, "{bad} of 6000");
}
