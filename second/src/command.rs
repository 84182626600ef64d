//! A command for a probe, as it is generated, sent and shown.

use crate::hex;

#[derive(Clone, Debug, PartialEq, Eq)]
pub enum Argument {
    Number(u64),
    Octets(Vec<u8>),
    /// Octets sent as they are, to make a stream that is cut.
    Raw(Vec<u8>),
}

#[derive(Clone, Debug, PartialEq, Eq)]
pub struct Command {
    pub letter: u8,
    pub arguments: Vec<Argument>,
}

impl Command {
    pub fn new(letter: u8) -> Self {
        Command { letter, arguments: Vec::new() }
    }

    pub fn numbers(letter: u8, numbers: &[u64]) -> Self {
        Command { letter, arguments: numbers.iter().map(|number| Argument::Number(*number)).collect() }
    }

    pub fn octets(letter: u8, octets: &[u8]) -> Self {
        Command::new(letter).and(Argument::Octets(octets.to_vec()))
    }

    pub fn and(mut self, argument: Argument) -> Self {
        self.arguments.push(argument);
        self
    }

    /// Whether the probe prints no line for it.
    pub fn is_silent(&self) -> bool {
        b"DBNWSP".contains(&self.letter)
    }

    pub fn encode(&self, stream: &mut Vec<u8>) {
        stream.push(self.letter);
        for argument in &self.arguments {
            match argument {
                Argument::Number(number) => stream.extend(number.to_be_bytes()),
                Argument::Octets(octets) => {
                    stream.extend((octets.len() as u64).to_be_bytes());
                    stream.extend(octets);
                }
                Argument::Raw(octets) => stream.extend(octets),
            }
        }
    }

    /// The letter, numbers in decimal, octets in hex cut to a readable length.
    pub fn readable(&self) -> String {
        let mut text = char::from(self.letter).escape_default().to_string();
        for argument in &self.arguments {
            text += &match argument {
                Argument::Number(number) => format!(" {number}"),
                Argument::Octets(octets) => format!(" [{}: {}]", octets.len(), shortened(octets)),
                Argument::Raw(octets) => format!(" raw {}", shortened(octets)),
            };
        }
        text
    }
}

fn shortened(octets: &[u8]) -> String {
    const MOST: usize = 160;
    match octets.get(..MOST) {
        Some(first) => format!("{}…", hex::digits(first)),
        None => hex::word(octets),
    }
}

/// The stream of some commands.
pub fn stream(commands: &[Command]) -> Vec<u8> {
    let mut stream = Vec::new();
    for command in commands {
        command.encode(&mut stream);
    }
    stream
}

#[cfg(test)]
mod tests {
    use super::*;

    #[test]
    fn arguments_are_numbers_of_eight_octets_and_led_octets() {
        let command = Command::octets(b'P', b"xy").and(Argument::Number(258));
        assert_eq!(stream(&[command]), b"P\0\0\0\0\0\0\0\x02xy\0\0\0\0\0\0\x01\x02");
    }

    #[test]
    fn readable_form() {
        assert_eq!(Command::numbers(b's', &[52, 0, u64::MAX]).readable(), "s 52 0 18446744073709551615");
        assert_eq!(Command::octets(b'D', &[1, 0xab]).readable(), "D [2: 01ab]");
        assert_eq!(Command::octets(b'D', &[]).readable(), "D [0: -]");
        assert_eq!(Command::new(b'\n').readable(), "\\n");
    }
}
