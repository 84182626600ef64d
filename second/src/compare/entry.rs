//! A case as it is given to one program, with the name it is shown by.

use crate::command::Command;

#[derive(Clone, Debug)]
pub struct Entry {
    pub label: String,
    pub commands: Vec<Command>,
    /// Whether the last command is bad input, which ends a run: such an entry
    /// is run alone.
    pub bad: bool,
}

impl Entry {
    pub fn good(label: String, commands: Vec<Command>) -> Self {
        Entry { label, commands, bad: false }
    }

    /// The same entry with those commands only that are wanted. The last one
    /// of bad input stays: it is bad for a program that lacks its letter too.
    pub fn only(&self, wanted: impl Fn(u8) -> bool) -> Entry {
        let last = self.commands.len().saturating_sub(1);
        let stays = |index: usize, letter| wanted(letter) || (self.bad && index == last);
        let commands = self.commands.iter().enumerate();
        let commands = commands.filter(|(index, command)| stays(*index, command.letter));
        Entry { commands: commands.map(|(_, command)| command.clone()).collect(), ..self.clone() }
    }

    /// For each line expected, the index of the command that prints it.
    pub fn lines(&self) -> Vec<usize> {
        let last = self.commands.len().checked_sub(1);
        let prints = |index: &usize| !self.commands[*index].is_silent() || (self.bad && Some(*index) == last);
        (0..self.commands.len()).filter(prints).collect()
    }

    /// The command and the last silent one of each letter before it, readable.
    pub fn shown(&self, index: usize) -> String {
        let mut text = String::new();
        for letter in b"DBNWSP" {
            let before = &self.commands[..index];
            if let Some(command) = before.iter().rfind(|command| command.letter == *letter) {
                text += &format!("  given   {}\n", command.readable());
            }
        }
        text + &format!("  command {}\n", self.commands[index].readable())
    }
}
