//! The answer to one command, and a run of commands.

use super::input::Input;

pub enum Reply {
    Silent,
    Line(String),
}

/// Runs commands until the stream ends or one of them is bad input.
pub fn run(input: &[u8], mut command: impl FnMut(u8, &mut Input) -> Option<Reply>) -> String {
    let mut input = Input::new(input);
    let mut text = String::new();
    while !input.is_empty() {
        match input.letter().and_then(|letter| command(letter, &mut input)) {
            Some(Reply::Silent) => {}
            Some(Reply::Line(line)) => {
                text += &line;
                text.push('\n');
            }
            None => {
                text += "bad input\n";
                break;
            }
        }
    }
    text
}
