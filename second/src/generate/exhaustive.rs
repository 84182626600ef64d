//! Small changes of a document, all of them.

use crate::command::Command;

/// The whole check of every beginning of the document.
pub fn every_cut(document: &[u8]) -> Vec<Command> {
    (0..document.len()).flat_map(|size| whole_check(&document[..size])).collect()
}

/// The whole check of the document with each octet changed in some ways.
pub fn every_octet(document: &[u8]) -> Vec<Command> {
    let mut commands = Vec::new();
    for place in 0..document.len() {
        let was = document[place];
        for octet in [0, 1, 2, 0xff, was ^ 0x80, was.wrapping_add(1), was.wrapping_sub(1)] {
            let mut changed = document.to_vec();
            changed[place] = octet;
            commands.extend(whole_check(&changed));
        }
    }
    commands
}

fn whole_check(document: &[u8]) -> [Command; 2] {
    [Command::octets(b'D', document), Command::new(b'w')]
}
