//! The flags of the comparison.

use std::path::PathBuf;

#[derive(Clone, Debug, PartialEq, Eq)]
pub struct Flags {
    pub count: u64,
    pub seed: u64,
    /// The repository: programs not named are taken from its target folder,
    /// and the first difference is saved there.
    pub root: PathBuf,
    /// The words that stand before a program to start it, if any.
    pub start: Vec<String>,
    pub listing: Option<PathBuf>,
    pub probe: Option<PathBuf>,
    pub c_probe: Option<PathBuf>,
    pub writing: bool,
    pub questions: bool,
}

impl Flags {
    /// The flags that the words say, or what is wrong with them.
    pub fn of(words: &[&str]) -> Result<Flags, String> {
        let mut flags = Flags {
            count: 2000,
            seed: 1,
            root: PathBuf::from("."),
            start: Vec::new(),
            listing: None,
            probe: None,
            c_probe: None,
            writing: true,
            questions: true,
        };
        let mut words = words.iter();
        while let Some(word) = words.next() {
            let mut next = || words.next().ok_or(format!("{word} needs an argument"));
            match *word {
                "--count" => flags.count = number(next()?)?,
                "--seed" => flags.seed = number(next()?)?,
                "--root" => flags.root = PathBuf::from(next()?),
                "--start" => flags.start = next()?.lines().map(String::from).collect(),
                "--listing" => flags.listing = Some(PathBuf::from(next()?)),
                "--probe" => flags.probe = Some(PathBuf::from(next()?)),
                "--c-probe" => flags.c_probe = Some(PathBuf::from(next()?)),
                "--no-writing" => flags.writing = false,
                "--no-questions" => flags.questions = false,
                _ => return Err(format!("unknown flag {word}")),
            }
        }
        if flags.listing.is_none() && flags.probe.is_none() && flags.c_probe.is_none() {
            flags.take_all();
        }
        Ok(flags)
    }

    fn take_all(&mut self) {
        let target = self.root.join("target");
        self.listing = Some(target.join("bin/listing"));
        self.probe = Some(target.join("bin/probe"));
        self.c_probe = Some(target.join("c/probe"));
    }
}

fn number(word: &str) -> Result<u64, String> {
    word.parse().map_err(|_| format!("{word} is not a number"))
}

#[cfg(test)]
mod tests {
    use super::Flags;
    use std::path::PathBuf;

    #[test]
    fn all_three_programs_where_none_is_named() {
        let flags = Flags::of(&["--root", "r", "--count", "7"]).unwrap();
        assert_eq!(flags.count, 7);
        assert_eq!(flags.listing, Some(PathBuf::from("r/target/bin/listing")));
        assert_eq!(flags.probe, Some(PathBuf::from("r/target/bin/probe")));
        assert_eq!(flags.c_probe, Some(PathBuf::from("r/target/c/probe")));
    }

    #[test]
    fn only_the_one_named() {
        let flags = Flags::of(&["--probe", "p", "--no-writing", "--seed", "9"]).unwrap();
        assert_eq!(flags.probe, Some(PathBuf::from("p")));
        assert_eq!((flags.listing, flags.c_probe), (None, None));
        assert_eq!((flags.writing, flags.questions, flags.seed), (false, true, 9));
    }

    #[test]
    fn wrong_flags() {
        assert!(Flags::of(&["--count"]).is_err());
        assert!(Flags::of(&["--count", "many"]).is_err());
        assert!(Flags::of(&["--fast"]).is_err());
    }
}
