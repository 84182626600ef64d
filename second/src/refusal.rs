//! A refusal: its number and its place, and nothing else.

#[derive(Clone, Copy, Debug, PartialEq, Eq)]
pub struct Refusal {
    pub number: u8,
    pub place: u64,
}

pub type Answer<T> = Result<T, Refusal>;

pub fn refuse<T>(number: u8, place: u64) -> Answer<T> {
    Err(Refusal { number, place })
}
