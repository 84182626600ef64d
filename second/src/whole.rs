//! The whole check: the rows of a document, or the refusal of its reading.

use crate::element::Element;
use crate::header;
use crate::reading::Reading;
use crate::refusal::Answer;

pub fn whole_check(document: &[u8]) -> Answer<u64> {
    let header = header::read(document)?;
    let mut reading = Reading::from(document, header.next);
    loop {
        if let Element::End(_) = reading.element()? {
            return Ok(reading.rows);
        }
    }
}
