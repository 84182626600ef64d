//! The places where a reading of a document stands before each element.

use crate::element::Element;
use crate::header;
use crate::reading::Reading;

/// What a step would be given for one element.
#[derive(Clone, Copy, Debug, PartialEq, Eq)]
pub struct Visit {
    pub place: u64,
    pub rows: u64,
    pub used: u64,
}

#[derive(Clone, Debug, Default)]
pub struct Visits {
    /// Every visit up to the end or the refusal, that one included.
    pub visits: Vec<Visit>,
    /// The layouts of the final book, each as a book holds it.
    pub layouts: Vec<Vec<u8>>,
}

/// Follows a reading; nothing is visited where the header is refused.
pub fn visits(document: &[u8]) -> Visits {
    let mut all = Visits::default();
    let Ok(header) = header::read(document) else {
        return all;
    };
    let mut reading = Reading::from(document, header.next);
    loop {
        let (place, rows, used) = (reading.place, reading.rows, reading.book().used() as u64);
        all.visits.push(Visit { place, rows, used });
        match reading.element() {
            Ok(Element::End(_)) | Err(_) => break,
            Ok(_) => {}
        }
    }
    all.layouts = reading.book().layouts().iter().map(|layout| layout.octets.to_vec()).collect();
    all
}
