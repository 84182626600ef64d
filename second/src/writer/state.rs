//! The writer's state, handed from call to call by value.

use crate::limits;

/// What the writer is to be given next, in image order.
#[derive(Clone, Copy, Debug, Default, PartialEq, Eq)]
pub enum Turn {
    #[default]
    Recorder,
    StartTime,
    DefaultNamespace,
    NamespaceCount,
    Uri,
    ShortName,
    ServiceCount,
    Service,
    DocumentId,
    Element,
    TypeName,
    AttributeCount,
    AttributeName,
    AttributeType,
    Value,
    Nothing,
}

pub const TURNS: [Turn; 16] = [
    Turn::Recorder,
    Turn::StartTime,
    Turn::DefaultNamespace,
    Turn::NamespaceCount,
    Turn::Uri,
    Turn::ShortName,
    Turn::ServiceCount,
    Turn::Service,
    Turn::DocumentId,
    Turn::Element,
    Turn::TypeName,
    Turn::AttributeCount,
    Turn::AttributeName,
    Turn::AttributeType,
    Turn::Value,
    Turn::Nothing,
];

/// The default is the fresh state.
#[derive(Clone, Copy, Debug, Default, PartialEq, Eq)]
pub struct State {
    pub turn: Turn,
    pub place: u64,
    /// In a list what is still to come of it, in an open layout the attributes
    /// still to come, in an open row the values given.
    pub count: u64,
    /// Where the open element begins.
    pub start: u64,
    /// Rows closed.
    pub rows: u64,
}

impl State {
    /// Whether the state keeps the limits and stays inside the room.
    pub fn is_sound(&self, room: u64) -> bool {
        self.place <= room
            && self.rows <= limits::ROWS
            && self.counts().contains(&self.count)
            && self.opening().is_none_or(|size| self.place.checked_sub(size) >= Some(self.start))
    }

    /// Octets that the opening call of the open element has put.
    pub fn opening(&self) -> Option<u64> {
        match self.turn {
            Turn::TypeName | Turn::AttributeCount | Turn::AttributeName | Turn::AttributeType => Some(8),
            Turn::Value => Some(12),
            _ => None,
        }
    }

    /// The counts this turn may have: where none is asked for, the greatest limit bounds it.
    fn counts(&self) -> std::ops::RangeInclusive<u64> {
        let (listed, attributes) = (limits::LISTED.into(), limits::ATTRIBUTES.into());
        match self.turn {
            Turn::Uri | Turn::ShortName | Turn::Service => 1..=listed,
            Turn::AttributeName | Turn::AttributeType => 1..=attributes,
            _ => 0..=attributes,
        }
    }
}

#[cfg(test)]
mod tests {
    use super::*;

    fn sound(turn: Turn, place: u64, count: u64, start: u64, rows: u64) -> bool {
        State { turn, place, count, start, rows }.is_sound(100)
    }

    #[test]
    fn turns_stand_in_image_order() {
        assert!(TURNS.iter().enumerate().all(|(number, turn)| *turn as usize == number));
    }

    #[test]
    fn places_and_starts() {
        assert!(sound(Turn::StartTime, 100, 0, u64::MAX, 0));
        assert!(!sound(Turn::StartTime, 101, 0, 0, 0));
        assert!(sound(Turn::TypeName, 50, 0, 42, 0));
        assert!(!sound(Turn::TypeName, 50, 0, 43, 0));
        assert!(!sound(Turn::TypeName, 50, 0, u64::MAX - 3, 0));
        assert!(!sound(Turn::AttributeType, 7, 1, 0, 0));
        assert!(sound(Turn::Value, 50, 0, 38, 0));
        assert!(!sound(Turn::Value, 50, 0, 39, 0));
        assert!(!sound(Turn::Value, 11, 0, 0, 0));
    }

    #[test]
    fn counts() {
        assert!(sound(Turn::Uri, 0, 16, 0, 0) && !sound(Turn::Uri, 0, 17, 0, 0));
        assert!(sound(Turn::Service, 0, 1, 0, 0) && !sound(Turn::Service, 0, 0, 0, 0));
        assert!(sound(Turn::AttributeName, 8, 64, 0, 0) && !sound(Turn::AttributeName, 8, 65, 0, 0));
        assert!(!sound(Turn::AttributeType, 8, 0, 0, 0));
        assert!(sound(Turn::Value, 12, 64, 0, 0) && !sound(Turn::Value, 12, 65, 0, 0));
        assert!(sound(Turn::Element, 0, 64, 0, 1_048_576) && !sound(Turn::Element, 0, 65, 0, 0));
        assert!(!sound(Turn::Element, 0, 0, 0, 1_048_577));
    }
}
