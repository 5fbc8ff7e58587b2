//! How much room a writer is lent for a page: from nothing to more than
//! document 01's bound, and for which pages. By T-03 the page's own size alone
//! decides, so every length around it and around the bound has to be tried.

use crate::floats::Kind;
use crate::layout::{bound, vectors};
use crate::random::Random;
use crate::write::measure;

/// A lent length, beside the page's size and the bound.
#[derive(Clone, Copy, PartialEq, Eq, Debug)]
pub enum Room {
    Nothing,
    Short,
    OneShort,
    Page,
    Between,
    BoundLessOne,
    Bound,
    More,
}

pub const ROOMS: [Room; 8] = [
    Room::Nothing,
    Room::Short,
    Room::OneShort,
    Room::Page,
    Room::Between,
    Room::BoundLessOne,
    Room::Bound,
    Room::More,
];

/// The rooms that a page fits in.
pub const ENOUGH: [Room; 5] =
    [Room::Page, Room::Between, Room::BoundLessOne, Room::Bound, Room::More];

impl Room {
    pub fn text(self) -> &'static str {
        match self {
            Room::Nothing => "no room",
            Room::Short => "shorter by two bytes or more",
            Room::OneShort => "the page less a byte",
            Room::Page => "the page",
            Room::Between => "between page and bound",
            Room::BoundLessOne => "the bound less a byte",
            Room::Bound => "the bound",
            Room::More => "more than the bound",
        }
    }

    /// Which room a length is. For no values page and bound are one: then it
    /// is named by the page.
    fn of(length: usize, page: usize, bound: usize) -> Room {
        match length {
            0 => Room::Nothing,
            _ if length + 1 < page => Room::Short,
            _ if length < page => Room::OneShort,
            _ if length == page => Room::Page,
            _ if length + 1 < bound => Room::Between,
            _ if length < bound => Room::BoundLessOne,
            _ if length == bound => Room::Bound,
            _ => Room::More,
        }
    }

    /// A length of this room. A page of any values is at least four bytes
    /// below its bound, so that there is always something between.
    pub fn length(self, page: usize, bound: usize, random: &mut Random) -> usize {
        match self {
            Room::Nothing => 0,
            Room::Short => random.between(1, page - 2),
            Room::OneShort => page - 1,
            Room::Page => page,
            Room::Between => random.between(page + 1, bound - 2),
            Room::BoundLessOne => bound - 1,
            Room::Bound => bound,
            Room::More => bound + random.between(1, 100),
        }
    }
}

/// What a page is made of, as far as its size goes.
#[derive(Clone, Copy, PartialEq, Eq, Debug)]
pub enum Shape {
    NoVectors,
    OneVector,
    OneWithExceptions,
    ManyVectors,
    ManyWithExceptions,
}

pub const SHAPES: [Shape; 5] = [
    Shape::NoVectors,
    Shape::OneVector,
    Shape::OneWithExceptions,
    Shape::ManyVectors,
    Shape::ManyWithExceptions,
];

impl Shape {
    pub fn text(self) -> &'static str {
        match self {
            Shape::NoVectors => "no vectors",
            Shape::OneVector => "one vector",
            Shape::OneWithExceptions => "one, exceptions",
            Shape::ManyVectors => "many vectors",
            Shape::ManyWithExceptions => "many, exceptions",
        }
    }

    pub fn has_exceptions(self) -> bool {
        matches!(self, Shape::OneWithExceptions | Shape::ManyWithExceptions)
    }

    /// Whether a page of this shape can be lent that room: without values
    /// there is nothing between page and bound.
    pub fn takes(self, room: Room) -> bool {
        let apart = matches!(room, Room::Between | Room::BoundLessOne | Room::Bound);
        self != Shape::NoVectors || !apart
    }

    fn of(vectors: usize, exceptions: bool) -> Shape {
        match (vectors, exceptions) {
            (0, _) => Shape::NoVectors,
            (1, false) => Shape::OneVector,
            (1, true) => Shape::OneWithExceptions,
            (_, false) => Shape::ManyVectors,
            (_, true) => Shape::ManyWithExceptions,
        }
    }
}

/// The positions of a column's exceptions, for sound settings.
pub fn exceptions(kind: Kind, s: u8, values: &[u64], pairs: &[u8]) -> Vec<usize> {
    let is_exception = |i: &usize| {
        let pair = &pairs[2 * (i >> s)..];
        kind.whole(values[*i], pair[0].into(), pair[1].into()).is_none()
    };
    (0..values.len()).filter(is_exception).collect()
}

/// The shape of a column's page and the room of a lent length; nothing where
/// the settings have no page.
pub fn lent(
    kind: Kind,
    s: u8,
    values: &[u64],
    pairs: &[u8],
    length: usize,
) -> Option<(Shape, Room)> {
    let page = measure(kind, s, values, pairs).ok()?;
    let vectors = vectors(values.len(), s);
    let shape = Shape::of(vectors, !exceptions(kind, s, values, pairs).is_empty());
    Some((shape, Room::of(length, page, bound(kind, values.len(), vectors))))
}

#[cfg(test)]
mod tests {
    use super::*;

    #[test]
    fn each_length_is_of_its_room() {
        let mut random = Random::of_case(9, 0, 0);
        for (page, bound) in [(21, 25), (9_000, 65_536)] {
            for room in ROOMS {
                let length = room.length(page, bound, &mut random);
                assert_eq!(Room::of(length, page, bound), room);
                assert_eq!(length >= page, ENOUGH.contains(&room));
            }
        }
    }

    #[test]
    fn without_values_some_rooms_are_others() {
        let mut random = Random::of_case(9, 0, 0);
        for room in ROOMS {
            let length = room.length(8, 8, &mut random);
            assert_eq!(Room::of(length, 8, 8) == room, Shape::NoVectors.takes(room));
        }
    }
}
