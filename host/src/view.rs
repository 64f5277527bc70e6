//! What an accepted message holds.

use crate::MAX_SECTIONS;
use std::fmt;
use std::ops::Range;

/// How many numbers the library writes for a view.
pub const VIEW_NUMBERS: usize = 5 + 6 * MAX_SECTIONS;

/// The numbers and sections of an accepted message. Places are counted in bytes
/// from the start of the message.
#[derive(Clone, Copy, PartialEq, Eq)]
pub struct View {
    /// The message's length in bytes.
    pub length: usize,
    /// The header's requestID.
    pub request_id: i32,
    /// The header's responseTo.
    pub response_to: i32,
    /// The flag word, kept to the bits that the edition knows.
    pub flags: u32,
    /// The number of elements at all levels of all documents.
    pub elements: usize,
    /// How many sections there are, and which of them is the body.
    used: usize,
    body: usize,
    entries: [Entry; MAX_SECTIONS],
}

/// One section of a message.
#[derive(Clone, Debug, PartialEq, Eq)]
pub enum Section {
    /// The body: where its BSON document stands.
    Body(Range<usize>),
    /// A document sequence.
    Sequence(Sequence),
}

/// One document sequence of a message.
#[derive(Clone, Debug, PartialEq, Eq)]
pub struct Sequence {
    /// Where the identifier stands, without its zero byte.
    pub identifier: Range<usize>,
    /// Where its documents stand, back to back.
    pub documents: Range<usize>,
    /// The number of its documents.
    pub count: usize,
}

/// The numbers of a section; all are 0 where there is none.
#[derive(Clone, Copy, Default, PartialEq, Eq)]
struct Entry {
    identifier_start: usize,
    identifier_length: usize,
    start: usize,
    length: usize,
    documents: usize,
}

/// What the library writes first for a section: a body, or none.
const BODY: i64 = 0;
const NONE: i64 = -1;

impl View {
    /// The sections in message order: the body once, and all sequences.
    pub fn sections(&self) -> impl DoubleEndedIterator<Item = Section> + ExactSizeIterator + '_ {
        (0..self.used).map(|index| {
            if index == self.body {
                Section::Body(self.body())
            } else {
                Section::Sequence(self.entries[index].sequence())
            }
        })
    }

    /// The body's range in the message.
    pub fn body(&self) -> Range<usize> {
        self.entries[self.body].part()
    }

    /// How many sequences stand before the body. [`crate::move_body`] behind so
    /// many leaves it where it is.
    pub fn behind(&self) -> u32 {
        self.body as u32
    }

    /// The sequences in message order.
    pub fn sequences(&self) -> impl DoubleEndedIterator<Item = Sequence> + ExactSizeIterator + '_ {
        // All sections but one, which is passed over.
        (1..self.used).map(|index| {
            let place = if index <= self.body { index - 1 } else { index };
            self.entries[place].sequence()
        })
    }

    /// The view that the library's numbers stand for.
    pub(crate) fn from_numbers(numbers: &[i64; VIEW_NUMBERS]) -> View {
        let mut view = View {
            length: numbers[0] as usize,
            request_id: numbers[1] as i32,
            response_to: numbers[2] as i32,
            flags: numbers[3] as u32,
            elements: numbers[4] as usize,
            used: 0,
            body: 0,
            entries: [Entry::default(); MAX_SECTIONS],
        };
        let sixes = numbers[5..].chunks_exact(6);
        for six in sixes.take_while(|six| six[0] != NONE) {
            if six[0] == BODY {
                view.body = view.used;
            }
            view.entries[view.used] = Entry::from_numbers(six);
            view.used += 1;
        }
        view
    }
}

impl fmt::Debug for View {
    fn fmt(&self, f: &mut fmt::Formatter<'_>) -> fmt::Result {
        let sections: Vec<Section> = self.sections().collect();
        f.debug_struct("View")
            .field("length", &self.length)
            .field("request_id", &self.request_id)
            .field("response_to", &self.response_to)
            .field("flags", &self.flags)
            .field("elements", &self.elements)
            .field("sections", &sections)
            .finish()
    }
}

impl Entry {
    fn from_numbers(six: &[i64]) -> Entry {
        Entry {
            identifier_start: six[1] as usize,
            identifier_length: six[2] as usize,
            start: six[3] as usize,
            length: six[4] as usize,
            documents: six[5] as usize,
        }
    }

    fn part(&self) -> Range<usize> {
        self.start..self.start + self.length
    }

    fn sequence(&self) -> Sequence {
        Sequence {
            identifier: self.identifier_start..self.identifier_start + self.identifier_length,
            documents: self.part(),
            count: self.documents,
        }
    }
}

#[cfg(test)]
mod tests {
    use super::*;

    /// A body that stands at this place among so many sequences.
    fn numbers(place: usize, sequences: usize) -> [i64; VIEW_NUMBERS] {
        let mut numbers = [0; VIEW_NUMBERS];
        for (index, six) in numbers[5..].chunks_exact_mut(6).enumerate() {
            let at = 100 * (index as i64 + 1);
            if index == place {
                six.copy_from_slice(&[0, 0, 0, at + 1, 15, 0]);
            } else if index <= sequences {
                six.copy_from_slice(&[1, at + 5, 2, at + 8, 5 * index as i64, index as i64]);
            } else {
                six[0] = -1;
            }
        }
        numbers
    }

    #[test]
    fn the_numbers_stand_in_order() {
        let mut numbers = numbers(1, 2);
        numbers[..5].copy_from_slice(&[400, -1, i32::MIN as i64, 0xFFFF_FFFF, 9]);
        let view = View::from_numbers(&numbers);
        assert_eq!((view.length, view.elements), (400, 9));
        assert_eq!((view.request_id, view.response_to), (-1, i32::MIN));
        assert_eq!(view.flags, 0xFFFF_FFFF);
        assert_eq!((view.body(), view.behind()), (201..216, 1));
        let first = Sequence {
            identifier: 105..107,
            documents: 108..108,
            count: 0,
        };
        let last = Sequence {
            identifier: 305..307,
            documents: 308..318,
            count: 2,
        };
        let sections = [
            Section::Sequence(first.clone()),
            Section::Body(201..216),
            Section::Sequence(last.clone()),
        ];
        assert!(view.sections().eq(sections.clone()));
        assert!(view.sections().rev().eq(sections.into_iter().rev()));
        assert!(view.sequences().eq([first.clone(), last.clone()]));
        assert!(view.sequences().rev().eq([last, first]));
    }

    #[test]
    fn the_body_stands_at_every_place() {
        for sequences in 0..MAX_SECTIONS {
            for place in 0..=sequences {
                let view = View::from_numbers(&numbers(place, sequences));
                assert_eq!(view.behind() as usize, place);
                assert_eq!(view.sections().len(), sequences + 1);
                assert_eq!(view.sequences().len(), sequences);
                let bodies: Vec<bool> = view
                    .sections()
                    .map(|section| section == Section::Body(view.body()))
                    .collect();
                let expected: Vec<bool> = (0..=sequences).map(|index| index == place).collect();
                assert_eq!(bodies, expected);
                let counts: Vec<usize> = view.sequences().map(|sequence| sequence.count).collect();
                let expected: Vec<usize> =
                    (0..=sequences).filter(|&index| index != place).collect();
                assert_eq!(counts, expected);
            }
        }
    }

    #[test]
    fn a_view_shows_its_sections() {
        let view = View::from_numbers(&numbers(0, 0));
        assert_eq!(
            format!("{view:?}"),
            "View { length: 0, request_id: 0, response_to: 0, flags: 0, elements: 0, \
             sections: [Body(101..116)] }"
        );
    }
}
