//! Our own stand-in for the crate `winnow`: only what the compared modules
//! name, only for `&str`, written from what the names promise. It is not
//! winnow and shares no code with it.

pub mod stream {
    use std::ops::Range;

    /// A text that remembers where it began, so that places can be told.
    #[derive(Clone, Copy, Debug)]
    pub struct LocatingSlice<I> {
        whole: I,
        rest: I,
    }

    impl<I: Copy> LocatingSlice<I> {
        pub fn new(whole: I) -> Self {
            LocatingSlice { whole, rest: whole }
        }
    }

    /// What has not been taken yet.
    impl<I> AsRef<I> for LocatingSlice<I> {
        fn as_ref(&self) -> &I {
            &self.rest
        }
    }

    pub trait Stream {
        type Slice;

        /// Takes the next `length` bytes. As with the original, a length past
        /// the end or inside a character is a panic.
        fn next_slice(&mut self, length: usize) -> Self::Slice;

        /// How many bytes are left.
        fn eof_offset(&self) -> usize;
    }

    impl<'i> Stream for LocatingSlice<&'i str> {
        type Slice = &'i str;

        fn next_slice(&mut self, length: usize) -> &'i str {
            let (taken, rest) = self.rest.split_at(length);
            self.rest = rest;
            taken
        }

        fn eof_offset(&self) -> usize {
            self.rest.len()
        }
    }

    pub trait Location {
        /// The place of the next byte, counted from the start of the whole.
        fn current_token_start(&self) -> usize;
    }

    impl Location for LocatingSlice<&str> {
        fn current_token_start(&self) -> usize {
            self.rest.offset_from(&self.whole)
        }
    }

    pub trait Offset {
        /// How many bytes `self` begins after `start`; both lie in one text.
        fn offset_from(&self, start: &Self) -> usize;
    }

    impl Offset for &str {
        fn offset_from(&self, start: &Self) -> usize {
            let (here, origin) = (self.as_ptr().addr(), start.as_ptr().addr());
            debug_assert!(origin <= here, "the slice begins before its origin");
            here - origin
        }
    }

    pub trait FindSlice<T> {
        /// The first place of `wanted` in what is left, counted from there.
        fn find_slice(&self, wanted: T) -> Option<Range<usize>>;
    }

    impl FindSlice<&str> for LocatingSlice<&str> {
        // Looks for the first byte and compares the rest on each hit: plain,
        // and linear in the text for what the frontmatter looks for. The real
        // search may be faster, so times made with this one are only a guide.
        fn find_slice(&self, wanted: &str) -> Option<Range<usize>> {
            let (text, wanted) = (self.rest.as_bytes(), wanted.as_bytes());
            let Some(&first) = wanted.first() else {
                return Some(0..0);
            };
            let starts = (0..text.len()).filter(|&at| text[at] == first);
            starts
                .map(|at| at..at + wanted.len())
                .find(|range| text[range.start..].starts_with(wanted))
        }
    }
}

#[cfg(test)]
mod tests {
    use crate::stream::{FindSlice as _, LocatingSlice, Location as _, Offset as _, Stream as _};

    #[test]
    fn finds_from_the_current_place_on() {
        let mut input = LocatingSlice::new("a\n--\n---");
        assert_eq!(input.find_slice("\n"), Some(1..2));
        assert_eq!(input.next_slice(2), "a\n");
        assert_eq!(input.find_slice("\n"), Some(2..3));
        assert_eq!(input.find_slice("\n---"), Some(2..6));
        assert_eq!(input.find_slice("\n----"), None);
        assert_eq!(input.find_slice(""), Some(0..0));
        assert_eq!((input.current_token_start(), input.eof_offset()), (2, 6));
    }

    #[test]
    fn tells_byte_distances() {
        let whole = "é日x";
        assert_eq!((&whole[5..]).offset_from(&whole), 5);
    }
}
