//! Buffers at chosen places within a page.

use std::ops::{Deref, DerefMut, Range};

/// Two buffers whose places differ by a multiple of this can slow each other
/// down: processors first compare only the lower bits of addresses.
const PAGE: usize = 4096;

/// A buffer that begins so many bytes after the begin of a page. So it lies
/// alike in every run, and no run is slower than another by where its
/// buffers came to lie.
pub struct Placed<T> {
    items: Vec<T>,
    lent: Range<usize>,
}

impl<T: Copy> Placed<T> {
    /// So many items, all the same. The place is a multiple of an item's
    /// length, as is the address of the vector.
    pub fn new(place: usize, length: usize, item: T) -> Placed<T> {
        let each = size_of::<T>();
        let items = vec![item; length + 2 * PAGE / each];
        let address = items.as_ptr().addr();
        let first = (address.next_multiple_of(PAGE) + place - address) / each;
        Placed {
            items,
            lent: first..first + length,
        }
    }

    /// Has only these of the items from now on, where they are.
    pub fn narrow(&mut self, part: Range<usize>) {
        let first = self.lent.start;
        self.lent = first + part.start..first + part.end;
    }
}

impl<T> Deref for Placed<T> {
    type Target = [T];

    fn deref(&self) -> &[T] {
        &self.items[self.lent.clone()]
    }
}

impl<T> DerefMut for Placed<T> {
    fn deref_mut(&mut self) -> &mut [T] {
        &mut self.items[self.lent.clone()]
    }
}

#[cfg(test)]
mod tests {
    use super::*;

    #[test]
    fn begins_where_it_is_told() {
        for place in [0, 0x600, PAGE - 64] {
            let numbers = Placed::new(place, 32, 7u64);
            assert_eq!(numbers.as_ptr().addr() % PAGE, place);
            assert_eq!(numbers[..], [7; 32]);
        }
    }

    #[test]
    fn narrows_in_its_place() {
        let mut bytes = Placed::new(64, 5, 0u8);
        bytes.copy_from_slice(b"abcde");
        let address = bytes.as_ptr().addr();
        bytes.narrow(1..4);
        assert_eq!(bytes[..], *b"bcd");
        bytes.narrow(1..3);
        assert_eq!(bytes[..], *b"cd");
        assert_eq!(bytes.as_ptr().addr(), address + 2);
    }
}
