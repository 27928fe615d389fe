//! Which tiles are held, and what that leaves of the others.

use crate::paint::{terminal_colour, Style};
use crate::tile::{Tile, ELEMENT_BYTES};

/// The tiles that exist among those that a kernel holds, and the one that it was given.
pub struct Room {
    pub held: Vec<Tile>,
    pub new: Option<Tile>,
    /// The one that it has given up.
    pub given_up: Option<Tile>,
    pub vector_bytes: usize,
}

/// What a tile is to the kernel.
#[derive(Clone, Copy, Debug, PartialEq)]
pub enum Status {
    Held,
    New,
    Free,
    /// Free because it was given up.
    GivenUp,
    /// Neither held nor free.
    Shares,
    /// Held, and so is another that it shares bytes with.
    Clash,
}

impl Room {
    pub fn status(&self, tile: Tile) -> Status {
        let taken = self.held.iter().chain(&self.new);
        let sharing: Vec<&Tile> = taken.filter(|other| other.shares(tile)).collect();
        match sharing.as_slice() {
            [] if self.given_up == Some(tile) => Status::GivenUp,
            [] => Status::Free,
            [one] if **one != tile => Status::Shares,
            [_] if self.new == Some(tile) => Status::New,
            [_] => Status::Held,
            many if many.contains(&&tile) => Status::Clash,
            _ => Status::Shares,
        }
    }

    /// The ones that occur.
    pub fn statuses(&self) -> Vec<Status> {
        let occurs = |&status: &Status| {
            let numbers = |size| self.numbers(status, size);
            ELEMENT_BYTES
                .into_iter()
                .any(|size| !numbers(size).is_empty())
        };
        Status::ALL.into_iter().filter(occurs).collect()
    }

    /// The numbers of the tiles of an element size that are of one status.
    pub fn numbers(&self, status: Status, element_bytes: usize) -> Vec<usize> {
        // The first vectors belong to the tiles in order.
        let tile = |number: &usize| Tile::holding(*number, element_bytes, self.vector_bytes);
        (0..element_bytes)
            .filter(|number| self.status(tile(number)) == status)
            .collect()
    }
}

impl Status {
    pub const ALL: [Status; 6] = [
        Status::Held,
        Status::New,
        Status::GivenUp,
        Status::Free,
        Status::Shares,
        Status::Clash,
    ];

    /// What stands in the cells of such a tile. Most tiles are neither held nor free, so these have
    /// the least to read.
    pub fn mark(self) -> &'static str {
        match self {
            Status::Held => "held",
            Status::New => "new",
            Status::GivenUp => "given",
            Status::Free => "free",
            Status::Shares => "-",
            Status::Clash => "clash",
        }
    }

    pub fn meaning(self) -> &'static str {
        match self {
            Status::Held => "a held tile",
            Status::New => "the new tile",
            Status::GivenUp => "the tile that was given up",
            Status::Free => "shares no byte with a held or new tile",
            Status::Shares => "shares bytes with a held or new tile",
            Status::Clash => "held, and shares bytes with another held tile",
        }
    }

    /// Its colour, red, green and blue.
    pub fn colour(self) -> [u8; 3] {
        match self {
            Status::Held => [158, 197, 242],
            Status::New => [163, 224, 150],
            Status::GivenUp => [250, 226, 150],
            Status::Free => [255, 255, 255],
            Status::Shares => [232, 233, 237],
            Status::Clash => [245, 176, 160],
        }
    }

    pub fn style(self) -> Style {
        match self {
            Status::Free => Style::Heading,
            Status::Shares => Style::Faint,
            _ => Style::On(terminal_colour(self.colour())),
        }
    }
}

#[cfg(test)]
mod tests {
    use super::*;

    fn tile(element_bytes: usize, number: usize) -> Tile {
        Tile::holding(number, element_bytes, 16)
    }

    #[test]
    fn a_tile_has_one_status() {
        let room = Room {
            held: vec![tile(2, 0), tile(8, 3)],
            new: Some(tile(4, 1)),
            given_up: None,
            vector_bytes: 16,
        };
        for (tile, expected) in [
            (tile(2, 0), Status::Held),
            (tile(8, 3), Status::Held),
            (tile(4, 1), Status::New),
            (tile(1, 0), Status::Shares),
            (tile(4, 0), Status::Shares),
            (tile(4, 3), Status::Shares),
            (tile(16, 11), Status::Shares),
            (tile(8, 7), Status::Free),
            (tile(16, 15), Status::Free),
        ] {
            assert_eq!(room.status(tile), expected, "{tile:?}");
        }
        assert_eq!(room.numbers(Status::Free, 16), [7, 15]);
        assert_eq!(room.numbers(Status::Shares, 4), [0, 2, 3]);
        assert_eq!(
            room.statuses(),
            [Status::Held, Status::New, Status::Free, Status::Shares]
        );
    }

    #[test]
    fn held_tiles_that_share_bytes_clash() {
        let room = Room {
            held: vec![tile(8, 3), tile(4, 3), tile(16, 0), tile(16, 0), tile(8, 1)],
            new: None,
            given_up: None,
            vector_bytes: 16,
        };
        for (tile, expected) in [
            (tile(8, 3), Status::Clash),
            (tile(4, 3), Status::Clash),
            (tile(16, 0), Status::Clash),
            (tile(8, 1), Status::Held),
            (tile(16, 3), Status::Shares),
            (tile(8, 7), Status::Shares),
            (tile(4, 2), Status::Free),
        ] {
            assert_eq!(room.status(tile), expected, "{tile:?}");
        }
    }
}
