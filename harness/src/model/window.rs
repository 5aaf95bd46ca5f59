//! The transfer window: its sizes, the table of distances and the rows of transfer numbers.

use std::fmt;

use super::receiver::CELL;

/// How many transfers a receiver keeps at a time, set at its start.
#[derive(Clone, Copy, Debug, PartialEq, Eq)]
pub enum Window {
    Four = 4,
    Eight = 8,
    Sixteen = 16,
}

/// Rows of the greatest window, for which every image has room.
pub const MAX_ROWS: usize = Window::Sixteen.rows();

/// The rows of the paper's window table.
#[derive(Clone, Copy, Debug, PartialEq, Eq)]
pub enum Distance {
    First,
    Same,
    New,
    Outside,
    Behind,
}

impl Window {
    pub const ALL: [Window; 3] = [Window::Four, Window::Eight, Window::Sixteen];
    /// What a plain start means.
    pub const PLAIN: Window = Window::Eight;
    /// What a playback asks for.
    pub const PLAYBACK: Window = Window::Sixteen;

    /// Nothing for a number that is no window.
    pub const fn of_number(number: u32) -> Option<Window> {
        match number {
            4 => Some(Window::Four),
            8 => Some(Window::Eight),
            16 => Some(Window::Sixteen),
            _ => None,
        }
    }

    pub const fn number(self) -> u32 {
        self as u32
    }

    /// How an image says it.
    pub const fn octet(self) -> u8 {
        self as u8
    }

    /// There are as many as the window says.
    pub const fn rows(self) -> usize {
        self as usize
    }

    /// Octets of its pool.
    pub const fn pool(self) -> usize {
        CELL * self.rows()
    }

    /// The row of a transfer number: the number modulo the window, which is a power of two.
    pub const fn row_of(self, number: u32) -> usize {
        (number & (self.number() - 1)) as usize
    }

    /// The window table for a number `difference` ahead of the greatest, modulo 2^32.
    pub const fn distance(self, difference: u32) -> Distance {
        let behind = difference.wrapping_neg();
        if difference == 0 {
            Distance::Same
        } else if difference <= 2_147_483_647 + self.number() / 2 {
            Distance::New
        } else if behind < self.number() {
            Distance::Behind
        } else {
            Distance::Outside
        }
    }
}

impl fmt::Display for Window {
    fn fmt(&self, to: &mut fmt::Formatter) -> fmt::Result {
        write!(to, "window {}", self.number())
    }
}
