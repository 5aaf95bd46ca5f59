//! Counts of the cases that calls with images of one draft and one window have reached.

use super::named;
use crate::compare::Received;
use crate::model::receiver::Phase;
use crate::model::{Distance, Window, MAX_ROWS};

const EDGES: [&str; 10] = [
    "0",
    "1",
    "window less one",
    "window",
    "window and one",
    "last new",
    "first outside",
    "last outside",
    "first behind",
    "1 behind",
];

/// Differences from the greatest number at the edges of a window's table.
pub const fn edges(window: Window) -> [u32; EDGES.len()] {
    let size = window.number();
    let last_new = 2_147_483_647 + size / 2;
    let last_outside = size.wrapping_neg();
    [
        0,
        1,
        size - 1,
        size,
        size + 1,
        last_new,
        last_new + 1,
        last_outside,
        last_outside + 1,
        u32::MAX,
    ]
}

/// Octets that are no window where an image says its window: 0, as it stood there before windows could be
/// chosen, and others.
pub const NO_WINDOWS: [u8; 14] = [0, 1, 2, 3, 5, 7, 9, 12, 15, 17, 20, 32, 128, 255];

/// Numbers that starts are tried with: windows, numbers near them, and such as would be windows if they were
/// cut to fewer bits or read from the other end.
pub const STARTED: [u32; 24] = [
    4,
    8,
    16,
    0,
    1,
    2,
    3,
    5,
    7,
    9,
    12,
    15,
    17,
    32,
    64,
    255,
    256 + 4,
    256 + 8,
    256 + 16,
    65_536 + 8,
    4 << 24,
    8 << 24,
    16 << 24,
    u32::MAX,
];

#[derive(Clone, Debug, Default, PartialEq, Eq)]
pub struct Windows {
    /// Fresh boards.
    pub started: u64,
    /// Images checked that are sound, and that are not.
    pub checked: [u64; 2],
    pub distances: [u64; 5],
    pub edges: [u64; EDGES.len()],
    /// New numbers beyond 4,294,967,295.
    wraps: u64,
    /// By row: one that was not Free, and whose number left the window.
    freed: [u64; MAX_ROWS],
    /// Images with something beyond the window: an Open row, another row, an octet.
    pub beyond: [u64; 3],
    /// Pools of each window's size that are refused, by single calls and by bursts.
    other_pools: [[u64; 3]; 2],
    finished: u64,
    plain_bundles: u64,
    transfers: u64,
    pub bursts: u64,
}

impl Windows {
    /// Counts a number's row of the table.
    pub fn distance(&mut self, window: Window, case: Distance, difference: u32, number: u32) {
        let place = match case {
            Distance::First => 0,
            Distance::Same => 1,
            Distance::New => 2,
            Distance::Outside => 3,
            Distance::Behind => 4,
        };
        self.distances[place] += 1;
        self.wraps += u64::from(case == Distance::New && number < difference);
        if case != Distance::First {
            for (count, edge) in self.edges.iter_mut().zip(edges(window)) {
                *count += u64::from(edge == difference);
            }
        }
    }

    pub fn frees(&mut self, row: usize, before: Phase) {
        self.freed[row] += u64::from(before != Phase::Free);
    }

    pub fn received(&mut self, received: Received) {
        match received {
            Received::Refused(_) => {}
            Received::Finished => self.finished += 1,
            Received::Bundle { number: None, .. } => self.plain_bundles += 1,
            Received::Bundle { .. } => self.transfers += 1,
        }
    }

    /// Counts a call with a pool of this length that was refused with 2.
    pub fn refused_pool(&mut self, length: usize, burst: bool) {
        let size = Window::ALL.iter().position(|size| size.pool() == length);
        if let Some(size) = size {
            self.other_pools[usize::from(burst)][size] += 1;
        }
    }

    /// Every count of a case that the window has, with its name.
    pub fn cases(&self, window: Window) -> Vec<(String, u64)> {
        let rows = ["G absent", "0", "new", "outside", "behind"];
        let answers = [
            "Finished",
            "bundle without a number",
            "bundle of a transfer",
        ];
        let counts = [self.finished, self.plain_bundles, self.transfers];
        let lists = [
            named("receiver", &["started"], &[self.started]),
            named("receiver checked", &["sound", "not sound"], &self.checked),
            named("window", &rows, &self.distances),
            named("difference", &EDGES, &self.edges),
            named("difference", &["over the wrap"], &[self.wraps]),
            self.freed_rows(window),
            self.beyond(window),
            self.pools(window),
            named("answer", &answers, &counts),
            named("burst", &["carried out"], &[self.bursts]),
        ];
        lists.concat()
    }

    fn freed_rows(&self, window: Window) -> Vec<(String, u64)> {
        let rows: Vec<String> = (0..window.rows()).map(|row| row.to_string()).collect();
        let rows: Vec<&str> = rows.iter().map(String::as_str).collect();
        named("row freed", &rows, &self.freed[..window.rows()])
    }

    fn beyond(&self, window: Window) -> Vec<(String, u64)> {
        if window.rows() == MAX_ROWS {
            return Vec::new();
        }
        let ways = ["an Open row", "another row", "an octet"];
        named("beyond the window", &ways, &self.beyond)
    }

    fn pools(&self, window: Window) -> Vec<(String, u64)> {
        let mut cases = Vec::new();
        for (call, counts) in ["receive", "burst"].iter().zip(&self.other_pools) {
            for (size, &count) in Window::ALL.iter().zip(counts) {
                if *size != window {
                    cases.push((format!("{call}, pool refused: of {size}"), count));
                }
            }
        }
        cases
    }
}
