//! When something that changed is stored.

use std::time::{Duration, Instant};

/// Two stores lie at least this time apart, except the last one.
const GAP: Duration = Duration::from_millis(20);

/// Stores are due at once after a change, but not sooner than GAP after the last one.
#[derive(Default)]
pub struct Pace {
    changed: bool,
    last: Option<Instant>,
}

impl Pace {
    pub fn changed(&mut self) {
        self.changed = true;
    }

    /// The time until a store is due, zero if it is due now; None if nothing changed.
    pub fn due_in(&self) -> Option<Duration> {
        if !self.changed {
            return None;
        }
        let passed = self.last.map_or(GAP, |last| last.elapsed());
        Some(GAP.saturating_sub(passed))
    }

    pub fn stored(&mut self) {
        self.changed = false;
        self.last = Some(Instant::now());
    }
}

#[cfg(test)]
mod tests {
    use super::*;

    #[test]
    fn due_after_a_change_and_after_the_gap() {
        let mut pace = Pace::default();
        assert_eq!(pace.due_in(), None);
        pace.changed();
        assert_eq!(pace.due_in(), Some(Duration::ZERO));
        pace.stored();
        assert_eq!(pace.due_in(), None);
        pace.changed();
        assert!(pace.due_in() <= Some(GAP));
        std::thread::sleep(GAP);
        assert_eq!(pace.due_in(), Some(Duration::ZERO));
    }
}
