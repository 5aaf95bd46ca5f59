//! A bar on standard error, for work that takes long and only on a terminal.

use std::io::{self, IsTerminal, Write};
use std::time::{Duration, Instant};

/// Work shorter than this shows no bar; the bar is drawn at most this often.
const DELAY: Duration = Duration::from_millis(100);
const WIDTH: usize = 40;

pub struct Progress {
    to: Option<Box<dyn Write>>,
    total: usize,
    done: usize,
    drawn: Instant,
    shown: bool,
}

impl Progress {
    pub fn new(total: usize) -> Progress {
        let terminal = io::stderr().is_terminal();
        Progress::on(
            terminal.then(|| Box::new(io::stderr()) as Box<dyn Write>),
            total,
        )
    }

    fn on(to: Option<Box<dyn Write>>, total: usize) -> Progress {
        Progress {
            to,
            total,
            done: 0,
            drawn: Instant::now(),
            shown: false,
        }
    }

    pub fn step(&mut self) {
        self.done += 1;
        if self.to.is_some() && self.drawn.elapsed() >= DELAY {
            self.draw();
        }
    }

    fn draw(&mut self) {
        let parts = WIDTH * self.done.min(self.total) / self.total.max(1);
        let percent = 100 * self.done.min(self.total) / self.total.max(1);
        if let Some(to) = &mut self.to {
            let (full, empty) = ("#".repeat(parts), ".".repeat(WIDTH - parts));
            let _ = write!(to, "\r[{full}{empty}] {percent:3} %");
            let _ = to.flush();
        }
        self.drawn = Instant::now();
        self.shown = true;
    }

    /// Takes the bar away; there is none after it.
    pub fn finish(&mut self) {
        if let (true, Some(to)) = (self.shown, &mut self.to) {
            let _ = write!(to, "\r{:1$}\r", "", WIDTH + 8);
            let _ = to.flush();
        }
        self.to = None;
    }
}

#[cfg(test)]
mod tests {
    use super::*;
    use std::sync::{Arc, Mutex};

    #[derive(Clone, Default)]
    struct Screen(Arc<Mutex<Vec<u8>>>);

    impl Write for Screen {
        fn write(&mut self, octets: &[u8]) -> io::Result<usize> {
            self.0.lock().unwrap().write(octets)
        }

        fn flush(&mut self) -> io::Result<()> {
            Ok(())
        }
    }

    #[test]
    fn shown_for_long_work_and_taken_away() {
        let screen = Screen::default();
        let mut progress = Progress::on(Some(Box::new(screen.clone())), 4);
        progress.step();
        assert!(screen.0.lock().unwrap().is_empty());
        std::thread::sleep(DELAY);
        progress.step();
        let bar = format!("\r[{}{}]  50 %", "#".repeat(20), ".".repeat(20));
        assert_eq!(*screen.0.lock().unwrap(), bar.as_bytes());
        progress.finish();
        let shown = screen.0.lock().unwrap().clone();
        assert!(shown.ends_with(b" \r"));
        std::thread::sleep(DELAY);
        progress.step();
        assert_eq!(*screen.0.lock().unwrap(), shown);
    }
}
