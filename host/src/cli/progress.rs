//! A line on the terminal that says how far a long command has come.

use std::io::{self, IsTerminal, Write};
use std::time::{Duration, Instant};

/// How long a command runs before it says anything, and then between two lines.
const QUIET: Duration = Duration::from_millis(1_000);
const BETWEEN: Duration = Duration::from_millis(200);

/// How far a command has come.
pub struct Progress {
    what: &'static str,
    done: usize,
    next: Instant,
    shown: bool,
    out: Option<Box<dyn Write>>,
}

impl Progress {
    /// On standard error if that is a terminal, else silent.
    pub fn new(what: &'static str) -> Self {
        let terminal = io::stderr();
        let out = terminal.is_terminal().then(|| Box::new(terminal) as Box<dyn Write>);
        Progress::on(out, what, QUIET)
    }

    fn on(out: Option<Box<dyn Write>>, what: &'static str, quiet: Duration) -> Self {
        Progress { what, done: 0, next: Instant::now() + quiet, shown: false, out }
    }

    /// One more is done.
    pub fn step(&mut self) {
        self.done += 1;
        let Some(out) = self.out.as_mut().filter(|_| Instant::now() >= self.next) else {
            return;
        };
        // If it cannot be told, the command goes on.
        let _ = write!(out, "\r{}: {}", self.what, self.done).and_then(|()| out.flush());
        self.shown = true;
        self.next = Instant::now() + BETWEEN;
    }
}

/// The line is cleared, so that what the command says stands alone.
impl Drop for Progress {
    fn drop(&mut self) {
        if let Some(out) = self.out.as_mut().filter(|_| self.shown) {
            let blank = " ".repeat(self.what.len() + 12);
            let _ = write!(out, "\r{blank}\r").and_then(|()| out.flush());
        }
    }
}

#[cfg(test)]
mod tests {
    use super::*;
    use std::cell::RefCell;
    use std::rc::Rc;

    #[derive(Clone, Default)]
    struct Screen(Rc<RefCell<Vec<u8>>>);

    impl Write for Screen {
        fn write(&mut self, bytes: &[u8]) -> io::Result<usize> {
            self.0.borrow_mut().write(bytes)
        }

        fn flush(&mut self) -> io::Result<()> {
            Ok(())
        }
    }

    #[test]
    fn a_long_command_says_how_far_it_is() {
        let screen = Screen::default();
        let mut progress = Progress::on(Some(Box::new(screen.clone())), "put", Duration::ZERO);
        progress.step();
        progress.step();
        drop(progress);
        assert_eq!(screen.0.borrow().as_slice(), format!("\rput: 1\r{}\r", " ".repeat(15)).as_bytes());
    }

    #[test]
    fn a_short_one_says_nothing() {
        let screen = Screen::default();
        let mut progress = Progress::on(Some(Box::new(screen.clone())), "put", QUIET);
        (0..1_000).for_each(|_| progress.step());
        drop(progress);
        assert_eq!(screen.0.borrow().len(), 0);
    }
}
