//! A progress line on standard error, if that is a terminal and the work is long.

use std::io::{stderr, IsTerminal, Write};
use std::sync::mpsc::{channel, RecvTimeoutError};
use std::thread;
use std::time::{Duration, Instant};

/// Work that takes no longer has no line, and a line stands at least so long.
const PAUSE: Duration = Duration::from_millis(200);

/// The progress of the work on one file, through all its parts.
pub struct Progress<'a> {
    name: String,
    /// Where the line is shown, if it is.
    to: Option<Box<dyn Write + 'a>>,
    pause: Duration,
    shown: bool,
    last: Instant,
    begin: Instant,
}

impl<'a> Progress<'a> {
    /// The work on a file begins.
    pub fn begin(name: &str) -> Self {
        let terminal = stderr().is_terminal();
        let to = terminal.then(|| Box::new(stderr()) as Box<dyn Write>);
        Progress::to(to, PAUSE, name)
    }

    /// The same, with the line shown there, no sooner than after this pause.
    pub fn to(to: Option<Box<dyn Write + 'a>>, pause: Duration, name: &str) -> Self {
        let now = Instant::now();
        Progress {
            name: name.to_owned(),
            to,
            pause,
            shown: false,
            last: now,
            begin: now,
        }
    }

    /// Shows how far the work is, unless the last line is still new.
    pub fn show(&mut self, words: impl FnOnce() -> String) {
        let Some(to) = &mut self.to else {
            return;
        };
        if self.last.elapsed() < self.pause {
            return;
        }
        self.last = Instant::now();
        self.shown = true;
        // What isn't shown is no reason to stop.
        let _ = write!(to, "\r\x1b[K{}: {}", self.name, words()).and_then(|()| to.flush());
    }

    /// Does a part of the work that cannot say how far it is, and shows meanwhile what is done
    /// and since when.
    pub fn during<T: Send>(&mut self, what: &str, work: impl FnOnce() -> T + Send) -> T {
        if self.to.is_none() {
            return work();
        }
        let (sender, receiver) = channel();
        thread::scope(|scope| {
            scope.spawn(move || sender.send(work()));
            loop {
                let seconds = self.begin.elapsed().as_secs();
                self.show(|| format!("{what}, {seconds} s"));
                match receiver.recv_timeout(self.pause) {
                    Ok(result) => return result,
                    Err(RecvTimeoutError::Timeout) => {}
                    Err(RecvTimeoutError::Disconnected) => panic!("no result: {what}"),
                }
            }
        })
    }
}

impl Drop for Progress<'_> {
    /// The line is taken away.
    fn drop(&mut self) {
        if let (true, Some(to)) = (self.shown, &mut self.to) {
            let _ = write!(to, "\r\x1b[K").and_then(|()| to.flush());
        }
    }
}
