//! Calls that are waited for, each on a thread of its own, while signals and the time are looked at and a line on the terminal says how far the search is.

use crate::calls;
use crate::failure::{failure, Failure, SOFTWARE};
use crate::numbers::seconds;
use crate::{output, signals};
use std::io::{self, IsTerminal};
use std::sync::mpsc::{self, RecvTimeoutError};
use std::time::{Duration, Instant};

/// Nothing is shown before this.
const PATIENCE: Duration = Duration::from_secs(1);
/// How often signals, the time and the line are looked at.
const TICK: Duration = Duration::from_millis(50);

/// Why a search has no further call.
#[derive(Debug, Clone, Copy, PartialEq, Eq)]
pub enum Ended {
    /// It has what it was asked for, or its calls came to their ends.
    ByItself,
    /// A signal came.
    Interrupted,
    /// The time was over.
    OutOfTime,
}

impl Ended {
    /// Why a search was ended after this time; none where it ended by itself.
    pub fn words(self, after: Duration) -> Option<String> {
        let after = seconds(after.as_secs_f64());
        match self {
            Ended::ByItself => None,
            Ended::Interrupted => Some(format!("interrupted after {after}")),
            Ended::OutOfTime => Some(format!("out of time after {after}")),
        }
    }

    /// The same for programs.
    pub fn name(self) -> &'static str {
        match self {
            Ended::ByItself => "by itself",
            Ended::Interrupted => "interrupted",
            Ended::OutOfTime => "out of time",
        }
    }
}

/// Who waits: since when, how long at most, whether progress is shown, and the line that stands there.
pub struct Watch {
    began: Instant,
    limit: Option<Duration>,
    shows: bool,
    shown: String,
    drawn: Instant,
}

impl Watch {
    /// Signals are noted from here on.
    pub fn new(quiet: bool, limit: Option<Duration>) -> Watch {
        signals::catch();
        let began = Instant::now();
        Watch { began, limit, shows: !quiet && io::stderr().is_terminal(), shown: String::new(), drawn: began }
    }

    /// How long it has waited in all.
    pub fn elapsed(&self) -> Duration {
        self.began.elapsed()
    }

    /// How long it may still wait; none where there is no limit.
    pub fn left(&self) -> Option<Duration> {
        self.limit.map(|limit| limit.saturating_sub(self.elapsed()))
    }

    /// Why there is to be no further call.
    fn ended(&self) -> Option<Ended> {
        match self.left() {
            _ if signals::came() => Some(Ended::Interrupted),
            Some(Duration::ZERO) => Some(Ended::OutOfTime),
            _ => None,
        }
    }

    /// Makes a call and waits for its answer, or says why it did not; meanwhile it shows the line for the time that has gone by, in whole seconds.
    pub fn call<T>(&mut self, call: impl FnOnce() -> T + Send + 'static, line: impl Fn(u64) -> String) -> Result<Result<T, Ended>, Failure>
    where
        T: Send + 'static,
    {
        if let Some(ended) = self.ended() {
            return Ok(Err(ended));
        }
        self.show(&line);
        let (send, answer) = mpsc::channel();
        calls::start(move || {
            // Nobody may wait any more.
            let _ = send.send(call());
        })?;
        loop {
            match answer.recv_timeout(TICK) {
                Ok(answer) => return Ok(Ok(answer)),
                Err(RecvTimeoutError::Disconnected) => return Err(failure(SOFTWARE, "the library did not answer")),
                Err(RecvTimeoutError::Timeout) => match self.ended() {
                    Some(ended) => return Ok(Err(ended)),
                    None => self.show(&line),
                },
            }
        }
    }

    /// Draws the line, where it has changed and is not just drawn.
    fn show(&mut self, line: impl Fn(u64) -> String) {
        if !self.shows || self.elapsed() < PATIENCE || self.drawn.elapsed() < TICK {
            return;
        }
        self.drawn = Instant::now();
        let line = line(self.elapsed().as_secs());
        if line != self.shown {
            output::say(&format!("\r{line}\x1b[K"));
            self.shown = line;
        }
    }

    /// Wipes the line.
    fn wipe(&mut self) {
        if !self.shown.is_empty() {
            output::say("\r\x1b[K");
            self.shown.clear();
        }
    }
}

impl Drop for Watch {
    fn drop(&mut self) {
        self.wipe();
    }
}
