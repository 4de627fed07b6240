//! What is said on a terminal while a search lasts long.
use std::io::{self, IsTerminal, Write};
use std::sync::mpsc::{self, Receiver, RecvTimeoutError, Sender};
use std::thread;
use std::time::{Duration, Instant};

/// When it is said how far a search is.
#[derive(Clone, Copy, Debug)]
pub struct Pace {
    /// Nothing is said before: most searches are done by then.
    pub first: Duration,
    /// Then it is said with each step, and where none comes after this time again.
    pub then: Duration,
}

const PACE: Pace = Pace { first: Duration::from_secs(1), then: Duration::from_secs(1) };

/// What a search does now.
#[derive(Debug)]
pub struct Step {
    /// In words; empty where there is nothing to say but the time.
    pub what: String,
    /// What all that is still to be done may last.
    pub left: Option<Duration>,
    /// What is said once that has passed.
    pub passed: &'static str,
}

/// Who hears of a search's steps: somebody at a terminal, or nobody.
#[derive(Debug)]
pub struct Steps(Option<Sender<Step>>);

impl Steps {
    /// Whether it is worth while to find out what to say.
    pub fn are_heard(&self) -> bool {
        self.0.is_some()
    }

    /// Tells a step to who hears it.
    pub fn say(&self, step: Step) {
        if let Some(listener) = &self.0 {
            // The listener stays as long as the work does.
            let _ = listener.send(step);
        }
    }
}

/// Does the work, and says on standard error how far it is, but only where that is a terminal: a file or a pipe is for
/// what stays true.
pub fn tell<T: Send>(name: &str, work: impl FnOnce(&Steps) -> T + Send) -> T {
    if io::stderr().is_terminal() { ticking(name, io::stderr(), PACE, work) } else { work(&Steps(None)) }
}

/// Does the work in a thread of its own, and says meanwhile how long it has lasted and how far it is.
pub fn ticking<T: Send>(name: &str, to: impl Write, pace: Pace, work: impl FnOnce(&Steps) -> T + Send) -> T {
    thread::scope(|scope| {
        let (sender, steps) = mpsc::channel();
        let worker = scope.spawn(move || work(&Steps(Some(sender))));
        listen(name, steps, to, pace);
        worker.join().unwrap_or_else(|panic| std::panic::resume_unwind(panic))
    })
}

/// Says the steps that come, and the time between them, until the work is done.
fn listen(name: &str, steps: Receiver<Step>, to: impl Write, pace: Pace) {
    let mut line = Line { to, width: 0 };
    let start = Instant::now();
    let mut now: Option<(Step, Instant)> = None;
    let mut next = start + pace.first;
    loop {
        match steps.recv_timeout(next.saturating_duration_since(Instant::now())) {
            Ok(step) => now = Some((step, Instant::now())),
            Err(RecvTimeoutError::Timeout) => {}
            Err(RecvTimeoutError::Disconnected) => return,
        }
        if start.elapsed() >= pace.first {
            let now = now.as_ref().map(|(step, since)| (step, since.elapsed()));
            line.say(&sentence(name, start.elapsed(), now));
            next = Instant::now() + pace.then;
        }
    }
}

/// The name, how long it has lasted, what is done now and what is left of it.
fn sentence(name: &str, lasted: Duration, now: Option<(&Step, Duration)>) -> String {
    let mut text = format!("{name}: {}", in_words(lasted));
    let Some((step, since)) = now else { return text };
    for part in [&step.what, &left_in_words(step, since)] {
        if !part.is_empty() {
            text += ", ";
            text += part;
        }
    }
    text
}

/// What is left, rounded up.
fn left_in_words(step: &Step, since: Duration) -> String {
    match step.left {
        None => String::new(),
        Some(left) if since < left => format!("about {} left", in_words(left - since + Duration::from_secs(1))),
        Some(_) => step.passed.to_owned(),
    }
}

/// A time in whole seconds, from an hour on in minutes.
fn in_words(time: Duration) -> String {
    let seconds = time.as_secs();
    match seconds / 60 {
        0 => format!("{seconds} s"),
        minutes @ 1..60 => format!("{minutes} min {} s", seconds % 60),
        minutes => format!("{} h {} min", minutes / 60, minutes % 60),
    }
}

/// A line of a terminal that is written over each time, and cleared at last.
struct Line<W: Write> {
    to: W,
    width: usize,
}

impl<W: Write> Line<W> {
    /// Writes the text over what stood there.
    fn say(&mut self, text: &str) {
        self.write(format!("\r{text:<width$}", width = self.width));
        self.width = text.chars().count();
    }

    /// A terminal that is gone is no reason to end a search.
    fn write(&mut self, text: String) {
        let _ = self.to.write_all(text.as_bytes()).and_then(|()| self.to.flush());
    }
}

impl<W: Write> Drop for Line<W> {
    fn drop(&mut self) {
        if self.width > 0 {
            self.write(format!("\r{:width$}\r", "", width = self.width));
        }
    }
}
