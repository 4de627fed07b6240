//! What a call takes: its thread's processor time, and wall time.
use std::time::{Duration, Instant};

/// A time of each kind. Processor time has what the kernel does for the thread, such as giving it pages, and not what others
/// do meanwhile.
#[derive(Clone, Copy, Debug)]
pub struct Spent {
    pub processor: Duration,
    pub wall: Duration,
}

impl Spent {
    /// The lesser of each kind.
    pub fn least(self, other: Spent) -> Spent {
        Spent { processor: self.processor.min(other.processor), wall: self.wall.min(other.wall) }
    }
}

/// Times a call. Its answer is dropped by the caller, so that giving the memory back is no part of the time.
pub fn timed<T>(call: impl FnOnce() -> T) -> (Spent, T) {
    let (wall, processor) = (Instant::now(), processor_time());
    let answer = call();
    (Spent { processor: processor_time() - processor, wall: wall.elapsed() }, answer)
}

/// The processor time of this thread until now.
fn processor_time() -> Duration {
    let mut time = libc::timespec { tv_sec: 0, tv_nsec: 0 };
    // SAFETY: the clock writes the one struct that it is given, which lives here.
    let status = unsafe { libc::clock_gettime(libc::CLOCK_THREAD_CPUTIME_ID, &mut time) };
    assert_eq!(status, 0, "a thread has a clock of its processor time");
    Duration::new(time.tv_sec as u64, time.tv_nsec as u32)
}

#[cfg(test)]
mod tests {
    use super::*;

    #[test]
    fn sleeping_is_wall_time_only() {
        let (spent, ()) = timed(|| std::thread::sleep(Duration::from_millis(50)));
        assert!(spent.wall >= Duration::from_millis(50));
        assert!(spent.processor < Duration::from_millis(25));
    }
}
