//! A call that may take long, with a line now and then on how long it has taken.

use std::sync::mpsc::{self, RecvTimeoutError};
use std::thread;
use std::time::{Duration, Instant};

/// The first line comes after this time.
const FIRST: Duration = Duration::from_secs(2);
/// The time between two lines, at most.
const MOST: Duration = Duration::from_secs(60);

/// What a call gives, which runs beside this thread. As long as it runs, the time that it has taken is
/// told now and then.
pub fn told<T: Send>(call: impl FnOnce() -> T + Send, tell: impl FnMut(Duration)) -> T {
    told_from(FIRST, call, tell)
}

/// The same, with the time before the first line.
fn told_from<T: Send>(
    first: Duration,
    call: impl FnOnce() -> T + Send,
    mut tell: impl FnMut(Duration),
) -> T {
    let (done, awaited) = mpsc::channel();
    let start = Instant::now();
    let mut next = first;
    thread::scope(|scope| {
        scope.spawn(move || done.send(call()));
        loop {
            match awaited.recv_timeout(next.saturating_sub(start.elapsed())) {
                Ok(given) => return given,
                Err(RecvTimeoutError::Timeout) => {
                    tell(next);
                    next = after(next);
                }
                Err(RecvTimeoutError::Disconnected) => panic!("the call ended without an answer"),
            }
        }
    })
}

/// The time of the line after the one of this time: twice as late, as long as that is not too long.
fn after(time: Duration) -> Duration {
    time + time.min(MOST)
}

#[cfg(test)]
mod tests {
    use super::*;

    #[test]
    fn a_short_call_is_not_told_of() {
        assert_eq!(told(|| 7, |_| panic!("it was told of")), 7);
    }

    /// The call ends when it is told of for the third time.
    #[test]
    fn a_long_call_is_told_of_at_growing_times() {
        let (end, ended) = mpsc::channel();
        let mut times = Vec::new();
        let tell = |time: Duration| {
            times.push(time.as_millis());
            if times.len() == 3 {
                end.send(()).unwrap();
            }
        };
        assert!(told_from(Duration::from_millis(20), move || ended.recv().is_ok(), tell));
        assert_eq!(times[..3], [20, 40, 80]);
    }

    #[test]
    fn the_time_between_two_lines_has_a_bound() {
        let times = std::iter::successors(Some(FIRST), |&time| Some(after(time)));
        let seconds: Vec<u64> = times.take(8).map(|time| time.as_secs()).collect();
        assert_eq!(seconds, [2, 4, 8, 16, 32, 64, 124, 184]);
    }
}
