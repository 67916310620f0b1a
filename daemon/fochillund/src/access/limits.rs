//! How much a caller may ask in a second.
use serde::{Deserialize, Serialize};
use std::time::{Duration, Instant};

/// How much a caller may ask in each second, of what is named; as much as it likes of the rest.
#[derive(Clone, Copy, Debug, Default, PartialEq, Eq, Serialize, Deserialize)]
pub struct Limits {
    /// Calls.
    #[serde(skip_serializing_if = "Option::is_none")]
    pub calls: Option<u32>,
    /// Commands and evaluations.
    #[serde(skip_serializing_if = "Option::is_none")]
    pub lines: Option<u32>,
    /// Bytes of bodies.
    #[serde(skip_serializing_if = "Option::is_none")]
    pub bytes: Option<u32>,
}

/// What is left of a limit: it grows by as much in a second, up to what one second brings, and a call is taken where at least one is left. What the
/// call brings is known once it was taken, so it may fall below nothing.
#[derive(Debug)]
struct Bucket {
    a_second: f64,
    left: f64,
    at: Instant,
}

impl Bucket {
    fn of(a_second: u32) -> Bucket {
        Bucket {
            a_second: a_second.into(),
            left: a_second.into(),
            at: Instant::now(),
        }
    }

    /// After how long something may be taken.
    fn wait(&mut self, now: Instant) -> Duration {
        let grown = now.saturating_duration_since(self.at).as_secs_f64() * self.a_second;
        self.left = (self.left + grown).min(self.a_second);
        self.at = self.at.max(now);
        if self.left >= 1.0 {
            return Duration::ZERO;
        }
        // A limit of nothing is never lifted.
        let seconds = ((1.0 - self.left) / self.a_second).min(3600.0);
        Duration::from_secs_f64(seconds)
    }

    fn spend(&mut self, much: f64) {
        self.left -= much;
    }
}

#[derive(Debug)]
pub(super) struct Buckets {
    calls: Option<Bucket>,
    lines: Option<Bucket>,
    bytes: Option<Bucket>,
}

impl Buckets {
    pub(super) fn of(limits: Limits) -> Buckets {
        Buckets {
            calls: limits.calls.map(Bucket::of),
            lines: limits.lines.map(Bucket::of),
            bytes: limits.bytes.map(Bucket::of),
        }
    }

    pub(super) fn admit(&mut self, now: Instant) -> Result<(), Duration> {
        let buckets = [&mut self.calls, &mut self.lines, &mut self.bytes];
        let waits = buckets.into_iter().flatten().map(|bucket| bucket.wait(now));
        match waits.max() {
            Some(wait) if wait > Duration::ZERO => Err(wait),
            _ => {
                spend(&mut self.calls, 1);
                Ok(())
            }
        }
    }

    pub(super) fn spend(&mut self, lines: usize, bytes: usize) {
        spend(&mut self.lines, lines);
        spend(&mut self.bytes, bytes);
    }
}

fn spend(bucket: &mut Option<Bucket>, much: usize) {
    if let Some(bucket) = bucket {
        bucket.spend(much as f64);
    }
}

#[cfg(test)]
mod tests {
    use super::{Buckets, Limits};
    use std::time::{Duration, Instant};

    #[test]
    fn what_was_spent_grows_again() {
        let limits = Limits {
            calls: Some(2),
            lines: None,
            bytes: Some(100),
        };
        let mut buckets = Buckets::of(limits);
        let now = Instant::now() + Duration::from_secs(1);
        assert_eq!([buckets.admit(now), buckets.admit(now)], [Ok(()), Ok(())]);
        assert_eq!(buckets.admit(now), Err(Duration::from_millis(500)));
        let later = now + Duration::from_millis(600);
        assert_eq!(buckets.admit(later), Ok(()));
        // A call may bring more than is left: the next ones wait for it.
        buckets.spend(1_000_000, 1100);
        let later = now + Duration::from_secs(5);
        assert!(buckets.admit(later).is_err());
        assert_eq!(buckets.admit(now + Duration::from_secs(12)), Ok(()));
    }

    #[test]
    fn no_limits_limit_nothing_and_a_limit_of_nothing_everything() {
        let now = Instant::now();
        let mut free = Buckets::of(Limits::default());
        free.spend(usize::MAX, usize::MAX);
        assert_eq!(free.admit(now), Ok(()));
        let none = Limits {
            calls: Some(0),
            ..Limits::default()
        };
        assert!(Buckets::of(none)
            .admit(now + Duration::from_secs(99))
            .is_err());
    }
}
