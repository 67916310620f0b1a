//! Checks by many threads side by side.
use crate::errors::{ApplyError, CheckError, DumpError, OpenError};
use crate::monitor::Monitor;
use std::fmt;
use std::sync::atomic::{AtomicUsize, Ordering};
use std::sync::{Mutex, MutexGuard};

/// One policy that many threads check side by side: it is kept in as many places as the pool is opened with, by the same changes in
/// the same order, and a check takes a place that is free.
///
/// ```
/// use fochillun::Pool;
///
/// let founding = b"version = 1\nmembers = 1\noperations = [\"read\"]\nobjects = [\"ledger\"]\npermissions = [[\"read\", \"ledger\"]]\n";
/// let pool = Pool::open(founding, 2)?;
/// for command in [
///     r#"{"name":"AddUser","user":"ann"}"#,
///     r#"{"name":"AddRole","role":"clerk"}"#,
///     r#"{"name":"GrantPermission","operation":"read","object":"ledger","role":"clerk"}"#,
///     r#"{"name":"AssignUser","user":"ann","role":"clerk"}"#,
///     r#"{"name":"CreateSession","user":"ann","session":"s1","roles":["clerk"]}"#,
/// ] {
///     assert_eq!(pool.apply(command)?, "\"Done\"");
/// }
/// std::thread::scope(|threads| {
///     for _ in 0..2 {
///         threads.spawn(|| assert_eq!(pool.check("s1", "read", "ledger"), Ok(true)));
///     }
/// });
/// pool.apply(r#"{"name":"RevokePermission","operation":"read","object":"ledger","role":"clerk"}"#)?;
/// assert_eq!(pool.check("s1", "read", "ledger"), Ok(false));
/// # Ok::<(), Box<dyn std::error::Error>>(())
/// ```
///
/// **What a check sees.** A command holds all places before it changes the first, and until it has changed the last. So a change that was
/// answered, or that any check has seen, is seen by each check that begins after that: a revocation too.
///
/// **Where memory ends.** The first place is changed first. Where it has no memory, nothing has changed anywhere, and the command can be
/// applied again. Where another place has none after the first was changed, the change stands, and that place, which lacks it, is given
/// up: it is never asked again, and its memory is given back. The first place is never given up. [`Pool::places`] tells how many are left.
pub struct Pool {
    places: Vec<Shared>,
}

/// A place, or none where it was given up. Those of two threads share no line of the processor's cache.
#[repr(align(128))]
struct Shared(Mutex<Option<Monitor>>);

impl Shared {
    /// It is let in when no other thread is. A panic in a call leaves places that may differ: then no thread is let in again.
    fn hold(&self) -> MutexGuard<'_, Option<Monitor>> {
        self.0.lock().expect("a call on this pool has panicked")
    }
}

impl Pool {
    /// Founds a policy in so many places, at least one, as [`Monitor::open`] founds it in one.
    pub fn open(founding: &[u8], places: usize) -> Result<Pool, OpenError> {
        let opened = (0..places.max(1)).map(|_| Monitor::open(founding).map(Shared::from));
        Ok(Pool {
            places: opened.collect::<Result<_, _>>()?,
        })
    }

    /// Applies the command of a JSON object at all places, and gives its answer's text, as [`Monitor::apply`] does. While it does, checks
    /// wait, also where the command is a review.
    pub fn apply(&self, command: &str) -> Result<String, ApplyError> {
        let mut held: Vec<_> = self.places.iter().map(Shared::hold).collect();
        let (first, others) = held.split_first_mut().expect("a pool has a place");
        let answer = first.as_mut().expect(FIRST_STAYS).apply(command)?;
        // Whatever else is answered has changed nothing.
        if answer == DONE {
            for place in others {
                place.take_if(|monitor| monitor.apply(command) != Ok(DONE));
            }
        }
        Ok(answer.to_owned())
    }

    /// Whether the session may perform the operation on the object. It takes no memory, and waits only where no place is free.
    pub fn check(&self, session: &str, operation: &str, object: &str) -> Result<bool, CheckError> {
        let (before, from) = self.places.split_at(first_choice(self.places.len()));
        let mut places = from.iter().chain(before);
        let free = places.clone().find_map(|place| {
            let mut held = place.0.try_lock().ok()?;
            Some(held.as_mut()?.check(session, operation, object))
        });
        let waited = || {
            places.find_map(|place| Some(place.hold().as_mut()?.check(session, operation, object)))
        };
        free.or_else(waited).expect(FIRST_STAYS)
    }

    /// The client lines that make this policy, as [`Monitor::dump`] tells them.
    pub fn dump(&self) -> Result<String, DumpError> {
        self.places[0].hold().as_mut().expect(FIRST_STAYS).dump()
    }

    /// In how many places the policy is kept.
    pub fn places(&self) -> usize {
        let is_kept = |place: &&Shared| place.hold().is_some();
        self.places.iter().filter(is_kept).count()
    }
}

const DONE: &str = "\"Done\"";
const FIRST_STAYS: &str = "the first place is never given up";

/// The place, of so many, at which the checks of this thread begin.
fn first_choice(places: usize) -> usize {
    static THREADS: AtomicUsize = AtomicUsize::new(0);
    thread_local! {
        static NUMBER: usize = THREADS.fetch_add(1, Ordering::Relaxed);
    }
    NUMBER.with(|number| number % places)
}

impl From<Monitor> for Shared {
    fn from(monitor: Monitor) -> Shared {
        Shared(Mutex::new(Some(monitor)))
    }
}

impl fmt::Debug for Pool {
    fn fmt(&self, f: &mut fmt::Formatter<'_>) -> fmt::Result {
        f.debug_struct("Pool").finish_non_exhaustive()
    }
}

#[cfg(test)]
mod tests {
    use super::*;
    use std::sync::mpsc::channel;
    use std::time::Duration;

    const FOUNDING: &[u8] = b"version = 1\nmembers = 1\noperations = [\"read\"]\nobjects = [\"ledger\"]\npermissions = []\n";

    fn opened(places: usize) -> Pool {
        let pool = Pool::open(FOUNDING, places).unwrap();
        for command in [
            r#"{"name":"AddUser","user":"ann"}"#,
            r#"{"name":"AddRole","role":"clerk"}"#,
            r#"{"name":"AssignUser","user":"ann","role":"clerk"}"#,
            r#"{"name":"CreateSession","user":"ann","session":"s1","roles":["clerk"]}"#,
        ] {
            assert_eq!(pool.apply(command).unwrap(), DONE);
        }
        pool
    }

    #[test]
    fn a_command_that_changes_nothing_gives_up_no_place() {
        let pool = opened(3);
        assert_eq!(pool.apply("{"), Err(ApplyError::NotJson));
        let review = r#"{"name":"AssignedUsers","role":"clerk"}"#;
        assert_eq!(pool.apply(review).unwrap(), r#"{"names":["ann"]}"#);
        assert_eq!(pool.places(), 3);
    }

    #[test]
    fn a_check_waits_for_no_other_where_a_place_is_free() {
        let pool = opened(3);
        let busy = [pool.places[0].hold(), pool.places[2].hold()];
        std::thread::scope(|threads| {
            let (told, heard) = channel();
            for _ in 0..3 {
                let (pool, told) = (&pool, told.clone());
                threads.spawn(move || told.send(pool.check("s1", "read", "ledger")));
            }
            for _ in 0..3 {
                assert_eq!(heard.recv_timeout(Duration::from_secs(20)), Ok(Ok(false)));
            }
            drop(busy);
        });
    }

    #[test]
    fn all_places_have_the_changes_of_all_threads() {
        let pool = opened(3);
        let count = |answer: &str| {
            let add = |i| format!(r#"{{"name":"AddUser","user":"user{i}"}}"#);
            let told = (0..100).map(|i| pool.apply(&add(i)).unwrap());
            told.filter(|told| told == answer).count()
        };
        let done: usize = std::thread::scope(|threads| {
            let started: Vec<_> = (0..4).map(|_| threads.spawn(|| count(DONE))).collect();
            started.into_iter().map(|it| it.join().unwrap()).sum()
        });
        assert_eq!(done, 100);
        let dump = pool.dump();
        assert_eq!(dump.as_ref().unwrap().lines().count(), 104);
        for place in &pool.places {
            assert_eq!(place.hold().as_mut().unwrap().dump(), dump);
        }
    }
}
