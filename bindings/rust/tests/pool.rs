//! Pools by what their callers see.
use fochillun::{CheckError, Monitor, OpenError, Pool};
use std::sync::atomic::{AtomicUsize, Ordering};

const FOUNDING: &[u8] = b"version = 1\nmembers = 1\noperations = [\"pay\", \"read\"]\nobjects = [\"ledger\"]\npermissions = [[\"pay\", \"ledger\"], [\"read\", \"ledger\"]]\n";
const DONE: &str = "\"Done\"";

/// Numbers that look random, the same in each run.
struct Numbers(u64);

impl Numbers {
    fn below(&mut self, end: u64) -> u64 {
        self.0 = self
            .0
            .wrapping_mul(6364136223846793005)
            .wrapping_add(1442695040888963407);
        (self.0 >> 33) % end
    }

    fn command(&mut self) -> String {
        let (user, role) = (self.below(4), self.below(3));
        let operation = ["pay", "read"][self.below(2) as usize];
        let pair = format!(r#""operation":"{operation}","object":"ledger""#);
        let session = format!(r#""session":"s{user}""#);
        let (user, role) = (
            format!(r#""user":"u{user}""#),
            format!(r#""role":"r{role}""#),
        );
        let (name, fields) = match self.below(32) {
            0 => ("DeleteUser", user),
            1 => ("DeleteRole", role),
            2 => ("DeassignUser", format!("{user},{role}")),
            3 => ("RevokePermission", format!("{pair},{role}")),
            4 => ("AssignedUsers", role),
            5 => ("CheckAccess", format!("{session},{pair}")),
            6..9 => ("AddUser", user),
            9..12 => ("AddRole", role),
            12..18 => ("AssignUser", format!("{user},{role}")),
            18..22 => ("GrantPermission", format!("{pair},{role}")),
            22..26 => ("CreateSession", format!(r#"{user},{session},"roles":[]"#)),
            _ => ("AddActiveRole", format!("{user},{session},{role}")),
        };
        format!(r#"{{"name":"{name}",{fields}}}"#)
    }
}

#[test]
fn a_pool_answers_as_a_monitor_does() {
    let (pool, mut monitor) = (
        Pool::open(FOUNDING, 3).unwrap(),
        Monitor::open(FOUNDING).unwrap(),
    );
    let (mut numbers, mut granted) = (Numbers(7), 0);
    for _ in 0..4000 {
        let command = numbers.command();
        assert_eq!(
            pool.apply(&command),
            monitor.apply(&command).map(str::to_owned),
            "{command}"
        );
        let session = format!("s{}", numbers.below(5));
        let checked = monitor.check(&session, "read", "ledger");
        assert_eq!(pool.check(&session, "read", "ledger"), checked);
        granted += usize::from(checked == Ok(true));
    }
    assert!(granted > 100, "{granted} checks were granted");
    assert_eq!((pool.dump(), pool.places()), (monitor.dump(), 3));
}

#[test]
fn a_founding_is_refused_and_a_pool_has_a_place() {
    assert_eq!(Pool::open(b"", 2).unwrap_err(), OpenError::BadVersion);
    let pool = Pool::open(FOUNDING, 0).unwrap();
    assert_eq!(pool.places(), 1);
    assert_eq!(
        pool.check("s1", "read", "ledger"),
        Err(CheckError::NoSession)
    );
    assert_eq!(pool.check("s1", "read", ""), Err(CheckError::BadName));
}

/// One thread deletes sessions in their order. Each that has been told of a deletion, or has seen one, tells the others, whose checks
/// have to see it.
#[test]
fn no_check_sees_an_older_policy_than_another_thread_was_told_of() {
    const SESSIONS: usize = 3000;
    let pool = Pool::open(FOUNDING, 3).unwrap();
    let add = r#"{"name":"AddUser","user":"ann"}"#.to_owned();
    let create =
        |i| format!(r#"{{"name":"CreateSession","user":"ann","session":"s{i}","roles":[]}}"#);
    for command in std::iter::once(add).chain((0..SESSIONS).map(create)) {
        assert_eq!(pool.apply(&command).unwrap(), DONE);
    }
    let deleted = AtomicUsize::new(0);
    let is_there = |i: usize| pool.check(&format!("s{i}"), "read", "ledger") == Ok(false);
    std::thread::scope(|threads| {
        for _ in 0..3 {
            threads.spawn(|| {
                loop {
                    let told = deleted.load(Ordering::Acquire);
                    assert!(
                        told == 0 || !is_there(told - 1),
                        "session {} is there",
                        told - 1
                    );
                    if told == SESSIONS {
                        break;
                    }
                    if !is_there(told) {
                        deleted.fetch_max(told + 1, Ordering::Release);
                    }
                }
            });
        }
        for i in 0..SESSIONS {
            let delete = format!(r#"{{"name":"DeleteSession","user":"ann","session":"s{i}"}}"#);
            assert_eq!(pool.apply(&delete).unwrap(), DONE);
            deleted.fetch_max(i + 1, Ordering::Release);
        }
    });
}
