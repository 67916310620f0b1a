//! Times checks through the safe types of bindings/rust, on the same policies as embed.c, by processor time as there, and by the clock where
//! threads check side by side.
use fochillun::{Monitor, Pool};
use std::sync::Mutex;
use std::time::Instant;

const LAPS: usize = 9;
const OBJECTS: usize = 100;

#[repr(C)]
#[derive(Default)]
struct Time {
    seconds: i64,
    nanoseconds: i64,
}

unsafe extern "C" {
    fn clock_gettime(clock: i32, time: &mut Time) -> i32;
}

/// Nanoseconds of processor time of this process.
fn processor_time() -> f64 {
    const CLOCK_PROCESS_CPUTIME_ID: i32 = 2;
    let mut time = Time::default();
    // SAFETY: on x86-64 Linux a `struct timespec` is two 64-bit numbers.
    assert_eq!(unsafe { clock_gettime(CLOCK_PROCESS_CPUTIME_ID, &mut time) }, 0);
    time.seconds as f64 * 1e9 + time.nanoseconds as f64
}

fn done(monitor: &mut Monitor, command: String) {
    assert_eq!(monitor.apply(&command), Ok("\"Done\""), "{command}");
}

fn founding() -> Vec<u8> {
    let each = |shown: fn(usize) -> String| (0..OBJECTS).map(shown).collect::<Vec<_>>().join(",");
    let objects = each(|i| format!("\"object{i}\""));
    let pairs = each(|i| format!("[\"read\",\"object{i}\"],[\"pay\",\"object{i}\"]"));
    format!("version = 1\nmembers = 1\noperations = [\"pay\", \"read\"]\nobjects = [{objects}]\npermissions = [{pairs}]\n").into_bytes()
}

/// A policy, its sessions, and an object that each session may read.
fn founded(roles: usize) -> (Monitor, Vec<(String, String)>) {
    let mut monitor = Monitor::open(&founding()).unwrap();
    for i in 0..roles {
        done(&mut monitor, format!(r#"{{"name":"AddRole","role":"role{i}"}}"#));
        done(&mut monitor, format!(r#"{{"name":"GrantPermission","operation":"read","object":"object{}","role":"role{i}"}}"#, i % OBJECTS));
    }
    let count = (roles * 10).min(1024);
    for i in 0..count {
        let role = i % roles;
        done(&mut monitor, format!(r#"{{"name":"AddUser","user":"user{i}"}}"#));
        done(&mut monitor, format!(r#"{{"name":"AssignUser","user":"user{i}","role":"role{role}"}}"#));
        done(&mut monitor, format!(r#"{{"name":"CreateSession","user":"user{i}","session":"session{i}","roles":["role{role}"]}}"#));
    }
    let lent = |i| (format!("session{i}"), format!("object{}", i % roles % OBJECTS));
    (monitor, (0..count).map(lent).collect())
}

fn timed(what: &str, roles: usize, sessions: &[(String, String)], calls: usize, mut call: impl FnMut(&str, &str)) {
    let laps = (0..LAPS)
        .map(|_| {
            let from = processor_time();
            for i in 0..calls {
                let (session, object) = &sessions[(i * 7919) % sessions.len()];
                call(session, object);
            }
            (processor_time() - from) / calls as f64
        })
        .collect();
    tell(&format!("{what}, {roles} roles, {} sessions", sessions.len()), laps, "ns");
}

/// A row of a figure, by its laps.
fn tell(what: &str, mut laps: Vec<f64>, unit: &str) {
    laps.sort_by(f64::total_cmp);
    println!("rust\t{what}\t{:.1}\t{unit}\tfrom {:.1} to {:.1}", laps[LAPS / 2], laps[0], laps[LAPS - 1]);
}

/// Checks a second by the clock, of so many threads together.
fn side_by_side(what: &str, threads: usize, sessions: &[(String, String)], is_granted: impl Fn(&str, &str) -> bool + Sync) {
    const CHECKS: usize = 100_000;
    let checks = |thread: usize| {
        for i in 0..CHECKS {
            let (session, object) = &sessions[(i * 7919 + thread) % sessions.len()];
            assert!(is_granted(session, object));
        }
    };
    let lap = |_| {
        let from = Instant::now();
        std::thread::scope(|scope| {
            for thread in 0..threads {
                scope.spawn(move || checks(thread));
            }
        });
        (threads * CHECKS) as f64 / from.elapsed().as_secs_f64()
    };
    tell(&format!("{what} granted, 100 roles, {} sessions, {threads} threads", sessions.len()), (0..LAPS).map(lap).collect(), "a second");
}

fn by_threads() {
    let (mut monitor, sessions) = founded(100);
    let pool = Pool::open(&founding(), 4).unwrap();
    for command in monitor.dump().unwrap().lines() {
        assert_eq!(pool.apply(command).unwrap(), "\"Done\"");
    }
    let monitor = Mutex::new(monitor);
    for threads in [1, 2, 4] {
        side_by_side("Pool::check of 4 places", threads, &sessions, |session, object| pool.check(session, "read", object).unwrap());
        side_by_side("Monitor::check behind a Mutex", threads, &sessions, |session, object| {
            monitor.lock().unwrap().check(session, "read", object).unwrap()
        });
    }
}

fn main() {
    for roles in [1, 100, 1000] {
        let (mut monitor, sessions) = founded(roles);
        timed("Monitor::check granted", roles, &sessions, 200_000, |session, object| {
            assert!(monitor.check(session, "read", object).unwrap());
        });
        timed("Monitor::check refused", roles, &sessions, 200_000, |session, object| {
            assert!(!monitor.check(session, "pay", object).unwrap());
        });
        timed("Monitor::apply of CheckAccess", roles, &sessions, 20_000, |session, object| {
            let command = format!(r#"{{"name":"CheckAccess","session":"{session}","operation":"read","object":"{object}"}}"#);
            assert_eq!(monitor.apply(&command), Ok("\"Granted\""));
        });
    }
    by_threads();
}
