//! A pool whose memory ends: each allocation of a command is refused in turn, at the first place and at the others.
use fochillun::{ApplyError, Pool};
use std::alloc::{GlobalAlloc, Layout};
use std::cell::Cell;
use std::ffi::c_void;

unsafe extern "C" {
    fn __libc_malloc(size: usize) -> *mut c_void;
    fn __libc_realloc(at: *mut c_void, size: usize) -> *mut c_void;
    fn __libc_memalign(alignment: usize, size: usize) -> *mut c_void;
    fn free(at: *mut c_void);
}

/// Rust's own memory, of which none is refused.
struct Ample;

// SAFETY: these are the C library's.
unsafe impl GlobalAlloc for Ample {
    unsafe fn alloc(&self, layout: Layout) -> *mut u8 {
        unsafe { __libc_memalign(layout.align(), layout.size()).cast() }
    }

    unsafe fn dealloc(&self, at: *mut u8, _: Layout) {
        unsafe { free(at.cast()) }
    }
}

#[global_allocator]
static AMPLE: Ample = Ample;

thread_local! {
    /// How many allocations of the library are let through.
    static LEFT: Cell<usize> = const { Cell::new(usize::MAX) };
}

fn is_let_through() -> bool {
    let left = LEFT.get();
    LEFT.set(left.saturating_sub(1));
    left > 0
}

// SAFETY: what is let through is the C library's.
#[unsafe(no_mangle)]
unsafe extern "C" fn malloc(size: usize) -> *mut c_void {
    if is_let_through() {
        unsafe { __libc_malloc(size) }
    } else {
        std::ptr::null_mut()
    }
}

// SAFETY: as of malloc.
#[unsafe(no_mangle)]
unsafe extern "C" fn realloc(at: *mut c_void, size: usize) -> *mut c_void {
    if is_let_through() {
        unsafe { __libc_realloc(at, size) }
    } else {
        std::ptr::null_mut()
    }
}

const PLACES: usize = 3;
const FOUNDING: &[u8] = b"version = 1\nmembers = 1\noperations = [\"read\"]\nobjects = [\"ledger\"]\npermissions = [[\"read\", \"ledger\"]]\n";
const CREATE: &str = r#"{"name":"CreateSession","user":"ann","session":"s1","roles":["clerk"]}"#;

fn opened() -> Pool {
    let pool = Pool::open(FOUNDING, PLACES).unwrap();
    for command in [
        r#"{"name":"AddUser","user":"ann"}"#,
        r#"{"name":"AddRole","role":"clerk"}"#,
        r#"{"name":"GrantPermission","operation":"read","object":"ledger","role":"clerk"}"#,
        r#"{"name":"AssignUser","user":"ann","role":"clerk"}"#,
    ] {
        assert_eq!(pool.apply(command).unwrap(), "\"Done\"");
    }
    pool
}

/// Whether a session is there, which each place is asked for: by as many threads as there are places.
fn checks_tell(pool: &Pool, is_there: bool) {
    for _ in 0..PLACES {
        std::thread::scope(|threads| {
            threads.spawn(|| assert_eq!(pool.check("s1", "read", "ledger").is_ok(), is_there));
        });
    }
}

#[test]
fn a_place_without_memory_for_a_change_is_given_up_and_the_first_keeps_its_policy() {
    let (mut refused, mut given_up) = (0, [0; PLACES]);
    for allocations in 0.. {
        let pool = opened();
        LEFT.set(allocations);
        let told = pool.apply(CREATE);
        let is_enough = LEFT.replace(usize::MAX) > 0;
        if told == Err(ApplyError::NoMemory) {
            refused += 1;
            assert_eq!(pool.places(), PLACES);
            checks_tell(&pool, false);
            assert_eq!(pool.apply(CREATE).unwrap(), "\"Done\"");
        } else {
            assert_eq!(told.unwrap(), "\"Done\"");
            given_up[PLACES - pool.places()] += 1;
        }
        checks_tell(&pool, true);
        if is_enough {
            break;
        }
    }
    assert!(
        refused > 0 && given_up.iter().all(|times| *times > 0),
        "{refused} {given_up:?}"
    );
}
