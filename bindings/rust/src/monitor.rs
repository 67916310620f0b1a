//! One policy.
use crate::check::verdict;
use crate::errors::{ApplyError, CheckError, DumpError, OpenError, SubjectsError};
use crate::place::{Held, Place};
use crate::subjects::Subjects;
use crate::sys;
use crate::text::{buffer, written_by};
use std::fmt;

/// One policy. It is ended, and its memory given back, when it is dropped.
///
/// ```
/// use fochillun::Monitor;
///
/// let founding = b"version = 1\nmembers = 1\noperations = [\"read\"]\nobjects = [\"ledger\"]\npermissions = [[\"read\", \"ledger\"]]\n";
/// let mut monitor = Monitor::open(founding)?;
/// for command in [
///     r#"{"name":"AddUser","user":"ann"}"#,
///     r#"{"name":"AddRole","role":"clerk"}"#,
///     r#"{"name":"GrantPermission","operation":"read","object":"ledger","role":"clerk"}"#,
///     r#"{"name":"AssignUser","user":"ann","role":"clerk"}"#,
///     r#"{"name":"CreateSession","user":"ann","session":"s1","roles":["clerk"]}"#,
/// ] {
///     assert_eq!(monitor.apply(command)?, "\"Done\"");
/// }
/// assert!(monitor.check("s1", "read", "ledger")?);
/// # Ok::<(), Box<dyn std::error::Error>>(())
/// ```
///
/// It may be moved to another thread, and is used by one at a time:
///
/// ```compile_fail,E0277
/// fn shared<T: Sync>() {}
/// shared::<fochillun::Monitor>();
/// ```
pub struct Monitor {
    place: Place<Monitor>,
    answer: Vec<u8>,
}

impl Held for Monitor {
    const CLOSE: unsafe extern "C" fn(&mut Place<Monitor>) -> u32 = sys::policy_close;
}

// SAFETY of each call below: the place is lent to it alone, and is full but for `policy_open`; no two of the slices overlap, and none
// is without an address.
impl Monitor {
    /// Founds a policy with what a founding file says: its vocabulary, and the kind of its hierarchy.
    pub fn open(founding: &[u8]) -> Result<Monitor, OpenError> {
        let place = Place::filled_by(|place| unsafe {
            sys::policy_open(place, founding.as_ptr(), founding.len())
        });
        Ok(Monitor {
            place: place.map_err(OpenError::of)?,
            answer: buffer(),
        })
    }

    /// Applies the command of a JSON object, which is that command or a client line, whose member is of no concern, and gives its answer's
    /// text, which is JSON. That a command is denied is an answer.
    pub fn apply(&mut self, command: &str) -> Result<&str, ApplyError> {
        let place = &mut self.place;
        let mut is_applied = false;
        let answer = written_by(&mut self.answer, |out, written| {
            let (at, length) = (out.as_mut_ptr(), out.len());
            if is_applied {
                return unsafe { sys::policy_answer(place, at, length, written) };
            }
            // Where the buffer is too short, the command was applied. Only its answer is asked for again.
            is_applied = true;
            let text = command.as_ptr();
            unsafe { sys::policy_apply(place, text, command.len(), at, length, written) }
        });
        answer.map_err(ApplyError::of)
    }

    /// Whether the session may perform the operation on the object. It takes no memory.
    #[inline]
    pub fn check(
        &mut self,
        session: &str,
        operation: &str,
        object: &str,
    ) -> Result<bool, CheckError> {
        verdict(unsafe {
            sys::policy_check(
                &mut self.place,
                session.as_ptr(),
                session.len(),
                operation.as_ptr(),
                operation.len(),
                object.as_ptr(),
                object.len(),
            )
        })
    }

    /// The sessions and the users that may perform the operation on the object. It takes time and memory in proportion to the policy;
    /// `check` asks of one session.
    pub fn subjects(&mut self, operation: &str, object: &str) -> Result<Subjects, SubjectsError> {
        let mut text = vec![0; 4096];
        let told = written_by(&mut text, |out, written| unsafe {
            sys::policy_subjects(
                &mut self.place,
                operation.as_ptr(),
                operation.len(),
                object.as_ptr(),
                object.len(),
                out.as_mut_ptr(),
                out.len(),
                written,
            )
        });
        told.map(Subjects::of).map_err(SubjectsError::of)
    }

    /// Why the command, read as `apply` reads it, would be denied, or a check is granted or refused: the text of a JSON object, whose keys
    /// are those that `policy_explain` of include/fochillun.h lists. Nothing changes. It takes time and memory in proportion to the
    /// policy.
    pub fn explain(&mut self, command: &str) -> Result<String, ApplyError> {
        let mut text = buffer();
        let told = written_by(&mut text, |out, written| unsafe {
            sys::policy_explain(
                &mut self.place,
                command.as_ptr(),
                command.len(),
                out.as_mut_ptr(),
                out.len(),
                written,
            )
        });
        told.map(str::to_owned).map_err(ApplyError::of)
    }

    /// The client lines that make this policy, as `rbac_monitor dump` writes them. A monitor that was just opened with the same founding
    /// answers each of them `"Done"` in this order, and has the same policy then.
    pub fn dump(&mut self) -> Result<String, DumpError> {
        let mut text = vec![0; 4096];
        let dump = written_by(&mut text, |out, written| unsafe {
            sys::policy_dump(&mut self.place, out.as_mut_ptr(), out.len(), written)
        });
        dump.map(str::to_owned).map_err(DumpError::of)
    }
}

impl fmt::Debug for Monitor {
    fn fmt(&self, f: &mut fmt::Formatter<'_>) -> fmt::Result {
        f.debug_struct("Monitor").finish_non_exhaustive()
    }
}
