//! Tidings: what NOTIFY tells. One that is lost delays until the next sweep.
use super::session::Session;
use super::target::{Target, Task};
use crate::arrivals::Arrivals;
use crate::engine::{Fault, Tidings};
use crate::name::RowName;
use bytes::Bytes;
use std::collections::HashMap;
use std::sync::{self, Arc, MutexGuard, PoisonError, Weak};
use std::time::Duration;
use tokio::sync::Mutex;
use tokio::time::{sleep, timeout};

const PAUSE: Duration = Duration::from_millis(500);

/// After so long a server is asked whether it still answers.
const ASKED_AFTER: Duration = Duration::from_secs(10);

/// What is told of a row on the channel that anybody may hear and tell on: that its cells up to this number may be set.
pub(super) fn tiding(row: &RowName, last: u64) -> String {
    format!("{row} {last}")
}

type Rows = HashMap<String, Vec<Weak<Arrivals>>>;

/// The rows that are followed, and who follows each of them.
#[derive(Default)]
pub(super) struct Followed {
    rows: sync::Mutex<Rows>,
    /// The channel on which the server tells texts to the connection that hears; none where it does not.
    channel: sync::Mutex<Option<String>>,
}

impl Followed {
    fn rows(&self) -> MutexGuard<'_, Rows> {
        self.rows.lock().unwrap_or_else(PoisonError::into_inner)
    }

    fn hear_on(&self, channel: Option<String>) {
        *self.channel.lock().unwrap_or_else(PoisonError::into_inner) = channel;
    }

    /// On which channel a set of cells in this row need not be told: on that of this process, where it does not follow the row.
    pub(super) fn deaf_to(&self, row: &RowName) -> Option<String> {
        let following = self.rows();
        let mut following = following.get(row.as_str()).into_iter().flatten();
        if following.any(|it| it.strong_count() > 0) {
            return None;
        }
        let channel = self.channel.lock();
        channel.unwrap_or_else(PoisonError::into_inner).clone()
    }

    pub(super) fn follow(&self, row: &RowName) -> Box<dyn Tidings> {
        let arrivals = Arc::new(Arrivals::default());
        let mut rows = self.rows();
        let following = rows.entry(row.as_str().to_owned()).or_default();
        following.retain(|it| it.strong_count() > 0);
        following.push(Arc::downgrade(&arrivals));
        Box::new(arrivals)
    }

    /// A tiding came: the row, a number, and the cell's text behind `=` where it comes along. `is_sure` says whether the server alone can have told it:
    /// else nothing but the number is heard. What is no tiding is not heard at all.
    pub(super) fn tell(&self, tiding: &str, is_sure: bool) {
        let mut words = tiding.splitn(3, ' ');
        let (Some(row), Some(number)) = (words.next(), words.next()) else {
            return;
        };
        let Ok(number) = number.parse() else {
            return;
        };
        let text = words.next().filter(|_| is_sure);
        let text = text.and_then(|text| unescaped(text.strip_prefix('=')?));
        let rows = self.rows();
        let following = rows.get(row).into_iter().flatten();
        for arrivals in following.filter_map(Weak::upgrade) {
            match &text {
                Some(text) => arrivals.put(vec![(number, text.clone())]),
                None => arrivals.reach(number),
            }
        }
    }

    /// Tidings may have been lost.
    fn tell_all(&self) {
        for arrivals in { self.rows().values() }.flatten().filter_map(Weak::upgrade) {
            arrivals.may_be_more();
        }
    }
}

/// The bytes of which PostgreSQL's `encode(.., 'escape')` has made this text; none where it has not: a backslash stands before another one, or before
/// the three octal digits of a byte.
fn unescaped(told: &str) -> Option<Bytes> {
    let (mut bytes, mut rest) = (Vec::with_capacity(told.len()), told);
    while let Some((plain, escaped)) = rest.split_once('\\') {
        bytes.extend_from_slice(plain.as_bytes());
        let (byte, length) = match escaped.strip_prefix('\\') {
            Some(_) => (b'\\', 1),
            None => (u8::from_str_radix(escaped.get(..3)?, 8).ok()?, 3),
        };
        bytes.push(byte);
        rest = &escaped[length..];
    }
    bytes.extend_from_slice(rest.as_bytes());
    Some(bytes.into())
}

/// A connection that hears tidings, over which rows are read too: several gets at a time, each sent behind the others, which waits for none of them. So
/// the server's process that has told of a cell is awake when it is asked for it.
pub(super) struct Hearing {
    target: Arc<Target>,
    session: Mutex<Option<Arc<Session>>>,
}

impl Hearing {
    /// # Errors
    /// As of [`Hearing::session`].
    pub(super) async fn begin(target: Arc<Target>) -> Result<(Arc<Hearing>, Task), Fault> {
        let hearing = Arc::new(Hearing {
            target,
            session: Mutex::new(None),
        });
        hearing.session().await?;
        let task = Task(tokio::spawn(Arc::clone(&hearing).go_on()));
        Ok((hearing, task))
    }

    /// The connection, which is made anew where it broke. Tidings may have been lost then: each row may have more cells.
    ///
    /// # Errors
    /// `Silent` and `Refused`, where there is no connection.
    pub(super) async fn session(&self) -> Result<Arc<Session>, Fault> {
        let mut place = self.session.lock().await;
        if let Some(session) = place.as_ref().filter(|session| session.is_open()) {
            return Ok(Arc::clone(session));
        }
        let session = self.target.connect().await?;
        self.target.followed.hear_on(session.listen().await?);
        let session = Arc::new(session);
        *place = Some(Arc::clone(&session));
        self.target.followed.tell_all();
        Ok(session)
    }

    /// A request was not answered over this connection: none is sent over it any more.
    pub(super) async fn leave(&self, session: &Arc<Session>) {
        let mut place = self.session.lock().await;
        if place.as_ref().is_some_and(|it| Arc::ptr_eq(it, session)) {
            *place = None;
        }
    }

    /// Keeps a connection, also while nobody reads.
    async fn go_on(self: Arc<Self>) {
        loop {
            if let Err(fault) = self.stay().await {
                tracing::debug!("PostgreSQL: no tidings: {fault}");
                sleep(PAUSE).await;
            }
        }
    }

    /// Returns once the connection has ended, or after a while in which the server still answers.
    async fn stay(&self) -> Result<(), Fault> {
        // Nobody has it here: one that is left ends.
        let mut ended = self.session().await?.ended();
        if timeout(ASKED_AFTER, ended.changed()).await.is_err() {
            let session = self.session().await?;
            if let Err(fault) = session.is_answered().await {
                self.leave(&session).await;
                return Err(fault);
            }
        }
        Ok(())
    }
}

#[cfg(test)]
mod tests {
    use super::{unescaped, Followed};
    use crate::name::RowName;
    use std::time::Duration;
    use tokio::time::timeout;

    const LONG: Duration = Duration::from_secs(60);

    #[tokio::test]
    async fn what_an_older_function_tells_is_a_number_alone() {
        let followed = Followed::default();
        let mut tidings = followed.follow(&RowName::of_node("n1", 1).unwrap());
        followed.tell("n1/g1 1 6f6e65", true);
        let told = timeout(LONG / 2, tidings.wait(1, LONG)).await;
        assert!(told.unwrap().is_empty());
        followed.tell(r"n1/g1 1 =o \\e", true);
        let told = timeout(LONG / 2, tidings.wait(1, LONG)).await;
        assert_eq!(told.unwrap(), [r"o \e"]);
    }

    #[test]
    fn what_was_escaped_is_read_back() {
        let read = |told: &str| unescaped(told).map(|bytes| bytes.to_vec());
        for (told, bytes) in [
            ("", &b""[..]),
            ("{\"a b\":1}", b"{\"a b\":1}"),
            (r"\\n\\\\", br"\n\\"),
            (r"\000x\3777", b"\0x\xff7"),
        ] {
            assert_eq!(read(told).as_deref(), Some(bytes), "{told}");
        }
        for told in [r"\", r"a\37", r"\400", r"\x41", "\\2\u{e9}0"] {
            assert_eq!(read(told), None, "{told}");
        }
    }
}
