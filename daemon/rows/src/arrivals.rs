//! What came of a row by tidings, until who follows the row takes it.
use crate::engine::Tidings;
use async_trait::async_trait;
use bytes::Bytes;
use std::sync::{Arc, Mutex, MutexGuard, PoisonError};
use std::time::Duration;
use tokio::sync::Notify;
use tokio::time::timeout;

/// So many cells, of so many bytes, are kept.
const MOST_CELLS: usize = 1000;
const MOST_BYTES: usize = 4 << 20;

/// What came and was not taken yet.
#[derive(Default)]
pub(crate) struct Arrivals {
    come: Mutex<Come>,
    is_new: Notify,
}

#[derive(Default)]
struct Come {
    /// Cells with their texts, such as a get would show, by their numbers, as they came.
    cells: Vec<(u64, Bytes)>,
    bytes: usize,
    /// Up to which number cells were said to be set.
    last: u64,
    /// Whether there may be others.
    are_more: bool,
}

impl Come {
    fn take(&mut self, cells: Vec<(u64, Bytes)>) {
        let bytes: usize = cells.iter().map(|(_, text)| text.len()).sum();
        let has_room =
            self.cells.len() + cells.len() <= MOST_CELLS && self.bytes + bytes <= MOST_BYTES;
        if has_room {
            self.cells.extend(cells);
            self.bytes += bytes;
        } else {
            self.are_more = true;
        }
    }

    /// What is told to who wants the cells from a number on; none where nothing is to be told.
    fn told(&mut self, next: u64) -> Option<Vec<Bytes>> {
        self.bytes = 0;
        let mut cells = std::mem::take(&mut self.cells);
        cells.retain(|(number, _)| *number >= next);
        let follows = |((number, _), expected): (&(u64, Bytes), u64)| *number == expected;
        let has_gap = !cells.iter().zip(next..).all(follows);
        if std::mem::take(&mut self.are_more) || has_gap {
            return Some(Vec::new());
        }
        if cells.is_empty() {
            // What was told was told of what a get shows now: it is not told again.
            return (self.last >= next).then(|| {
                self.last = 0;
                Vec::new()
            });
        }
        Some(cells.into_iter().map(|(_, text)| text).collect())
    }
}

impl Arrivals {
    fn change(&self, change: impl FnOnce(&mut Come)) {
        change(&mut self.come());
        self.is_new.notify_one();
    }

    fn come(&self) -> MutexGuard<'_, Come> {
        self.come.lock().unwrap_or_else(PoisonError::into_inner)
    }

    /// These cells are set. Where there is no room for them, it is kept that there are more.
    pub(crate) fn put(&self, cells: Vec<(u64, Bytes)>) {
        self.change(|come| come.take(cells));
    }

    /// Cells up to this number may be set.
    pub(crate) fn reach(&self, last: u64) {
        self.change(|come| come.last = come.last.max(last));
    }

    /// There may be more cells.
    pub(crate) fn may_be_more(&self) {
        self.change(|come| come.are_more = true);
    }

    /// What came of the cells from a number on, once something did: their texts, or none where others may be there before them, or texts did not come.
    /// It may be dropped at any time.
    async fn next(&self, next: u64) -> Vec<Bytes> {
        loop {
            let told = self.come().told(next);
            if let Some(texts) = told {
                return texts;
            }
            self.is_new.notified().await;
        }
    }
}

/// Of one who follows the row.
#[async_trait]
impl Tidings for Arc<Arrivals> {
    async fn wait(&mut self, next: u64, longest: Duration) -> Vec<Bytes> {
        let told = timeout(longest, self.next(next)).await;
        told.unwrap_or_default()
    }
}

#[cfg(test)]
mod tests {
    use super::{Arrivals, MOST_BYTES, MOST_CELLS};
    use bytes::Bytes;
    use std::time::Duration;
    use tokio::time::timeout;

    fn cell(number: u64) -> (u64, Bytes) {
        (number, number.to_string().into())
    }

    async fn is_silent(arrivals: &Arrivals, next: u64) -> bool {
        let waited = timeout(Duration::from_secs(60), arrivals.next(next)).await;
        waited.is_err()
    }

    #[tokio::test(start_paused = true)]
    async fn what_follows_is_taken_once_and_a_gap_is_told() {
        let arrivals = Arrivals::default();
        arrivals.put(vec![cell(2), cell(3), cell(4)]);
        assert_eq!(arrivals.next(3).await, ["3", "4"]);
        assert!(is_silent(&arrivals, 5).await);
        arrivals.put(vec![cell(4)]);
        assert!(is_silent(&arrivals, 5).await);
        arrivals.put(vec![cell(6)]);
        assert!(arrivals.next(5).await.is_empty());
        arrivals.put(vec![cell(5)]);
        arrivals.may_be_more();
        assert!(arrivals.next(5).await.is_empty());
        arrivals.put(vec![cell(5)]);
        assert_eq!(arrivals.next(5).await, ["5"]);
    }

    #[tokio::test(start_paused = true)]
    async fn a_number_is_told_once_where_it_is_not_behind() {
        let arrivals = Arrivals::default();
        arrivals.reach(3);
        assert!(is_silent(&arrivals, 4).await);
        assert!(arrivals.next(3).await.is_empty());
        assert!(is_silent(&arrivals, 3).await);
        arrivals.put(vec![cell(3), cell(4)]);
        arrivals.reach(5);
        assert_eq!(arrivals.next(3).await, ["3", "4"]);
        assert!(arrivals.next(5).await.is_empty());
        arrivals.reach(u64::MAX);
        assert!(arrivals.next(5).await.is_empty());
        assert!(is_silent(&arrivals, 5).await);
    }

    #[tokio::test]
    async fn what_there_is_no_room_for_is_to_be_read() {
        let arrivals = Arrivals::default();
        arrivals.put((1..=MOST_CELLS as u64).map(cell).collect());
        assert_eq!(arrivals.next(1).await.len(), MOST_CELLS);
        arrivals.put((1..=MOST_CELLS as u64 + 1).map(cell).collect());
        assert!(arrivals.next(1).await.is_empty());
        arrivals.put(vec![(1, Bytes::from(vec![b'a'; MOST_BYTES])), cell(2)]);
        assert!(arrivals.next(1).await.is_empty());
    }
}
