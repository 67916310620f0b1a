//! The last messages of a generation's rows, as a diagram shows them.
use crate::message::Head;
use serde::Serialize;
use std::collections::VecDeque;

/// How many messages of each member are kept, and how many are told.
const MOST_RECENT: usize = 100;

/// A message, without what it says.
#[derive(Clone, Debug, PartialEq, Eq, Serialize)]
pub struct RecentMessage {
    /// Who sent it.
    pub member: u32,
    /// Its number in that member's row.
    pub number: u32,
    /// Its stamp: clock and member. A message of many commands has as many places there.
    pub stamp: (u64, u32),
    /// How many commands it has; none is an acknowledgement, or the row's seal.
    pub commands: usize,
    /// Up to which message its member had taken the rows of members 1, 2 and so on when it was made.
    pub taken: Vec<u64>,
}

/// The last messages of each member that were read or set.
#[derive(Debug, Default)]
pub(crate) struct Recent {
    rows: Vec<VecDeque<RecentMessage>>,
}

impl Recent {
    /// A message of a member's row was read, or set there, when its member had taken so many messages of each.
    pub(super) fn put(&mut self, member: u32, number: u32, head: Head, taken: Vec<u64>) {
        let row = member as usize - 1;
        if self.rows.len() <= row {
            self.rows.resize_with(row + 1, VecDeque::new);
        }
        let row = &mut self.rows[row];
        if row.len() == MOST_RECENT {
            row.pop_front();
        }
        row.push_back(RecentMessage {
            member,
            number,
            stamp: head.stamp,
            commands: head.commands,
            taken,
        });
    }

    /// The last of all of them, in the order of their stamps.
    pub(crate) fn messages(&self) -> Vec<RecentMessage> {
        let mut all: Vec<_> = self.rows.iter().flatten().cloned().collect();
        all.sort_by_key(|message| message.stamp);
        all.split_off(all.len().saturating_sub(MOST_RECENT))
    }
}

#[cfg(test)]
mod tests {
    use super::{Head, Recent, MOST_RECENT};

    #[test]
    fn the_last_messages_are_told_in_the_order_of_their_stamps() {
        let mut recent = Recent::default();
        let head = |clock: u32, member: u32| Head {
            stamp: (clock.into(), member),
            commands: 2,
        };
        for number in 1..=120 {
            recent.put(2, number, head(2 * number, 2), vec![1, 0]);
        }
        for number in 1..=30 {
            recent.put(1, number, head(2 * number + 181, 1), vec![1, 0]);
        }
        let told = recent.messages();
        assert_eq!(told.len(), MOST_RECENT);
        assert!(told.windows(2).all(|two| two[0].stamp < two[1].stamp));
        let last = told.last().unwrap();
        assert_eq!((last.member, last.number, last.commands), (1, 30, 2));
        assert_eq!(told.iter().filter(|it| it.member == 1).count(), 30);
    }
}
