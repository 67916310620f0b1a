//! What is there of a member before it is made of its row: of one that is made anew since the row ended without what was in its memory, who waits.
use super::call::Reply;
use super::history::Place;
use super::opening::Begins;
use super::RowMember;

#[derive(Debug)]
pub(crate) struct Left<W> {
    pub(crate) begins: Begins,
    /// Who waits for a call that is set.
    waiting: Vec<(Place, W)>,
    pub(crate) told: Vec<(W, Reply)>,
}

impl<W> Left<W> {
    /// Of one that was none before.
    pub(crate) fn of(begins: Begins) -> Left<W> {
        Left {
            begins,
            waiting: Vec::new(),
            told: Vec::new(),
        }
    }
}

impl<W> RowMember<W> {
    /// What is left of it where it is to be made anew.
    pub(crate) fn into_left(self) -> Left<W> {
        Left {
            begins: self.taking.opening.begins,
            waiting: self.history.into_waiting(),
            told: self.told,
        }
    }

    /// Goes on with what was left of the one that it is made anew of.
    pub(crate) fn go_on_with(&mut self, left: Left<W>) {
        for (place, waiter) in left.waiting {
            self.history.wait(place, waiter);
        }
        self.told.extend(left.told);
    }
}
