//! What callers ask of a process.
use super::reads::AskedQueries;
use super::Waiter;
use crate::answer::{Answer, Word};
use crate::callers::State;
use crate::node::{Check, Query, RecentMessage, Shown, ShownAt};
use crate::row_member::NewCall;
use fochillun::MemberError;
use tokio::sync::oneshot;

/// What callers ask.
#[derive(Debug)]
pub(crate) enum Question {
    /// That commands are carried out.
    Call(Box<AskedCall>),
    State(oneshot::Sender<Box<State>>),
    /// By what was delivered; it waits until that is far enough.
    Ask(AskedQueries, oneshot::Sender<Shown>),
    /// The policy as commands, by what was delivered; none where nothing is shown yet.
    Dump(oneshot::Sender<Option<Dumped>>),
    /// The generation that is shown, and its founding file; none where nothing is shown yet.
    Founding(oneshot::Sender<Option<(u64, String)>>),
    /// The last messages of the rows.
    Messages(oneshot::Sender<(u64, Vec<RecentMessage>)>),
    /// The records of a generation, or else of the one that goes on, from this number on, as many as are told at once; none where its history is not
    /// kept.
    Records {
        generation: Option<u64>,
        from: u64,
        waiter: oneshot::Sender<(u64, Option<Vec<String>>)>,
    },
}

/// A policy that can be made anew.
#[derive(Debug)]
pub(crate) struct Dumped {
    /// Up to where it is right.
    pub(crate) at: ShownAt,
    /// The founding file.
    pub(crate) founding: String,
    /// The commands that make it of what the file founds.
    pub(crate) commands: Vec<String>,
}

/// A call, and whose permissions it needs.
#[derive(Debug)]
pub(crate) struct AskedCall {
    /// The generation and the member that are asked; where none are named, whichever the node is now.
    pub(crate) at: Option<(u64, u32)>,
    pub(crate) call: NewCall,
    pub(crate) authority: Option<Authority>,
    pub(crate) waiter: Waiter,
}

/// The operation that a session needs a permission for, on an object of a command's name, so that its caller may ask that command.
const ADMINISTER: &str = "administer";

/// That a session may administer: it is the user's, and has the permission for each kind of command.
#[derive(Debug)]
pub(crate) struct Authority {
    pub(crate) user: String,
    pub(crate) session: String,
    /// The names of the commands.
    pub(crate) commands: Vec<String>,
}

impl Authority {
    pub(crate) fn queries(&self) -> Vec<Query> {
        let owner = Query::Owner {
            user: self.user.clone(),
            session: self.session.clone(),
        };
        let check = |object: &String| {
            Query::Check(Check {
                session: self.session.clone(),
                operation: ADMINISTER.to_owned(),
                object: object.clone(),
            })
        };
        [owner]
            .into_iter()
            .chain(self.commands.iter().map(check))
            .collect()
    }

    /// Whether these are the answers of who may.
    pub(crate) fn is_given(&self, answers: &[Result<Answer, MemberError>]) -> bool {
        let Some((owner, checks)) = answers.split_first() else {
            return false;
        };
        let is_owner = *owner == Ok(Answer::Word(Word::Done));
        let mut granted = checks
            .iter()
            .map(|it| it.as_ref().is_ok_and(Answer::is_granted));
        is_owner && checks.len() == self.commands.len() && granted.all(|it| it)
    }
}

/// How far the history goes.
#[derive(Clone, Copy, Debug, Default, PartialEq, Eq)]
pub(crate) struct Progress {
    /// The last generation that is over and was not void.
    pub(crate) last: Option<u64>,
    pub(crate) generation: u64,
    pub(crate) records: u64,
}
