//! Whether the process is ready, and what it counts.
use super::replies::Told;
use super::{Callers, State};
use crate::node::Phase;
use std::time::Duration;

impl Callers {
    /// Whether callers are better sent elsewhere.
    pub(super) async fn answer_ready(&self) -> Result<Told, Told> {
        let state = self.state().await?;
        Ok(match unready(&state, self.freshness) {
            None => Told::Ready,
            Some(why) => Told::NotReady(why),
        })
    }

    pub(super) async fn answer_metrics(&self) -> Result<Told, Told> {
        let state = self.state().await?;
        let sets = self.asking.engine.sets();
        Ok(Told::Metrics(self.asking.metrics.text(&state, sets)))
    }
}

/// Why a process is not ready: a member serves with an open row and a policy that is shown; and the rows were read lately.
fn unready(state: &State, freshness: Duration) -> Option<&'static str> {
    match state.phase {
        Phase::Begins => Some("its generation begins"),
        Phase::Ends => Some("its generation ends"),
        _ if state.shown.is_none() => Some("it has not read the policy yet"),
        _ if Duration::from_millis(state.engine.read_ms_ago) > freshness => {
            Some("the rows were not read lately")
        }
        Phase::Serves | Phase::Follows => None,
    }
}
