//! The founding's row: founding a group, reading what it was founded with, and where a process begins.
use crate::founding::{FoundingFault, NewGroup};
use crate::generation::{CellFault, Foundings};
use crate::node::Base;
use crate::stop::Stop;
use rows::{sure_get, sure_set, Engine, Fault, RowName};
use std::time::Duration;

/// After this time a node that can't found the group looks whether another has.
const PAUSE: Duration = Duration::from_millis(500);

/// The founding's row, once the group is founded: by this process, where nobody else has, or by another.
///
/// # Errors
/// Where the group was founded with something else, or the engine does not say.
pub(super) async fn founded(
    engine: &dyn Engine,
    new_group: Option<&NewGroup>,
) -> Result<Foundings, Stop> {
    let row = RowName::founding();
    loop {
        let there = sure_get(engine, &row, 1).await?;
        if !there.is_empty() {
            let mut foundings = Foundings::new();
            for text in &there {
                foundings.take(text).map_err(stop_of)?;
            }
            return match new_group.map_or(Ok(()), |new_group| compare(&foundings, new_group)) {
                Ok(()) => Ok(foundings),
                Err(fault) => Err(fault.into()),
            };
        }
        match new_group {
            Some(new_group) => found(engine, new_group).await?,
            None => tokio::time::sleep(PAUSE).await,
        }
    }
}

async fn found(engine: &dyn Engine, new_group: &NewGroup) -> Result<(), Fault> {
    let (nodes, file) = (&new_group.nodes, Some(new_group.file.as_str()));
    let (number, text) = Foundings::new().proposal(nodes, file, "");
    let row = RowName::founding();
    match sure_set(engine, &row, number, std::slice::from_ref(&text)).await {
        // Another node may found it, or somebody makes room.
        Err(fault @ (Fault::Refused(_) | Fault::Full)) => {
            tracing::info!("the group can't be founded here now: {fault}");
            tokio::time::sleep(PAUSE).await;
            Ok(())
        }
        told => told.map(drop),
    }
}

/// Whether the first generation was founded with this.
fn compare(foundings: &Foundings, new_group: &NewGroup) -> Result<(), FoundingFault> {
    let first = foundings.first();
    if first.file != new_group.file {
        return Err(FoundingFault::Differs("another founding file"));
    }
    if first.nodes != new_group.nodes {
        return Err(FoundingFault::Differs("other nodes"));
    }
    Ok(())
}

pub(super) fn stop_of(fault: CellFault) -> Stop {
    match fault {
        CellFault::Differs(fault) => fault.into(),
        CellFault::Lost(lost) => Stop::Lost(lost.to_string()),
    }
}

/// Where a process begins: at the last generation that is over and was not void, since calls of that one are answered still. The one that goes on is the
/// last whose dump stands in its first member's row to its end.
pub(super) async fn base_of(engine: &dyn Engine, foundings: &Foundings) -> Result<Base, Fault> {
    let mut goes_on = None;
    for generation in (2..=foundings.latest()).rev() {
        let first = &foundings.nodes(generation)[0];
        let row = RowName::of_node(first, generation).expect("nodes have names");
        match (
            Base::of(generation, &sure_get(engine, &row, 1).await?),
            goes_on,
        ) {
            (Some(base), Some(())) => return Ok(base),
            (Some(_), None) => goes_on = Some(()),
            (None, _) => {}
        }
    }
    Ok(Base::FIRST)
}

#[cfg(test)]
mod tests {
    use super::founded;
    use crate::founding::{new_group, FoundingFault, NewGroup};
    use crate::stop::Stop;
    use rows::{Engine, Files, RowName};

    #[tokio::test]
    async fn whoever_joins_with_another_founding_stops() {
        let folder = tempfile::tempdir().unwrap();
        let engine = Files::of(folder.path());
        let group = new_group("members = 1", &["a".to_owned()]).unwrap();
        let first = founded(&engine, Some(&group)).await.unwrap();
        let again = founded(&engine, Some(&group)).await.unwrap();
        assert_eq!(first.text(1), again.text(1));
        let none = founded(&engine, None).await.unwrap();
        assert_eq!(first.text(1), none.text(1));
        let changes: [fn(&mut NewGroup); 2] = [|it| it.file.push(' '), |it| it.nodes[0].push('b')];
        for change in changes {
            let mut other = group.clone();
            change(&mut other);
            let told = founded(&engine, Some(&other)).await.unwrap_err();
            assert!(matches!(told, Stop::Founding(FoundingFault::Differs(_))));
        }
        let cells = engine.get(&RowName::founding(), 1).await.unwrap();
        assert_eq!(cells.len(), 1);
    }
}
