//! A look at a group, as far as its rows go.
use super::founded::{base_of, founded};
use crate::node::Node;
use crate::stop::Stop;
use rows::{sure_get, Engine};

/// A node that follows a group, which has read what stands in its rows now.
///
/// # Errors
/// Where the rows are not what they have to be, or the engine does not say.
pub async fn survey(engine: &dyn Engine) -> Result<Node<()>, Stop> {
    let foundings = founded(engine, None).await?;
    let base = base_of(engine, &foundings).await?;
    let mut node = Node::begin(None, "", foundings, base)?;
    let mut read = 0;
    while read < node.generation().number {
        read = node.generation().number;
        for member in node.followed() {
            let mut chain = node.generation().chain(member);
            for text in sure_get(engine, chain.row(), 1).await? {
                let cell = chain.take_sent(&text);
                let cell = cell.map_err(|lost| Stop::Lost(lost.to_string()))?;
                node.put_cell(member, cell)?;
            }
        }
        node.turn()?;
    }
    Ok(node)
}
