//! What callers send.
use super::asking::Wanted;
use super::replies::Told;
use super::Asker;
use crate::decision_log::View;
use hyper::body::HttpBody;
use hyper::{Body, Request, Uri};
use std::time::Duration;

/// The most bytes of a request's body.
const MOST_BYTES: usize = 1 << 20;

/// How long a body may take.
const LONGEST_BODY: Duration = Duration::from_secs(30);

/// Reads a request's body, which is a text, and has its caller pay for it.
pub(super) async fn body_of(asker: &Asker, request: Request<Body>) -> Result<String, Told> {
    let read = tokio::time::timeout(LONGEST_BODY, all_of(request.into_body()));
    let body = match read.await {
        Ok(body) => body?,
        Err(_) => return Err(Told::BadRequest("the body does not end".to_owned())),
    };
    asker.caller.spend(0, body.len());
    // Of fields that nobody reads it would not be seen.
    String::from_utf8(body).map_err(|_| Told::BadRequest("the body is no UTF-8".to_owned()))
}

async fn all_of(mut body: Body) -> Result<Vec<u8>, Told> {
    let mut read = Vec::new();
    while let Some(part) = body.data().await {
        let part = part.map_err(|error| Told::BadRequest(error.to_string()))?;
        if read.len() + part.len() > MOST_BYTES {
            return Err(Told::TooLong(MOST_BYTES));
        }
        read.extend_from_slice(&part);
    }
    Ok(read)
}

/// The words of a query, each `name=value`.
pub(super) fn words(uri: &Uri) -> impl Iterator<Item = (&str, &str)> {
    let words = uri.query().into_iter().flat_map(|query| query.split('&'));
    words.map(|word| word.split_once('=').unwrap_or((word, "")))
}

/// How a question is to be answered: `consistency=ordered|local&at_least=G.CLOCK.MEMBER.PLACE`, of which each may be missing.
pub(super) fn wanted_of(uri: &Uri) -> Result<Wanted, Told> {
    let mut wanted = Wanted::default();
    for (name, value) in words(uri) {
        wanted_by(&mut wanted, name, value)?;
    }
    Ok(wanted)
}

/// What one word of a query says of that.
pub(super) fn wanted_by(wanted: &mut Wanted, name: &str, value: &str) -> Result<(), Told> {
    match (name, value) {
        ("consistency", "ordered") => wanted.view = Some(View::Ordered),
        ("consistency", "local") => wanted.view = Some(View::Local),
        ("at_least", text) => {
            let at_least = text.parse().map_err(|_| bad_wanted())?;
            wanted.at_least = Some(at_least);
        }
        _ => return Err(bad_wanted()),
    }
    Ok(())
}

fn bad_wanted() -> Told {
    let why = "the query is consistency=ordered|local&at_least=G.CLOCK.MEMBER.PLACE";
    Told::BadRequest(why.to_owned())
}

/// The generation and the number of the first record that are asked for: `generation=G&from=N`, of which each may be missing.
pub(super) fn from_of(uri: &Uri) -> Result<(Option<u64>, u64), Told> {
    let (mut generation, mut from) = (None, 1);
    let number = |text: &str| text.parse().ok().filter(|number| *number > 0);
    for word in words(uri) {
        match word {
            ("generation", text) => generation = Some(number(text).ok_or_else(bad_query)?),
            ("from", text) => from = number(text).ok_or_else(bad_query)?,
            _ => return Err(bad_query()),
        }
    }
    Ok((generation, from))
}

fn bad_query() -> Told {
    Told::BadRequest("the query is generation=G&from=N, with numbers from 1 on".to_owned())
}
