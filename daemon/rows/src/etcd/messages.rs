//! What is asked of etcd's gateway and what it answers, as JSON: bytes in base64, and numbers of 64 bits as texts.
use bytes::Bytes;
use serde::{Deserialize, Serialize};

pub(super) const AUTHENTICATE: &str = "/v3/auth/authenticate";
pub(super) const RANGE: &str = "/v3/kv/range";
pub(super) const STATUS: &str = "/v3/maintenance/status";
pub(super) const TRANSACTION: &str = "/v3/kv/txn";
pub(super) const WATCH: &str = "/v3/watch";

#[derive(Debug, Serialize)]
pub(super) struct Authenticate<'a> {
    pub(super) name: &'a str,
    pub(super) password: &'a str,
}

#[derive(Deserialize)]
pub(super) struct Authenticated {
    pub(super) token: String,
}

/// Nothing: what a status is asked by.
#[derive(Debug, Serialize)]
pub(super) struct Empty {}

#[derive(Debug, Deserialize)]
pub(super) struct Status {
    pub(super) header: Header,
    pub(super) version: String,
}

/// What each reply begins with.
#[derive(Clone, Copy, Debug, Deserialize)]
pub(super) struct Header {
    #[serde(with = "number")]
    pub(super) cluster_id: u64,
    /// The number of changes of the store.
    #[serde(default, with = "number")]
    pub(super) revision: u64,
}

/// A key, or those from one on up to another.
#[derive(Debug, Default, Serialize)]
pub(super) struct Range {
    #[serde(with = "base")]
    pub(super) key: Bytes,
    /// The first key behind; empty where the one key is meant.
    #[serde(with = "base", skip_serializing_if = "Bytes::is_empty")]
    pub(super) range_end: Bytes,
    /// The most that are told; 0 for all.
    pub(super) limit: u32,
    pub(super) keys_only: bool,
    /// Whether the member that is asked tells what it has, and asks no other.
    pub(super) serializable: bool,
}

#[derive(Debug, Deserialize)]
pub(super) struct Ranged {
    pub(super) header: Header,
    #[serde(default)]
    pub(super) kvs: Vec<Found>,
    /// Whether there are more behind these.
    #[serde(default)]
    pub(super) more: bool,
}

#[derive(Debug, Deserialize)]
pub(super) struct Found {
    #[serde(with = "base")]
    pub(super) key: Bytes,
    #[serde(default, with = "base")]
    pub(super) value: Bytes,
    /// At which revision it was made; 0 where it was removed.
    #[serde(default, with = "number")]
    pub(super) create_revision: u64,
}

/// The operations of `success` where all comparisons hold, and those of `failure` where one does not.
#[derive(Debug, Serialize)]
pub(super) struct Transaction {
    pub(super) compare: Vec<Compare>,
    pub(super) success: Vec<Operation>,
    pub(super) failure: Vec<Operation>,
}

/// Compares the revision at which a key, or each key of a range, was made; that of a key which is not there is 0.
#[derive(Debug, Serialize)]
pub(super) struct Compare {
    #[serde(with = "base")]
    pub(super) key: Bytes,
    #[serde(with = "base", skip_serializing_if = "Bytes::is_empty")]
    pub(super) range_end: Bytes,
    pub(super) target: &'static str,
    pub(super) result: &'static str,
    pub(super) create_revision: u32,
}

impl Compare {
    /// That no key of a range is there.
    pub(super) fn none(key: Bytes, range_end: Bytes) -> Compare {
        Compare {
            key,
            range_end,
            target: "CREATE",
            result: "EQUAL",
            create_revision: 0,
        }
    }

    /// That a key is there.
    pub(super) fn there(key: Bytes) -> Compare {
        Compare {
            key,
            range_end: Bytes::new(),
            target: "CREATE",
            result: "GREATER",
            create_revision: 0,
        }
    }
}

#[derive(Debug, Serialize)]
pub(super) enum Operation {
    #[serde(rename = "request_put")]
    Put {
        #[serde(with = "base")]
        key: Bytes,
        #[serde(with = "base")]
        value: Bytes,
    },
    #[serde(rename = "request_range")]
    Range(Range),
    #[serde(rename = "request_delete_range")]
    Delete {
        #[serde(with = "base")]
        key: Bytes,
        #[serde(with = "base")]
        range_end: Bytes,
    },
}

#[derive(Debug, Deserialize)]
pub(super) struct Transacted {
    pub(super) header: Header,
    #[serde(default)]
    pub(super) succeeded: bool,
    #[serde(default)]
    pub(super) responses: Vec<Response>,
}

/// What became of an operation: only of ranges anything is asked.
#[derive(Debug, Deserialize)]
pub(super) struct Response {
    #[serde(default)]
    pub(super) response_range: Option<Counted>,
}

#[derive(Debug, Deserialize)]
pub(super) struct Counted {
    #[serde(default, with = "number")]
    pub(super) count: u64,
}

#[derive(Debug, Serialize)]
pub(super) struct Watch {
    pub(super) create_request: Watched,
}

/// The keys of a range, from now on.
#[derive(Debug, Serialize)]
pub(super) struct Watched {
    #[serde(with = "base")]
    pub(super) key: Bytes,
    #[serde(with = "base")]
    pub(super) range_end: Bytes,
}

/// A line of a watch.
#[derive(Debug, Deserialize)]
pub(super) struct Line {
    #[serde(default)]
    pub(super) result: Option<Happened>,
    #[serde(default)]
    pub(super) error: Option<StreamError>,
}

#[derive(Debug, Deserialize)]
pub(super) struct Happened {
    pub(super) header: Header,
    #[serde(default)]
    pub(super) events: Vec<Event>,
    #[serde(default)]
    pub(super) created: bool,
    #[serde(default)]
    pub(super) canceled: bool,
    #[serde(default)]
    pub(super) cancel_reason: String,
}

/// A key that was set, or removed.
#[derive(Debug, Deserialize)]
pub(super) struct Event {
    pub(super) kv: Found,
}

/// The error of a reply.
#[derive(Debug, Deserialize)]
pub(super) struct ReplyError {
    pub(super) message: String,
    #[serde(default)]
    pub(super) code: u32,
}

/// The error that a watch ends with.
#[derive(Debug, Deserialize)]
pub(super) struct StreamError {
    #[serde(default)]
    pub(super) message: String,
    #[serde(default)]
    pub(super) grpc_code: u32,
}

/// Bytes in base64.
mod base {
    use bytes::Bytes;
    use serde::de::Error;
    use serde::{Deserialize, Deserializer, Serializer};

    pub(super) fn serialize<S: Serializer>(bytes: &Bytes, to: S) -> Result<S::Ok, S::Error> {
        to.serialize_str(&base64::encode(bytes))
    }

    pub(super) fn deserialize<'de, D: Deserializer<'de>>(from: D) -> Result<Bytes, D::Error> {
        let text = String::deserialize(from)?;
        let bytes = base64::decode(text).map_err(D::Error::custom)?;
        Ok(bytes.into())
    }
}

/// A number as a text.
mod number {
    use serde::de::Error;
    use serde::{Deserialize, Deserializer};

    pub(super) fn deserialize<'de, D: Deserializer<'de>>(from: D) -> Result<u64, D::Error> {
        let text = String::deserialize(from)?;
        text.parse().map_err(D::Error::custom)
    }
}
