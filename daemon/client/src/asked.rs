//! What is asked.
use crate::address::Address;
use crate::error::{Error, Why};
use hyper::header::{AUTHORIZATION, CONTENT_TYPE, HOST};
use hyper::{Body, Method, Request};
use rand::Rng;
use serde_json::{json, Value};

/// The header of a call's id.
pub(crate) const KEY: &str = "idempotency-key";

const REQUEST_ID: &str = "x-request-id";
const LONGEST_ID: usize = 128;

/// Of whom it is asked.
#[derive(Clone, Debug, PartialEq, Eq)]
pub struct Subject {
    kind: &'static str,
    id: String,
    session: Option<String>,
}

impl Subject {
    /// A session: by its active roles, and those that they inherit.
    pub fn session(name: &str) -> Subject {
        Subject {
            kind: "session",
            id: name.to_owned(),
            session: None,
        }
    }

    /// A user: by all roles that the user is authorized for.
    pub fn user(name: &str) -> Subject {
        Subject {
            kind: "user",
            id: name.to_owned(),
            session: None,
        }
    }

    /// A session of a user, which has to be the user's.
    pub fn user_in(name: &str, session: &str) -> Subject {
        Subject {
            kind: "user",
            id: name.to_owned(),
            session: Some(session.to_owned()),
        }
    }

    pub(crate) fn body(&self) -> Value {
        let subject = json!({ "type": self.kind, "id": self.id });
        match &self.session {
            None => json!({ "subject": subject }),
            Some(session) => json!({ "subject": subject, "context": { "session": session } }),
        }
    }
}

/// Which subjects are sought.
#[derive(Clone, Copy, Debug, PartialEq, Eq)]
pub enum SubjectKind {
    /// Sessions, by their active roles and those that they inherit.
    Session,
    /// Users, by all roles that they are authorized for.
    User,
}

impl SubjectKind {
    pub(crate) fn word(self) -> &'static str {
        match self {
            SubjectKind::Session => "session",
            SubjectKind::User => "user",
        }
    }
}

/// Whether a subject may perform an action, an operation, on a resource, an object.
#[derive(Clone, Debug, PartialEq, Eq)]
pub struct Evaluation {
    /// Who.
    pub subject: Subject,
    /// The operation.
    pub action: String,
    /// The object.
    pub resource: String,
}

impl Evaluation {
    /// One of these names.
    pub fn of(subject: Subject, action: &str, resource: &str) -> Evaluation {
        Evaluation {
            subject,
            action: action.to_owned(),
            resource: resource.to_owned(),
        }
    }

    pub(crate) fn body(&self) -> Value {
        let mut body = self.subject.body();
        body["action"] = json!({ "name": self.action });
        body["resource"] = json!({ "type": "object", "id": self.resource });
        body
    }
}

/// Where a list of evaluations ends.
#[derive(Clone, Copy, Debug, Default, PartialEq, Eq)]
pub enum Semantic {
    /// At its end.
    #[default]
    ExecuteAll,
    /// Behind the first that is not granted.
    DenyOnFirstDeny,
    /// Behind the first that is.
    PermitOnFirstPermit,
}

impl Semantic {
    pub(crate) fn word(self) -> &'static str {
        match self {
            Semantic::ExecuteAll => "execute_all",
            Semantic::DenyOnFirstDeny => "deny_on_first_deny",
            Semantic::PermitOnFirstPermit => "permit_on_first_permit",
        }
    }

    /// The decision that ends a list.
    pub(crate) fn cuts(self) -> Option<bool> {
        match self {
            Semantic::ExecuteAll => None,
            Semantic::DenyOnFirstDeny => Some(false),
            Semantic::PermitOnFirstPermit => Some(true),
        }
    }
}

/// By what a question is answered.
#[derive(Clone, Copy, Debug, PartialEq, Eq)]
pub enum Consistency {
    /// By a command in the members' order.
    Ordered,
    /// By what the process has delivered.
    Local,
}

/// What an answer is to rest on, and how its request is called in logs. Each may be left to the process, and to the client.
#[derive(Clone, Debug, Default)]
pub struct Rests {
    /// By what it is answered.
    pub consistency: Option<Consistency>,
    /// What was told before, as `at` of it has it, which the answer knows.
    pub at_least: Option<String>,
    /// The request's name.
    pub request_id: Option<String>,
}

impl Rests {
    pub(crate) fn asked(
        &self,
        method: Method,
        path: &str,
        body: Option<Value>,
    ) -> Result<Asked, Error> {
        let mut words = Vec::new();
        match self.consistency {
            Some(Consistency::Ordered) => words.push("consistency=ordered".to_owned()),
            Some(Consistency::Local) => words.push("consistency=local".to_owned()),
            None => {}
        }
        let id = id_or_new(self.request_id.as_deref());
        if let Some(at_least) = &self.at_least {
            let is_at = |it: char| it.is_ascii_digit() || it == '.';
            if !at_least.chars().all(is_at) {
                let why = "`at_least` is what `at` told before";
                return Err(Error::of(Why::NotAsked(why.to_owned()), &id));
            }
            words.push(format!("at_least={at_least}"));
        }
        let target = match words.is_empty() {
            true => path.to_owned(),
            false => format!("{path}?{}", words.join("&")),
        };
        Ok(Asked::of(method, target, body, id))
    }
}

/// A request, wherever it is sent.
#[derive(Clone, Debug)]
pub(crate) struct Asked {
    method: Method,
    target: String,
    body: Option<Value>,
    pub(crate) id: String,
    pub(crate) key: Option<String>,
}

impl Asked {
    pub(crate) fn of(method: Method, target: String, body: Option<Value>, id: String) -> Asked {
        Asked {
            method,
            target,
            body,
            id,
            key: None,
        }
    }

    pub(crate) fn request(
        &self,
        address: &Address,
        token: Option<String>,
    ) -> Result<Request<Body>, Error> {
        let mut request = Request::builder()
            .method(&self.method)
            .uri(&self.target)
            .header(HOST, address.host())
            .header(REQUEST_ID, &self.id);
        if let Some(token) = token {
            request = request.header(AUTHORIZATION, format!("Bearer {token}"));
        }
        if let Some(key) = &self.key {
            request = request.header(KEY, key);
        }
        let body = match &self.body {
            Some(body) => {
                request = request.header(CONTENT_TYPE, "application/json");
                Body::from(body.to_string())
            }
            None => Body::empty(),
        };
        let request = request.body(body);
        request.map_err(|error| self.fault(Why::NotAsked(error.to_string())))
    }

    pub(crate) fn fault(&self, why: Why) -> Error {
        Error::of(why, &self.id)
    }

    pub(crate) fn bad(&self, why: &str) -> Error {
        self.fault(Why::BadReply(why.to_owned()))
    }
}

/// An id that nothing else has.
pub(crate) fn new_id() -> String {
    format!("{:032x}", rand::thread_rng().gen::<u128>())
}

/// The id that is given, or a new one.
pub(crate) fn id_or_new(id: Option<&str>) -> String {
    id.map_or_else(new_id, str::to_owned)
}

/// Whether an id can be sent.
pub(crate) fn is_id(id: &str) -> bool {
    (1..=LONGEST_ID).contains(&id.len()) && id.bytes().all(|it| it.is_ascii_graphic())
}
