//! The console: a page for people, and the files that it is made of, which are in the program. It asks the routes that each caller may ask.
use super::replies::Told;
use hyper::header::{
    HeaderName, CACHE_CONTROL, CONTENT_SECURITY_POLICY, CONTENT_TYPE, LOCATION, REFERRER_POLICY,
    X_CONTENT_TYPE_OPTIONS,
};
use hyper::http::response::Builder;
use hyper::{Body, Response, StatusCode};

/// Where its files are found.
const FOLDER: &str = "/console/";

/// What the page may do: scripts, styles, pictures and answers of this process alone, within no other page.
const CONTENT: &str =
    "default-src 'none'; script-src 'self'; style-src 'self'; connect-src 'self'; img-src 'self'; \
    base-uri 'none'; form-action 'none'; frame-ancestors 'none'";

const OPENER: HeaderName = HeaderName::from_static("cross-origin-opener-policy");

/// A file of the page.
#[derive(Debug)]
pub(super) struct File {
    name: &'static str,
    kind: &'static str,
    text: &'static str,
}

macro_rules! files {
    ($($kind:literal: $($name:literal)*;)*) => {
        &[$($(File {
            name: $name,
            kind: $kind,
            text: include_str!(concat!("../../console/", $name)),
        },)*)*]
    };
}

const FILES: &[File] = files! {
    "text/html; charset=utf-8": "page.html";
    "text/css; charset=utf-8": "page.css";
    "image/svg+xml": "mark.svg";
    "text/javascript; charset=utf-8": "api.js" "change.js" "check.js" "diagram.js" "dom.js" "graph.js" "layout.js" "log.js" "members.js" "page.js"
        "policy.js" "reasons.js" "search.js" "words.js";
};

/// Whether a path is the page's, or below it.
pub(super) fn is_path(path: &str) -> bool {
    path == FOLDER.trim_end_matches('/') || path.starts_with(FOLDER)
}

/// The file of a path.
pub(super) fn answer(path: &str) -> Result<Told, Told> {
    let Some(name) = path.strip_prefix(FOLDER) else {
        return Ok(Told::InFolder);
    };
    let name = if name.is_empty() { "page.html" } else { name };
    let file = FILES.iter().find(|file| file.name == name);
    file.map(Told::File).ok_or(Told::NoPath)
}

impl File {
    pub(super) fn response(&self) -> Response<Body> {
        let response = guarded(Response::builder()).header(CONTENT_TYPE, self.kind);
        let response = response.body(self.text.into());
        response.expect("the headers are right")
    }
}

/// Sends who left the slash out to where the page's other files are beside it.
pub(super) fn to_folder() -> Response<Body> {
    let response = guarded(Response::builder().status(StatusCode::PERMANENT_REDIRECT));
    let response = response.header(LOCATION, "console/").body(Body::empty());
    response.expect("the headers are right")
}

fn guarded(response: Builder) -> Builder {
    response
        .header(CONTENT_SECURITY_POLICY, CONTENT)
        .header(X_CONTENT_TYPE_OPTIONS, "nosniff")
        .header(REFERRER_POLICY, "no-referrer")
        .header(OPENER, "same-origin")
        .header(CACHE_CONTROL, "no-cache")
}

#[cfg(test)]
mod tests {
    use super::{answer, is_path, FILES};
    use std::collections::BTreeSet;
    use std::path::Path;

    #[test]
    fn each_file_of_the_folder_is_told_and_none_else() {
        let folder = Path::new(env!("CARGO_MANIFEST_DIR")).join("console");
        let there: BTreeSet<String> = { std::fs::read_dir(folder).unwrap() }
            .map(|entry| entry.unwrap().file_name().into_string().unwrap())
            .filter(|name| name.contains('.'))
            .collect();
        let told: BTreeSet<String> = FILES.iter().map(|file| file.name.to_owned()).collect();
        assert_eq!(told, there);
        for path in ["/console", "/console/", "/console/page.js"] {
            assert!(is_path(path) && answer(path).is_ok(), "{path}");
        }
        for path in ["/console/check", "/console/../page.js", "/console/page.js/"] {
            assert!(is_path(path) && answer(path).is_err(), "{path}");
        }
        assert!(!is_path("/consoles"));
    }

    #[test]
    fn the_page_names_nothing_of_another_host_and_no_text_as_markup() {
        for file in FILES {
            let text = file.text.replace("http://www.w3.org/2000/svg", "");
            for word in [
                "://",
                "innerHTML",
                "outerHTML",
                "document.write",
                "eval(",
                "Storage",
                "cookie",
            ] {
                assert!(!text.contains(word), "{}: {word}", file.name);
            }
        }
    }
}
