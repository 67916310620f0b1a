//! Each example of docs/API.md.
use crate::group::Group;
use crate::http::Client;
use hyper::Method;
use serde_json::Value;
use std::path::Path;

/// A request, and what it is told.
pub struct Example {
    pub method: Method,
    pub path: String,
    headers: Vec<(String, String)>,
    pub body: String,
    status: u16,
    told: String,
}

/// An example's text: the line of the request, its headers, its body; an empty line; the status, and the body that is told.
fn read(text: &str) -> Example {
    let (asked, told) = text.split_once("\n\n").expect("a request and its answer");
    let mut lines = asked.lines();
    let (method, path) = lines.next().unwrap().split_once(' ').unwrap();
    let (headers, body): (Vec<&str>, Vec<&str>) =
        lines.partition(|line| line.starts_with(|it: char| it.is_ascii_uppercase()));
    let header = |line: &str| {
        let (name, value) = line.split_once(": ").unwrap();
        (name.to_owned(), value.to_owned())
    };
    let (status, told) = told.split_once('\n').unwrap_or((told, ""));
    Example {
        method: method.parse().unwrap(),
        path: path.to_owned(),
        headers: headers.into_iter().map(header).collect(),
        body: body.join("\n"),
        status: status.trim().parse().unwrap(),
        told: told.to_owned(),
    }
}

/// The page's text.
pub fn page() -> String {
    let page = Path::new(env!("CARGO_MANIFEST_DIR")).join("../../docs/API.md");
    std::fs::read_to_string(page).unwrap()
}

/// Gives a group of one member the hospital's founding.
pub fn has_hospital(group: &Group) {
    let hospital = Path::new(env!("CARGO_MANIFEST_DIR")).join("../../examples/hospital.toml");
    let hospital = std::fs::read_to_string(hospital).unwrap();
    let hospital = hospital.replace("members = 3", "members = 1");
    std::fs::write(group.founding(), hospital).unwrap();
}

/// The requests of the page, in their order.
pub fn examples() -> Vec<Example> {
    let page = page();
    let blocks = page.split("```http\n").skip(1);
    blocks
        .map(|block| read(block.split("```").next().unwrap().trim_end()))
        .collect()
}

#[tokio::test]
async fn the_examples_of_the_page_are_told_so() {
    let examples = examples();
    assert!(examples.len() >= 10, "{}", examples.len());
    let mut group = Group::of(1);
    has_hospital(&group);
    group.start(1, &["--public-url", "https://decisions.example"]);
    let mut client = Client::of(&group).await;
    for example in examples {
        let headers: Vec<(&str, &str)> = { example.headers.iter() }
            .map(|(name, value)| (name.as_str(), value.as_str()))
            .collect();
        let path = &example.path;
        let told = client
            .ask(example.method, path, &headers, &example.body)
            .await;
        assert_eq!(told.status, example.status, "{path} {told:?}");
        if example.told.is_empty() {
            assert!(told.body.is_empty(), "{path} {told:?}");
            continue;
        }
        let wanted: Value =
            serde_json::from_str(&example.told).unwrap_or_else(|_| panic!("{}", example.told));
        assert_eq!(told.json(), wanted, "{path} {}", example.body);
    }
}
