//! What callers are told over HTTP: each example of docs/API.md, who may call, over TLS too, the decision log, the Rust client, nginx
//! that asks, and requests that are mutated.
mod access;
mod authzen;
mod client;
mod console;
mod decisions;
#[path = "../processes/group.rs"]
mod group;
mod http;
mod mutated;
mod nginx;
mod page;
mod streams;
mod tls;
