//! Each engine, and what stands once over all of them.
mod conformance;
mod doubles;
mod etcd;
mod files;
mod following;
mod postgres;
mod stores;
