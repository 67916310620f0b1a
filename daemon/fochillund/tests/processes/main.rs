//! Members as processes: what callers are told, and groups in which processes are killed, stopped and doubled.
mod callers;
mod chaos;
mod command;
mod generations;
mod group;
#[path = "../judge/mod.rs"]
mod judge;
mod lives;
mod releases;
mod store;
mod unit;
