//! Rows of numbered cells, each set once and durable, over existing engines.
//!
//! A row has the cells 1, 2, 3 and so on, of which each holds one line of text. A cell is set once, by whoever comes first, behind the cell
//! before it; from then on it holds that text for good, and the same for all who read it. So a row can keep what one member of a group sent,
//! and tell a second process that runs the same member that it is not alone: the cell that it would set is taken.
//!
//! [`Engine`] is what is asked of an engine, [`Files`] the engine that needs no server, and [`Etcd`] one for the processes of several machines.
//! Once for all engines: [`sure_set`] finds out what became of a set whose reply was lost; [`cell`] says what stands in a cell of a member's
//! row, where each names the hash of the one before; and a [`Follower`] gives each cell of a row once, in order, and stops where one is not
//! what it has to be. A row that has ended is trimmed, down to the cell that ended it, which keeps it from beginning anew.
mod arrivals;
pub mod cell;
mod engine;
pub mod etcd;
pub mod files;
mod follow;
mod name;
pub mod postgres;
mod sure;
mod text;
mod tls;

pub use engine::{Engine, Fault, Tidings, Told};
pub use etcd::Etcd;
pub use files::Files;
pub use follow::{FollowFault, Follower, SWEEP};
pub use name::{BadName, RowName};
pub use postgres::Postgres;
pub use sure::{sure_get, sure_set, sure_trim};
pub use text::{MOST_BYTES, MOST_CELLS};
