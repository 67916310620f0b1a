//! Servers of engines that a test starts, kills by `kill -9`, and starts again: each in a folder and at ports of its own, and ended with the value
//! that has it. And what befalls the machines that they and their clients run on: networks that lose and delay, clocks that jump, disks that are
//! full. What can't be started panics, and names what to install.
pub mod certificates;
pub mod clock;
pub mod disk;
pub mod etcd;
pub mod host;
pub mod network;
pub mod postgres;
pub mod proxy;
