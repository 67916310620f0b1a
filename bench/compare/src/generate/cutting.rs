//! Inputs that are cut into lines in each way.

use super::Extent;
use super::builder::{self, Builder};
use crate::case::Case;
use crate::random::Random;
use crate::tree;

const DELIVER: &[u8] = b"{\"do\":\"deliver\",\"at\":1}";

pub fn cases(random: &mut Random, extent: Extent) -> Vec<Case> {
    let mut schedules = vec![
        Vec::new(),
        b"\n".to_vec(),
        b"\n\n\r\n".to_vec(),
        DELIVER.to_vec(),
        [DELIVER, b"\r\n", DELIVER, b"\n\n", DELIVER].concat(),
        [b"\0\n", DELIVER, b"\0\n\xff\n\xfe\xff\n", DELIVER, b" "].concat(),
    ];
    for length in [65_535, 65_536, 65_537, 65_538, 131_072, 131_073, 200_000] {
        for (first, rest) in [(&b""[..], b'a'), (DELIVER, b' '), (DELIVER, 0xff)] {
            let mut line = first.to_vec();
            line.resize(length, rest);
            schedules.push(line.clone());
            schedules.push([DELIVER, b"\n", &line, b"\n", DELIVER].concat());
        }
    }
    if extent == Extent::Short {
        random.shuffle(&mut schedules);
        schedules.truncate(8);
    }
    schedules.push(long_roles(random));
    let named = |(number, schedule)| Case::new(format!("cutting-{number:02}"), None, schedule);
    schedules.into_iter().enumerate().map(named).collect()
}

/// A session with as many roles as a line takes, most of them twice.
fn long_roles(random: &mut Random) -> Vec<u8> {
    let mut builder = Builder::new();
    builder.command("AddUser", &[("user", tree::text("ann"))]);
    for role in 0..100 {
        builder.command("AddRole", &[("role", tree::text(&format!("r{role}")))]);
        builder.command("AssignUser", &[("user", tree::text("ann")), ("role", tree::text(&format!("r{role}")))]);
    }
    let roles = (0..9_000).map(|_| tree::text(&format!("r{}", random.below(100)))).collect();
    let fields = [("user", tree::text("ann")), ("session", tree::text("s")), ("roles", tree::Tree::List(roles))];
    builder.command("CreateSession", &fields);
    builder.line(builder::deliver(1).compact());
    builder.schedule
}
