//! Writes schedules.

use std::fmt::Write;

/// A schedule, and the number of its lines. Commands are submitted at each member in turn, by its caller 0. Each message is taken
/// by all other members at once, and then each member delivers the command.
#[derive(Clone)]
pub struct Schedule {
    pub text: String,
    pub lines: usize,
    commands: usize,
    members: usize,
}

impl Default for Schedule {
    fn default() -> Schedule {
        Schedule::at_members(1)
    }
}

impl Schedule {
    pub fn at_members(members: usize) -> Schedule {
        Schedule { text: String::new(), lines: 0, commands: 0, members }
    }

    /// Adds a command, as `("AddUser", &[("user", "ann")])`.
    pub fn command(&mut self, name: &str, fields: &[(&str, &str)]) {
        let quoted: Vec<(&str, String)> = fields.iter().map(|(key, value)| (*key, format!("\"{value}\""))).collect();
        self.raw_command(name, &quoted);
    }

    /// A session with these active roles.
    pub fn create_session(&mut self, user: &str, session: &str, roles: &[&str]) {
        let fields =
            [("user", format!("\"{user}\"")), ("session", format!("\"{session}\"")), ("roles", format!("{roles:?}"))];
        self.raw_command("CreateSession", &fields);
    }

    fn raw_command(&mut self, name: &str, fields: &[(&str, String)]) {
        let (at, serial) = (self.commands % self.members + 1, self.commands / self.members);
        self.commands += 1;
        let mut command = format!("{{\"name\":\"{name}\"");
        for (key, value) in fields {
            command += &format!(",\"{key}\":{value}");
        }
        self.line(&format!(
            "{{\"do\":\"submit\",\"at\":{at},\"caller\":0,\"serial\":{serial},\"command\":{command}}}}}"
        ));
        self.receive_of(at);
        (1..=self.members).filter(|other| *other != at).for_each(|other| self.receive_of(other));
        (1..=self.members).for_each(|at| self.line(&format!("{{\"do\":\"deliver\",\"at\":{at}}}")));
    }

    /// All others take the message of a member. Of each command a member sends one: the command, or that it took it.
    fn receive_of(&mut self, from: usize) {
        let number = self.commands;
        for at in (1..=self.members).filter(|at| *at != from) {
            self.line(&format!("{{\"do\":\"receive\",\"at\":{at},\"from\":{from},\"number\":{number}}}"));
        }
    }

    pub fn line(&mut self, line: &str) {
        self.add(format_args!("{line}\n"));
        self.lines += 1;
    }

    fn add(&mut self, text: std::fmt::Arguments) {
        self.text.write_fmt(text).expect("a string takes all text");
    }
}
