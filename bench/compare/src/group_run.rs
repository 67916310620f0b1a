//! What became of a group, read off its schedule and what was printed for it: which kinds of events occurred, and whether the
//! laws of the order hold.

use crate::case::{Case, Played, lines_of};
use crate::text::{count_of_commands, number_after, objects_after, text_between};
use std::collections::BTreeMap;

const LAST_CLOCK: u64 = 9_007_199_254_740_991;

/// A clock, a member's number, and a command's place in its message, in the order of commands.
type Stamp = (u64, u32, u32);

/// Of which kinds the events of a run were, and the run itself.
pub struct GroupRun {
    pub kinds: Vec<&'static str>,
}

/// What occurs in groups: each of these has to occur.
pub const KINDS: [&str; 45] = [
    "submit taken",
    "submit UnknownMember",
    "submit ClockFull",
    "submit SentFull",
    "submit BadSerial",
    "batch taken",
    "batch of 64 commands taken",
    "batch UnknownMember",
    "batch BadBatch, no command",
    "batch BadBatch, more than 64 commands",
    "batch BadBatch, its last serial is too great",
    "batch ClockFull",
    "batch SentFull",
    "batch BadSerial",
    "receive command, acknowledged",
    "receive command, something later was sent",
    "receive command, something later was sent and the sent list is full",
    "receive command, something later was sent and the clock comes to its end",
    "receive acknowledgement",
    "receive UnknownMember as receiver",
    "receive UnknownMember as sender",
    "receive FromSelf",
    "receive NotSent",
    "receive Repeat",
    "receive Gap",
    "receive ClockFull for a command to acknowledge",
    "receive ClockFull for a command where something later was sent",
    "receive ClockFull for an acknowledgement",
    "receive SentFull",
    "receive batch, acknowledged",
    "receive batch, something later was sent",
    "deliver own command",
    "deliver command of another",
    "deliver command of a batch that is not its first",
    "deliver command of a batch before one of the same clock and a greater member",
    "deliver nothing, none held",
    "deliver nothing, none stable",
    "deliver UnknownMember",
    "run of one member",
    "run of two members",
    "run of three or four members",
    "run of five to seven members",
    "run of eight members",
    "run delivered to its end",
    "run that ends before",
];

#[derive(Default)]
struct Member {
    clock: u64,
    /// The stamp of each message, and how many commands it has: an acknowledgement has none.
    sent: Vec<(Stamp, u32)>,
    /// How many messages were taken of each sender.
    taken: BTreeMap<u32, u32>,
    /// How many commands it knows, delivered ones among them.
    known: usize,
    delivered: usize,
    last_delivered: Option<Stamp>,
    /// Whether it delivered nothing when it was asked last, and took nothing since.
    is_drained: bool,
}

impl Member {
    fn message(&self, number: u32) -> Option<(Stamp, u32)> {
        self.sent.get((number as usize).checked_sub(1)?).copied()
    }

    fn has_sent_later(&self, stamp: Stamp) -> bool {
        self.sent.iter().any(|(sent, _)| *sent > stamp)
    }
}

struct Run {
    members: Vec<Member>,
    sent_limit: usize,
    /// The caller and the serial of each submitted command.
    submitted: BTreeMap<Stamp, (u32, u32)>,
    /// The longest sequence that a member delivered: each record with all that was printed but its line.
    order: Vec<(Stamp, String)>,
    kinds: Vec<&'static str>,
}

impl GroupRun {
    /// Reads a run of a group. An error tells which law is broken, and where.
    pub fn read(case: &Case, played: &Played) -> Result<GroupRun, String> {
        let founding = String::from_utf8_lossy(case.founding.as_deref().unwrap_or_default()).into_owned();
        let members = text_between(&founding, "members = ", "\n").and_then(|number| number.parse().ok());
        let members: usize = members.ok_or("no number of members")?;
        let number = |key| text_between(&founding, key, "\n").and_then(|number| number.parse().ok());
        let clock = number("clock = ").unwrap_or(0);
        let mut run = Run {
            members: (0..members).map(|_| Member { clock, ..Member::default() }).collect(),
            sent_limit: number("sent_limit = ").unwrap_or(65_536) as usize,
            submitted: BTreeMap::new(),
            order: Vec::new(),
            kinds: Vec::new(),
        };
        for (place, (line, output)) in case.lines().into_iter().zip(lines_of(&played.output)).enumerate() {
            let output = String::from_utf8_lossy(output);
            run.take(line, &output).map_err(|law| format!("{}, line {}: {law}", case.name, place + 1))?;
        }
        run.check_end().map_err(|law| format!("{}: {law}", case.name))?;
        Ok(run.ended())
    }
}

impl Run {
    fn take(&mut self, line: &[u8], output: &str) -> Result<(), String> {
        let number = |key| number_after(line, key).map(|(_, number)| number);
        if output.contains("\"refused\":\"") {
            let word = text_between(output, "\"refused\":\"", "\"").unwrap_or_default();
            self.take_refusal(line, word);
            return Ok(());
        }
        let at = number("at").filter(|at| (1..=self.members.len()).contains(&(*at as usize)));
        let at = at.ok_or("an event at nobody was taken")?;
        if output.starts_with("{\"answer\":null") {
            let member = self.member(at);
            member.is_drained = true;
            let holds_some = member.known > member.delivered;
            self.kinds.push(if holds_some { "deliver nothing, none stable" } else { "deliver nothing, none held" });
        } else if output.starts_with("{\"answer\":") {
            return self.take_record(at, stamp_behind(output, "\"stamp\":").ok_or("no stamp")?, output);
        } else if output.starts_with("{\"acknowledged\":") {
            let (from, number) = number("from").zip(number("number")).ok_or("nothing to receive")?;
            let message = self.members.get((from as usize).wrapping_sub(1)).and_then(|sender| sender.message(number));
            let message = message.ok_or("a message that nobody sent")?;
            return self.take_receipt(at, from, message, stamp_behind(output, "\"acknowledged\":"));
        } else {
            let stamp = stamp_behind(output, "\"stamp\":").ok_or("no stamp")?;
            let (caller, serial) = number("caller").zip(number("serial")).ok_or("no caller")?;
            self.take_submit(at, stamp, caller, serial, line);
        }
        Ok(())
    }

    fn take_submit(&mut self, at: u32, stamp: Stamp, caller: u32, serial: u32, line: &[u8]) {
        let commands = count_of_commands(line);
        let stamps = (0..commands).map(|place| ((stamp.0, stamp.1, place), (caller, serial + place)));
        self.submitted.extend(stamps);
        self.send(at, stamp, commands);
        self.member(at).known += commands as usize;
        let is_batch = objects_after(line, "commands").is_some();
        self.kinds.push(if is_batch { "batch taken" } else { "submit taken" });
        if commands == 64 {
            self.kinds.push("batch of 64 commands taken");
        }
    }

    fn member(&mut self, number: u32) -> &mut Member {
        &mut self.members[number as usize - 1]
    }

    fn send(&mut self, at: u32, stamp: Stamp, commands: u32) {
        let member = self.member(at);
        member.clock = stamp.0;
        member.sent.push((stamp, commands));
        member.is_drained = false;
    }

    /// A command is acknowledged exactly where nothing later was sent.
    fn take_receipt(
        &mut self,
        at: u32,
        from: u32,
        (stamp, commands): (Stamp, u32),
        acknowledgement: Option<Stamp>,
    ) -> Result<(), String> {
        let sent_limit = self.sent_limit;
        let is_command = commands > 0;
        let member = self.member(at);
        let is_due = is_command && !member.has_sent_later(stamp);
        if is_due != acknowledgement.is_some() {
            return Err("an acknowledgement that is needless, or none where one is due".to_owned());
        }
        *member.taken.entry(from).or_default() += 1;
        member.known += commands as usize;
        member.is_drained = false;
        member.clock = member.clock.max(stamp.0) + 1;
        let (is_full, is_at_end) = (member.sent.len() == sent_limit, member.clock == LAST_CLOCK);
        if let Some(acknowledgement) = acknowledgement {
            self.send(at, acknowledgement, 0);
            self.kinds.push("receive command, acknowledged");
            if commands > 1 {
                self.kinds.push("receive batch, acknowledged");
            }
        } else if is_command {
            self.kinds.push("receive command, something later was sent");
            if commands > 1 {
                self.kinds.push("receive batch, something later was sent");
            }
            if is_full {
                self.kinds.push("receive command, something later was sent and the sent list is full");
            }
            if is_at_end {
                self.kinds.push("receive command, something later was sent and the clock comes to its end");
            }
        } else {
            self.kinds.push("receive acknowledgement");
        }
        Ok(())
    }

    /// Each member's next record is the next one of those who are ahead of it, was submitted, and comes in stamp order.
    fn take_record(&mut self, at: u32, stamp: Stamp, output: &str) -> Result<(), String> {
        let line = text_between(output, ",\"line\":", ",").unwrap_or_default();
        let text = output.replacen(&format!(",\"line\":{line}"), "", 1);
        let sent_by = text_between(&text, "\"caller\":", ",").zip(text_between(&text, "\"serial\":", ","));
        let (caller, serial) = *self.submitted.get(&stamp).ok_or("a command that nobody submitted")?;
        if sent_by != Some((&caller.to_string(), &serial.to_string())) {
            return Err("a command of another caller, or with another serial".to_owned());
        }
        let member = self.member(at);
        if member.last_delivered.is_some_and(|last| last >= stamp) {
            return Err("a command that does not come after the one before it".to_owned());
        }
        member.last_delivered = Some(stamp);
        let place = member.delivered;
        member.delivered += 1;
        self.kinds.push(if stamp.1 == at { "deliver own command" } else { "deliver command of another" });
        if stamp.2 > 0 {
            self.kinds.push("deliver command of a batch that is not its first");
            let later = self.submitted.range((stamp.0, stamp.1 + 1, 0)..).next();
            if later.is_some_and(|((clock, _, _), _)| *clock == stamp.0) {
                self.kinds.push("deliver command of a batch before one of the same clock and a greater member");
            }
        }
        match self.order.get(place) {
            None => self.order.push((stamp, text)),
            Some((_, other)) if *other == text => {}
            Some((_, other)) => return Err(format!("another member delivered {other} in its place")),
        }
        Ok(())
    }

    fn take_refusal(&mut self, line: &[u8], word: &str) {
        let number = |key| number_after(line, key).map(|(_, number)| number);
        let (at, from, serial) = (number("at"), number("from"), number("serial"));
        let batch = objects_after(line, "commands").map(|commands| commands.len());
        let member = |number: u32| self.members.get((number as usize).wrapping_sub(1));
        let is_member = |at: u32| (1..=self.members.len()).contains(&(at as usize));
        let refused = match (word, from) {
            ("ClockFull", Some(from)) => {
                let message = member(from).and_then(|sender| sender.message(number("number").unwrap_or_default()));
                let receiver = at.and_then(member);
                match message {
                    Some((stamp, 1..)) if receiver.is_some_and(|at| at.has_sent_later(stamp)) => {
                        "receive ClockFull for a command where something later was sent"
                    }
                    Some((_, 1..)) => "receive ClockFull for a command to acknowledge",
                    _ => "receive ClockFull for an acknowledgement",
                }
            }
            ("UnknownMember", Some(_)) if at.is_some_and(is_member) => "receive UnknownMember as sender",
            ("UnknownMember", Some(_)) => "receive UnknownMember as receiver",
            ("UnknownMember", None) if serial.is_none() => "deliver UnknownMember",
            ("BadBatch", _) => match batch {
                Some(0) => "batch BadBatch, no command",
                Some(..=64) => "batch BadBatch, its last serial is too great",
                _ => "batch BadBatch, more than 64 commands",
            },
            (_, from) => {
                let of_caller = if batch.is_some() { "batch" } else { "submit" };
                let event = if from.is_some() { "receive" } else { of_caller };
                let kind = KINDS.iter().find(|kind| kind.strip_prefix(event).is_some_and(|rest| rest.trim() == word));
                match kind {
                    Some(kind) => kind,
                    // A line that is no event.
                    None => return,
                }
            }
        };
        self.kinds.push(refused);
    }

    /// Whether each member took all messages of each other.
    fn is_read_to_the_end(&self) -> bool {
        let taken = |at: &Member, from: u32| at.taken.get(&from).copied().unwrap_or(0) as usize;
        (0..self.members.len()).all(|at| {
            (1..)
                .zip(&self.members)
                .all(|(from, sender)| from as usize == at + 1 || taken(&self.members[at], from) == sender.sent.len())
        })
    }

    /// What a member delivered is all that was submitted up to its last stamp, and all of it where everybody took everything.
    fn check_end(&self) -> Result<(), String> {
        let in_order = self.submitted.keys().zip(&self.order).all(|(submitted, (stamp, _))| submitted == stamp);
        if !in_order || self.order.len() > self.submitted.len() {
            return Err("what was delivered is not what was submitted first, in stamp order".to_owned());
        }
        let is_all = |member: &Member| !member.is_drained || member.delivered == self.submitted.len();
        if self.is_read_to_the_end() && !self.members.iter().all(is_all) {
            return Err("everything was read by everybody, and somebody does not deliver everything".to_owned());
        }
        Ok(())
    }

    fn ended(mut self) -> GroupRun {
        self.kinds.push(match self.members.len() {
            1 => "run of one member",
            2 => "run of two members",
            3 | 4 => "run of three or four members",
            5..8 => "run of five to seven members",
            _ => "run of eight members",
        });
        let is_all = |member: &Member| member.is_drained && member.delivered == self.submitted.len();
        let is_at_end = self.is_read_to_the_end() && self.members.iter().all(is_all);
        self.kinds.push(if is_at_end { "run delivered to its end" } else { "run that ends before" });
        GroupRun { kinds: self.kinds }
    }
}

/// The stamp behind a key, as `[3,1]`, or `[3,1,2]` where it has a place.
fn stamp_behind(text: &str, key: &str) -> Option<Stamp> {
    let (clock, rest) = text_between(text, &format!("{key}["), "]")?.split_once(',')?;
    let (member, place) = rest.split_once(',').unwrap_or((rest, "0"));
    Some((clock.parse().ok()?, member.parse().ok()?, place.parse().ok()?))
}

#[cfg(test)]
mod tests {
    use super::*;

    const TWO: &str = "version = 1\nmembers = 2\n";

    /// A line and what is printed for it, without the line's number.
    fn read(rows: &[(&str, &str)]) -> Result<GroupRun, String> {
        let schedule: String = rows.iter().map(|(line, _)| format!("{{{line}}}\n")).collect();
        let output: String = rows.iter().map(|(_, output)| format!("{{{output}}}\n")).collect();
        let case = Case::of_group("a".to_owned(), TWO.as_bytes().to_vec(), schedule.into_bytes());
        GroupRun::read(&case, &Played::new(0, output.into_bytes(), String::new()))
    }

    fn record(serial: u32, clock: u64, answer: &str) -> String {
        format!(r#""answer":"{answer}","caller":0,"line":9,"serial":{serial},"stamp":[{clock},1]"#)
    }

    const FIRST: (&str, &str) = (r#""at":1,"caller":0,"serial":0"#, r#""line":1,"stamp":[1,1]"#);
    const SECOND: (&str, &str) = (r#""at":1,"caller":0,"serial":1"#, r#""line":1,"stamp":[2,1]"#);
    const READ: [(&str, &str); 3] = [
        (r#""at":2,"from":1,"number":1"#, r#""acknowledged":[3,2],"line":1"#),
        (r#""at":2,"from":1,"number":2"#, r#""acknowledged":null,"line":1"#),
        (r#""at":1,"from":2,"number":1"#, r#""acknowledged":null,"line":1"#),
    ];
    const NOTHING: &str = r#""answer":null,"line":1"#;

    fn at_1(record: &str) -> (&str, &str) {
        (r#""at":1"#, record)
    }

    fn at_2(record: &str) -> (&str, &str) {
        (r#""at":2"#, record)
    }

    fn law_of(rows: &[(&str, &str)]) -> String {
        read(rows).err().unwrap_or_default()
    }

    #[test]
    fn a_run_that_keeps_the_laws() {
        let (first, second) = (record(0, 1, "Done"), record(1, 2, "Done"));
        let begun = [&[FIRST, SECOND], &READ[..], &[at_1(&first), at_1(&second)]].concat();
        let Ok(run) = read(&begun) else { panic!("it keeps the laws") };
        assert!(run.kinds.contains(&"run that ends before"));
        let end = [at_1(NOTHING), at_2(&first), at_2(&second), at_2(NOTHING)];
        let Ok(run) = read(&[&begun[..], &end].concat()) else { panic!("it keeps the laws") };
        for kind in [
            "run delivered to its end",
            "submit taken",
            "receive command, acknowledged",
            "receive command, something later was sent",
            "receive acknowledgement",
            "deliver nothing, none held",
        ] {
            assert!(run.kinds.contains(&kind), "{kind}");
        }
    }

    #[test]
    fn each_law_is_seen_to_be_broken() {
        let (first, second, other) = (record(0, 1, "Done"), record(1, 2, "Done"), record(0, 1, "Granted"));
        assert!(law_of(&[FIRST, SECOND, at_1(&first), at_2(&other)]).contains("another member delivered"));
        assert!(law_of(&[FIRST, SECOND, at_1(&second)]).contains("submitted first"));
        assert!(law_of(&[FIRST, SECOND, at_1(&second), at_1(&first)]).contains("come after"));
        assert!(law_of(&[FIRST, at_1(&first), at_1(&first)]).contains("come after"));
        assert!(law_of(&[FIRST, at_1(&second)]).contains("nobody submitted"));
        assert!(law_of(&[FIRST, at_1(&record(1, 1, "Done"))]).contains("another serial"));
        let silent = [&[FIRST, SECOND], &READ[..], &[at_1(&first), at_1(NOTHING)]].concat();
        assert!(law_of(&silent).contains("everybody"));
        assert!(law_of(&silent[..4]).is_empty());
        let needless = (READ[1].0, r#""acknowledged":[5,2],"line":1"#);
        assert!(law_of(&[FIRST, SECOND, READ[0], needless]).contains("needless"));
    }

    #[test]
    fn refusals_are_told_apart() {
        let refused = |line, word: &'static str| {
            let output = format!(r#""line":1,"refused":"{word}""#);
            read(&[FIRST, (line, &output)]).map(|run| run.kinds[1]).unwrap_or("?")
        };
        assert_eq!(
            refused(r#""at":2,"from":1,"number":1"#, "ClockFull"),
            "receive ClockFull for a command to acknowledge"
        );
        assert_eq!(refused(r#""at":3,"from":1,"number":1"#, "UnknownMember"), "receive UnknownMember as receiver");
        assert_eq!(refused(r#""at":1,"from":3,"number":1"#, "UnknownMember"), "receive UnknownMember as sender");
        assert_eq!(refused(r#""at":3"#, "UnknownMember"), "deliver UnknownMember");
        assert_eq!(refused(r#""at":3,"caller":0,"serial":0"#, "UnknownMember"), "submit UnknownMember");
        assert_eq!(refused(r#""at":1,"caller":0,"serial":0"#, "SentFull"), "submit SentFull");
        assert_eq!(refused(r#""at":2,"from":1,"number":1"#, "SentFull"), "receive SentFull");
        assert_eq!(refused(r#""at":2,"from":1"#, "MissingField"), "run of two members");
    }
}
