//! What three members take for a call beside rows, sockets and processes: 21 callers at each, all in one thread.
use bytes::Bytes;
use fochillund::generation::Foundings;
use fochillund::row_member::{Begins, NewCall};
use fochillund::RowMember;
use rows::cell::{Chain, Identity};
use serde_json::value::RawValue;
use std::time::Instant;

const CHECK: &str = r#"[{"name":"CheckAccess","session":"s","operation":"read","object":"chart"}]"#;

fn main() {
    let rounds: usize = std::env::args()
        .nth(1)
        .and_then(|it| it.parse().ok())
        .unwrap_or(2000);
    let founding = "version = 1\nmembers = 3\noperations = [\"read\"]\nobjects = [\"chart\"]\npermissions = [[\"read\", \"chart\"]]\n";
    let nodes: Vec<String> = (1..=3).map(|member| format!("n{member}")).collect();
    let mut foundings = Foundings::new();
    let (_, text) = foundings.proposal(&nodes, Some(founding), "");
    foundings.take(&text).expect("a founding");
    let generation = foundings.first();
    let chain = |member: u32| generation.chain(member);
    let mut held: Vec<RowMember<u32>> = (1..=3)
        .map(|m| {
            let (writer, begins) = (format!("w{m}"), Begins::Empty);
            RowMember::restore(&generation, m, begins, writer, chain(m), &[]).unwrap()
        })
        .collect();
    let mut chains: Vec<Vec<Chain>> = (1..=3).map(|_| (1..=3).map(chain).collect()).collect();
    let mut rows: Vec<Vec<Bytes>> = vec![Vec::new(); 3];
    let (mut id, mut answered) = (0, 0);
    for it in &mut held {
        for caller in 0..21 {
            it.ask(call(&mut id), caller);
        }
    }
    let began = Instant::now();
    for _ in 0..rounds {
        for at in 0..3 {
            for other in (0..3).filter(|it| *it != at) {
                let next = chains[at][other].next() as usize - 1;
                for text in &rows[other][next..] {
                    let cell = chains[at][other].take_sent(text).unwrap();
                    held[at].put_cell(other as u32 + 1, cell).unwrap();
                }
            }
            held[at].turn().unwrap();
            let next = held[at].next_cell().unwrap();
            for (waiter, reply) in held[at].take_told() {
                assert!(reply.is_ok());
                answered += 1;
                let call = call(&mut id);
                held[at].ask(call, waiter);
            }
            if let Some((_, text)) = next {
                rows[at].push(text);
                held[at].was_set().unwrap();
            }
        }
    }
    let cells: usize = rows.iter().map(Vec::len).sum();
    println!(
        "{answered} calls, {:.2} us a call, {:.3} cells a call",
        began.elapsed().as_secs_f64() * 1e6 / answered as f64,
        cells as f64 / answered as f64
    );
}

fn call(id: &mut u64) -> NewCall {
    *id += 1;
    NewCall {
        identity: Some(Identity {
            caller: "uid 0".to_owned(),
            id: id.to_string(),
        }),
        commands: RawValue::from_string(CHECK.to_owned()).unwrap(),
    }
}
