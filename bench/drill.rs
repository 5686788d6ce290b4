// A drill without proofs, kept rows or a grammar: the same counts, records, limits and event log as `ow_whisk drill N SEED` over no table and
// no store. bench/drill.sh compiles it and times both.
use std::collections::{HashMap, VecDeque};

const PER_MINUTE: usize = 120;
const AT_ONCE: usize = 100;

/// An ended activation.
struct Record {
    id: u128,
    name: &'static str,
    namespace: &'static str,
    start: u64,
    end: u64,
    code: u8,
    result: String,
}

/// An accepted activation that waits.
struct Waiting {
    id: u128,
    start: u64,
    params: String,
}

/// What happened, and what was answered.
enum Event {
    Called { text: String, accepted: bool },
    Next { id: Option<u128> },
    Answered { id: u128, result: String },
}

/// The state of the service.
#[derive(Default)]
struct Service {
    accepted_at: VecDeque<u64>,
    waiting: VecDeque<Waiting>,
    records: Vec<Record>,
    by_id: HashMap<u128, usize>,
    log: Vec<(u64, Event)>,
    count: u128,
}

impl Service {
    fn call(&mut self, at: u64, text: String) -> bool {
        while self.accepted_at.front().is_some_and(|moment| moment + 60_000 <= at) {
            self.accepted_at.pop_front();
        }
        let accepted = self.accepted_at.len() < PER_MINUTE && self.waiting.len() < AT_ONCE;
        if accepted {
            self.accepted_at.push_back(at);
            self.count += 1;
            self.waiting.push_back(Waiting { id: self.count, start: at, params: text.clone() });
        }
        self.log.push((at, Event::Called { text, accepted }));
        accepted
    }

    /// How many activations were recorded.
    fn turn(&mut self, at: u64) -> u64 {
        let Some(next) = self.waiting.pop_front() else {
            self.log.push((at, Event::Next { id: None }));
            return 0;
        };
        self.log.push((at, Event::Next { id: Some(next.id) }));
        self.log.push((at, Event::Answered { id: next.id, result: next.params.clone() }));
        self.by_id.insert(next.id, self.records.len());
        self.records.push(Record {
            id: next.id,
            name: "echo",
            namespace: "whisk.system",
            start: next.start,
            end: at,
            code: 0,
            result: next.params,
        });
        1
    }
}

fn main() {
    let mut words = std::env::args().skip(1).map(|word| word.parse::<u64>().expect("a number"));
    let (n, seed) = (words.next().expect("N"), words.next().expect("SEED"));
    let mut service = Service::default();
    let (mut x, mut at) = (seed, 0);
    let (mut accepted, mut refused, mut recorded) = (0u64, 0u64, 0u64);
    for k in 1..=n {
        x = x.wrapping_mul(6_364_136_223_846_793_005).wrapping_add(1_442_695_040_888_963_407);
        at += (x >> 33) % 1000;
        if service.call(at, format!("{{\"k\":{k}}}")) {
            accepted += 1;
            recorded += service.turn(at);
        } else {
            refused += 1;
        }
    }
    println!("drill {n} {seed} accepted {accepted} refused {refused} recorded {recorded}");
    // So that nothing that is kept is left out by the compiler.
    let last = service.records.last();
    let kept = last.map_or(0, |r| r.id as u64 + r.end - r.start + u64::from(r.code) + (r.name.len() + r.namespace.len() + r.result.len()) as u64);
    let texts: usize = service.log.iter().map(|(at, event)| match event {
        Event::Called { text, accepted } => text.len() + usize::from(*accepted),
        Event::Next { id } => usize::from(id.is_some()) + *at as usize % 2,
        Event::Answered { id, result } => result.len() + *id as usize % 2,
    }).sum();
    if kept as usize + texts + service.by_id.len() == usize::MAX {
        println!("full");
    }
}
