// The baseline of `run`: PHOLD on handwritten Time Warp in plain Rust, over nodes in one process, by the same plan of rounds, with the same
// commits to a file. It handles as many messages as the program does. Usage: time-warp MODEL FILE NODES BATCH
use std::collections::VecDeque;
use std::fs::File;
use std::io::{Seek, SeekFrom, Write};

type Message = (u64, u32, u64, u32, u64, u64, u64, u64);
type State = (u64, u64);

/// Whether this is an antimessage, and the message.
type Signed = (bool, Message);

/// A placeholder for no message, greater than each message.
const NONE: Message = (u64::MAX, 0, 0, 0, 0, 0, 0, 0);

/// The first word of PCG's XSH RR 64/32 generator for this state and stream.
fn first_word(state: u64, stream: u64) -> u32 {
    const MULTIPLIER: u64 = 6364136223846793005;
    let increment = stream << 1 | 1;
    let state = state.wrapping_add(increment).wrapping_mul(MULTIPLIER).wrapping_add(increment);
    ((((state >> 18) ^ state) >> 27) as u32).rotate_right((state >> 59) as u32)
}

fn word(key: u64, lp: u32, j: u64) -> u32 {
    first_word(key, 16 * u64::from(lp) + j)
}

fn next_key(key: u64, lp: u32, j: u64) -> u64 {
    u64::from(word(key, lp, j)) << 32 | u64::from(word(key, lp, j + 1))
}

fn with(digest: u64, number: u64) -> u64 {
    (digest ^ number).wrapping_mul(1099511628211)
}

#[derive(Clone, Copy)]
struct Phold {
    lps: u32,
    end: u64,
    population: u64,
    spread: u32,
    seed: u64,
}

impl Phold {
    fn read(path: &str) -> Phold {
        let text = std::fs::read_to_string(path).expect("a text");
        let key = |name: &str| -> u64 {
            let line = text.lines().find(|line| line.split('=').next().unwrap().trim() == name).expect("a key");
            line.split('=').nth(1).unwrap().split('#').next().unwrap().trim().parse().expect("a number")
        };
        Phold {
            lps: key("lps") as u32,
            end: key("end"),
            population: key("population"),
            spread: key("spread") as u32,
            seed: key("seed"),
        }
    }

    /// Returns the state after a message, and the sent message.
    fn handle(&self, (key, count): State, number: u64, message: &Message) -> (State, Message) {
        let lp = message.3;
        let to = word(key, lp, 0) % self.lps;
        let delay = 1 + word(key, lp, 1) % self.spread;
        let time = message.0 + u64::from(delay);
        let sent = (time, lp, number, to, message.4, message.5.wrapping_add(1), message.6, message.7);
        ((next_key(key, lp, 2), count.saturating_add(1)), sent)
    }
}

struct Record {
    message: Message,
    before: State,
    number: u64,
    sent: Vec<Message>,
}

struct Done {
    message: Message,
    sent: Vec<Message>,
    after: State,
    number: u64,
}

/// A process. Waiting messages are stored greatest first.
struct Process {
    waiting: Vec<Message>,
    antis: Vec<Message>,
    done: VecDeque<Record>,
    state: State,
    number: u64,
}

fn insert(list: &mut Vec<Message>, message: Message) {
    let at = list.partition_point(|x| *x > message);
    list.insert(at, message);
}

fn remove(list: &mut Vec<Message>, message: &Message) -> bool {
    let at = list.partition_point(|x| x > message);
    let there = at < list.len() && list[at] == *message;
    if there {
        list.remove(at);
    }
    there
}

impl Process {
    /// Undoes the last `back` handlings; the messages of the last `again` of them wait again.
    fn roll_back(&mut self, back: usize, again: usize, out: &mut Vec<Signed>) {
        if back == 0 {
            return;
        }
        let from = self.done.len() - back;
        self.state = self.done[from].before;
        self.number = self.done[from].number;
        for (place, record) in self.done.drain(from..).enumerate() {
            out.extend(record.sent.iter().map(|sent| (true, *sent)));
            if place + again >= back {
                insert(&mut self.waiting, record.message);
            }
        }
    }

    fn deliver(&mut self, (is_anti, message): Signed, out: &mut Vec<Signed>) {
        let kept = self.done.partition_point(|record| record.message <= message);
        let later = self.done.len() - kept;
        if remove(if is_anti { &mut self.waiting } else { &mut self.antis }, &message) {
            return;
        }
        if !is_anti {
            self.roll_back(later, later, out);
            insert(&mut self.waiting, message);
        } else if kept > 0 && self.done[kept - 1].message == message {
            self.roll_back(later + 1, later, out);
        } else {
            insert(&mut self.antis, message);
        }
    }

    fn run_one(&mut self, model: &Phold, out: &mut Vec<Signed>) {
        let message = self.waiting.pop().unwrap();
        let (after, sent) = model.handle(self.state, self.number, &message);
        out.push((false, sent));
        self.done.push_back(Record { message, before: self.state, number: self.number, sent: vec![sent] });
        self.state = after;
        self.number += 1;
    }

    fn collect(&mut self, floor: u64, fossils: &mut Vec<Done>) {
        while self.oldest() < floor {
            let first = self.done.pop_front().unwrap();
            let (after, number) = self.done.front().map_or((self.state, self.number), |next| (next.before, next.number));
            fossils.push(Done { message: first.message, sent: first.sent, after, number });
        }
    }

    fn next(&self) -> Message {
        self.waiting.last().copied().unwrap_or(NONE)
    }

    fn low(&self) -> u64 {
        self.next().0.min(self.antis.last().map_or(u64::MAX, |anti| anti.0))
    }

    fn oldest(&self) -> u64 {
        self.done.front().map_or(u64::MAX, |record| record.message.0)
    }
}

/// Next message, least waiting time and earliest handling of a process, or the least of several.
type Standing = (Message, u64, u64);

struct Node {
    nodes: u32,
    processes: Vec<Process>,
    /// A tree of matches, the processes' cells last.
    cells: Vec<Standing>,
}

impl Node {
    fn load(model: &Phold, nodes: u32, node: u32, states: &[State], numbers: &[u64], pending: &[Message]) -> Node {
        let mut processes = Vec::new();
        for lp in (node..model.lps).step_by(nodes as usize) {
            let waiting = pending.iter().rev().copied().filter(|message| message.3 == lp).collect();
            let (state, number) = (states[lp as usize], numbers[lp as usize]);
            processes.push(Process { waiting, antis: Vec::new(), done: VecDeque::new(), state, number });
        }
        let width = processes.len().next_power_of_two();
        let mut node = Node { nodes, processes, cells: vec![(NONE, u64::MAX, u64::MAX); 2 * width] };
        for at in 0..node.processes.len() {
            node.replay(at);
        }
        node
    }

    fn replay(&mut self, at: usize) {
        let process = &self.processes[at];
        let mut cell = self.cells.len() / 2 + at;
        self.cells[cell] = (process.next(), process.low(), process.oldest());
        while cell > 1 {
            cell /= 2;
            let (one, other) = (self.cells[2 * cell], self.cells[2 * cell + 1]);
            let winner = (one.0.min(other.0), one.1.min(other.1), one.2.min(other.2));
            if self.cells[cell] == winner {
                return;
            }
            self.cells[cell] = winner;
        }
    }

    /// Returns the sent messages, and the number of handled ones.
    fn handle(&mut self, model: &Phold, deliver: &[Signed], batch: u32, floor: u64, fossils: &mut Vec<Done>) -> (Vec<Signed>, u32) {
        let mut out = Vec::new();
        for signed in deliver {
            let at = (signed.1.3 / self.nodes) as usize;
            self.processes[at].deliver(*signed, &mut out);
            self.replay(at);
        }
        let mut ran = 0;
        while ran < batch && self.cells[1].0.0 < model.end {
            let at = (self.cells[1].0.3 / self.nodes) as usize;
            self.processes[at].run_one(model, &mut out);
            self.replay(at);
            ran += 1;
        }
        for at in 0..self.processes.len() {
            if self.processes[at].oldest() < floor {
                self.processes[at].collect(floor, fossils);
                self.replay(at);
            }
        }
        (out, ran)
    }
}

/// Returns the pending messages with these sends and without these events. All lists are ascending.
fn merged(pending: &[Message], sent: &[Message], events: &[Message]) -> Vec<Message> {
    let mut left = Vec::with_capacity(pending.len());
    let (mut old, mut new, mut events) = (pending.iter().peekable(), sent.iter().peekable(), events.iter().peekable());
    loop {
        let message = match (old.peek(), new.peek()) {
            (Some(one), Some(other)) if one <= other => old.next(),
            (_, Some(_)) => new.next(),
            _ => old.next(),
        };
        let Some(message) = message else {
            return left;
        };
        while events.next_if(|event| *event < message).is_some() {}
        if events.next_if_eq(&message).is_none() {
            left.push(*message);
        }
    }
}

/// Writes a record after the gate at this place, then the gate, and returns the place of the next gate.
fn commit(disk: &mut File, place: u64, time: u64, events: &[Message]) -> u64 {
    let mut body = vec![1u8];
    body.extend((12 + 56 * events.len() as u32).to_be_bytes());
    body.extend(time.to_be_bytes());
    body.extend((events.len() as u32).to_be_bytes());
    for event in events {
        body.extend(event.0.to_be_bytes());
        body.extend(event.1.to_be_bytes());
        body.extend(event.2.to_be_bytes());
        body.extend(event.3.to_be_bytes());
        body.extend(event.4.to_be_bytes());
        body.extend(event.5.to_be_bytes());
        body.extend(event.6.to_be_bytes());
        body.extend(event.7.to_be_bytes());
    }
    body.resize(body.len().next_multiple_of(512) + 512, 0);
    let mut gate = [0u8; 512];
    gate[0] = 1;
    disk.seek(SeekFrom::Start(place + 512)).and_then(|_| disk.write_all(&body)).and_then(|()| disk.sync_data()).expect("a record");
    disk.seek(SeekFrom::Start(place)).and_then(|_| disk.write_all(&gate)).and_then(|()| disk.sync_data()).expect("a gate");
    place + body.len() as u64
}

fn main() {
    let words: Vec<String> = std::env::args().collect();
    let model = Phold::read(&words[1]);
    let mut disk = File::create(&words[2]).expect("a file");
    let (nodes, batch): (u32, u32) = (words[3].parse().expect("nodes"), words[4].parse().expect("a batch"));
    let mut numbers = vec![model.population; model.lps as usize];
    let mut states: Vec<State> = (0..model.lps).map(|lp| (next_key(model.seed, lp, model.population), 0)).collect();
    let mut pending = Vec::new();
    for lp in 0..model.lps {
        for k in 0..model.population {
            let delay = 1 + word(model.seed, lp, k) % model.spread;
            pending.push((u64::from(delay), lp, k, lp, u64::from(lp) * model.population + k, 0, 0, 0));
        }
    }
    pending.sort_unstable();
    let mut running: Vec<Node> = (0..nodes).map(|node| Node::load(&model, nodes, node, &states, &numbers, &pending)).collect();
    let mut answered = vec![0; nodes as usize];
    let mut transit: Vec<Signed> = Vec::new();
    let mut gathered: Vec<Done> = Vec::new();
    let mut log: Vec<Message> = Vec::new();
    let (mut time, mut handled, mut place) = (0, 0, 1024);
    while time < model.end {
        for node in 0..nodes {
            let travels = transit.iter().map(|signed| signed.1.0);
            let floor = travels.chain(running.iter().map(|node| node.cells[1].1)).min().unwrap_or(model.end).min(model.end);
            let (deliver, rest): (Vec<Signed>, Vec<Signed>) = transit.into_iter().partition(|signed| signed.1.3 % nodes == node);
            let (out, ran) = running[node as usize].handle(&model, &deliver, batch, floor, &mut gathered);
            transit = rest;
            transit.extend(out);
            answered[node as usize] = floor;
            handled += u64::from(ran);
        }
        let committed = *answered.iter().min().unwrap();
        if committed <= time {
            continue;
        }
        let (mut events, mut sent, mut rest) = (Vec::new(), Vec::new(), Vec::new());
        for done in gathered {
            if done.message.0 < committed {
                let lp = done.message.3 as usize;
                events.push(done.message);
                sent.extend(done.sent);
                states[lp] = done.after;
                numbers[lp] = done.number;
            } else {
                rest.push(done);
            }
        }
        gathered = rest;
        events.sort_unstable();
        sent.sort_unstable();
        pending = merged(&pending, &sent, &events);
        place = commit(&mut disk, place, committed, &events);
        log.extend(events);
        time = committed;
    }
    let mut digest = 14695981039346656037;
    for (key, count) in states {
        digest = with(with(digest, key), count);
    }
    for number in numbers {
        digest = with(digest, number);
    }
    for m in pending {
        for number in [m.0, u64::from(m.1), m.2, u64::from(m.3), m.4, m.5, m.6, m.7] {
            digest = with(digest, number);
        }
    }
    println!("handled {handled} events {} last {} world {digest}", log.len(), log.last().map_or(0, |m| m.3));
}
