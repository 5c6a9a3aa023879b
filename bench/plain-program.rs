//! A plain program of the same rules as `nomadsim run FILE`, for servers alone: what a message and
//! what a command costs is measured beside it (bench/README.md). Nothing here is proved.
//! `rustc -O --edition 2024 bench/plain-program.rs -o plain`, and then `plain run FILE`.
//!
//! It reads the same files, writes and reads the same frames with the same checks, keeps each frame
//! and each event, and prints the same lines of servers and of events. It has no clients, no desk,
//! no workers, and of the steps only `flow`, `deliver`, `timeout`, `beat`, `crash`, `restart`,
//! `register`, `request S put` and `request S drain`. A `register` proposes at once, without a
//! message. A command is weighed by what the leader has applied, not by its whole log. The state
//! stands in two hash maps and one of nodes, without forks and snapshots.

use std::collections::{HashMap, VecDeque};
use std::env;
use std::fs;
use std::io::{self, Write};
use std::process::ExitCode;
use std::rc::Rc;

// ---- Scenario files: JSON ----

#[derive(Clone, Copy, PartialEq, Eq)]
enum Order {
    Sent,
    Any,
}

struct Scenario {
    servers: usize,
    nodes: Vec<Rc<Node>>,
    key: u64,
    drop: u8,
    repeat: u8,
    order: Order,
    steps: Vec<String>,
}

/// The text is no scenario.
struct BadScenario;

struct Json<'a> {
    bytes: &'a [u8],
    at: usize,
}

impl<'a> Json<'a> {
    fn skip_space(&mut self) {
        while let Some(b' ' | b'\t' | b'\n' | b'\r') = self.bytes.get(self.at) {
            self.at += 1;
        }
    }

    fn peek(&mut self) -> Option<u8> {
        self.skip_space();
        self.bytes.get(self.at).copied()
    }

    fn expect(&mut self, byte: u8) -> Result<(), BadScenario> {
        if self.peek() != Some(byte) {
            return Err(BadScenario);
        }
        self.at += 1;
        Ok(())
    }

    /// Whether another item follows in a list or an object that ends with `end`.
    fn goes_on(&mut self, is_first: bool, end: u8) -> Result<bool, BadScenario> {
        match self.peek() {
            Some(byte) if byte == end => {
                self.at += 1;
                Ok(false)
            }
            Some(b',') if !is_first => {
                self.at += 1;
                Ok(true)
            }
            Some(_) if is_first => Ok(true),
            _ => Err(BadScenario),
        }
    }

    fn number(&mut self) -> Result<u64, BadScenario> {
        self.skip_space();
        let start = self.at;
        let mut number = 0u64;
        while let Some(digit @ b'0'..=b'9') = self.bytes.get(self.at) {
            number = number
                .checked_mul(10)
                .and_then(|n| n.checked_add(u64::from(digit - b'0')))
                .ok_or(BadScenario)?;
            self.at += 1;
        }
        let length = self.at - start;
        if length == 0 || length > 1 && self.bytes[start] == b'0' {
            return Err(BadScenario);
        }
        match self.bytes.get(self.at) {
            Some(b'.' | b'e' | b'E' | b'-' | b'+') => Err(BadScenario),
            _ => Ok(number),
        }
    }

    fn hex4(&mut self) -> Result<u32, BadScenario> {
        let digits = self.bytes.get(self.at..self.at + 4).ok_or(BadScenario)?;
        let mut value = 0;
        for digit in digits {
            value = value * 16 + char::from(*digit).to_digit(16).ok_or(BadScenario)?;
        }
        self.at += 4;
        Ok(value)
    }

    fn escape(&mut self, out: &mut String) -> Result<(), BadScenario> {
        let byte = *self.bytes.get(self.at).ok_or(BadScenario)?;
        self.at += 1;
        let letter = match byte {
            b'"' | b'\\' | b'/' => char::from(byte),
            b'b' => '\u{8}',
            b'f' => '\u{c}',
            b'n' => '\n',
            b'r' => '\r',
            b't' => '\t',
            b'u' => {
                let high = self.hex4()?;
                let code = if (0xd800..0xdc00).contains(&high) {
                    if self.bytes.get(self.at..self.at + 2) != Some(b"\\u") {
                        return Err(BadScenario);
                    }
                    self.at += 2;
                    let low = self.hex4()?;
                    if !(0xdc00..0xe000).contains(&low) {
                        return Err(BadScenario);
                    }
                    0x10000 + ((high - 0xd800) << 10) + (low - 0xdc00)
                } else {
                    high
                };
                char::from_u32(code).ok_or(BadScenario)?
            }
            _ => return Err(BadScenario),
        };
        out.push(letter);
        Ok(())
    }

    fn string(&mut self) -> Result<String, BadScenario> {
        self.expect(b'"')?;
        let mut out = String::new();
        loop {
            let start = self.at;
            while let Some(byte) = self.bytes.get(self.at) {
                if matches!(byte, b'"' | b'\\' | 0..=0x1f) {
                    break;
                }
                self.at += 1;
            }
            // The whole text is UTF-8, and both ends are ASCII.
            let run = std::str::from_utf8(&self.bytes[start..self.at]).map_err(|_| BadScenario)?;
            out.push_str(run);
            match self.bytes.get(self.at) {
                Some(b'"') => {
                    self.at += 1;
                    return Ok(out);
                }
                Some(b'\\') => {
                    self.at += 1;
                    self.escape(&mut out)?;
                }
                _ => return Err(BadScenario),
            }
        }
    }

    /// An object of a node.
    fn node(&mut self) -> Result<Node, BadScenario> {
        let (mut class, mut sizes) = (None, [None, None, None]);
        self.expect(b'{')?;
        let mut is_first = true;
        while self.goes_on(is_first, b'}')? {
            is_first = false;
            let name = self.string()?;
            self.expect(b':')?;
            match name.as_str() {
                "class" => put(&mut class, self.string()?)?,
                "cpu" => put(&mut sizes[0], self.number()?)?,
                "mem" => put(&mut sizes[1], self.number()?)?,
                "disk" => put(&mut sizes[2], self.number()?)?,
                _ => return Err(BadScenario),
            }
        }
        let class = class.filter(|it| is_name(it)).ok_or(BadScenario)?;
        let [Some(cpu), Some(memory), disk] = sizes else {
            return Err(BadScenario);
        };
        let size = size_of([cpu, memory, disk.unwrap_or(0)]).ok_or(BadScenario)?;
        Ok(Node {
            class,
            size,
            drains: None,
        })
    }

    fn nodes(&mut self) -> Result<Vec<Rc<Node>>, BadScenario> {
        self.expect(b'[')?;
        let mut list = Vec::new();
        while self.goes_on(list.is_empty(), b']')? {
            list.push(Rc::new(self.node()?));
        }
        Ok(list)
    }

    fn strings(&mut self) -> Result<Vec<String>, BadScenario> {
        self.expect(b'[')?;
        let mut list = Vec::new();
        while self.goes_on(list.is_empty(), b']')? {
            list.push(self.string()?);
        }
        Ok(list)
    }
}

fn put<T>(slot: &mut Option<T>, value: T) -> Result<(), BadScenario> {
    if slot.is_some() {
        return Err(BadScenario);
    }
    *slot = Some(value);
    Ok(())
}

fn percent(number: u64) -> Result<u8, BadScenario> {
    match u8::try_from(number) {
        Ok(percent) if percent <= 100 => Ok(percent),
        _ => Err(BadScenario),
    }
}

/// Reads a scenario: an object of exactly the seven keys, none twice.
fn read_scenario(text: &str) -> Result<Scenario, BadScenario> {
    let mut json = Json {
        bytes: text.as_bytes(),
        at: 0,
    };
    let (mut servers, mut nodes, mut key) = (None, None, None);
    let (mut drop, mut repeat, mut order, mut steps) = (None, None, None, None);
    json.expect(b'{')?;
    let mut is_first = true;
    while json.goes_on(is_first, b'}')? {
        is_first = false;
        let name = json.string()?;
        json.expect(b':')?;
        match name.as_str() {
            "servers" => put(&mut servers, json.number()?)?,
            "nodes" => put(&mut nodes, json.nodes()?)?,
            "key" => put(&mut key, json.number()?)?,
            "drop" => put(&mut drop, percent(json.number()?)?)?,
            "repeat" => put(&mut repeat, percent(json.number()?)?)?,
            "order" => put(&mut order, json.string()?)?,
            "steps" => put(&mut steps, json.strings()?)?,
            _ => return Err(BadScenario),
        }
    }
    if json.peek().is_some() {
        return Err(BadScenario);
    }
    let order = match order.as_deref() {
        Some("sent") => Order::Sent,
        Some("any") => Order::Any,
        _ => return Err(BadScenario),
    };
    let servers = match servers {
        Some(3) => 3,
        Some(5) => 5,
        _ => return Err(BadScenario),
    };
    let (drop, repeat) = (drop.ok_or(BadScenario)?, repeat.ok_or(BadScenario)?);
    if drop + repeat > 100 {
        return Err(BadScenario);
    }
    Ok(Scenario {
        servers,
        nodes: nodes.filter(|it| it.len() <= 64).ok_or(BadScenario)?,
        key: key.ok_or(BadScenario)?,
        drop,
        repeat,
        order,
        steps: steps.ok_or(BadScenario)?,
    })
}

// ---- Steps ----

#[derive(Clone, Copy, PartialEq, Eq, Debug)]
struct ServerId(u8);

impl ServerId {
    fn from_number(number: u8) -> Option<ServerId> {
        (1..=5).contains(&number).then_some(ServerId(number))
    }

    fn place(self) -> usize {
        usize::from(self.0 - 1)
    }
}

#[derive(Clone, Copy)]
enum Input {
    Timeout,
    Beat,
    Crash,
    Restart,
}

#[derive(Clone, Copy)]
enum Event {
    Deliver(u64),
    Server(ServerId, Input),
    Register(u8, ServerId),
    /// The command at a place of the scenario's.
    Propose(ServerId, usize),
}

enum Step {
    Event(Event),
    Flow(Option<u64>),
}

fn read_number(word: &str) -> Option<u64> {
    if word.len() > 1 && word.starts_with('0') || word.starts_with('+') {
        return None;
    }
    word.parse().ok()
}

fn read_server(word: &str) -> Option<ServerId> {
    ServerId::from_number(u8::try_from(read_number(word)?).ok()?)
}

fn is_name(word: &str) -> bool {
    let is_part = |it: u8| matches!(it, b'a'..=b'z' | b'0'..=b'9' | b'-');
    (1..=32).contains(&word.len()) && word.bytes().all(is_part)
}

/// Processor time, memory and disk.
fn size_of(numbers: [u64; 3]) -> Option<[u32; 3]> {
    let [cpu, memory, disk] = numbers;
    let fits = cpu > 0 && memory > 0 && cpu.max(memory).max(disk) <= 1_000_000;
    fits.then_some(numbers.map(|it| it as u32))
}

fn read_group(word: &str) -> Option<Group> {
    let mut parts = word.split(':');
    let name = parts.next().filter(|it| is_name(it))?;
    let count = read_number(parts.next()?).filter(|it| *it <= 64)? as u8;
    let class = parts.next().filter(|it| is_name(it))?;
    let mut number = || read_number(parts.next()?);
    let size = size_of([number()?, number()?, number()?])?;
    parts.next().is_none().then(|| Group {
        name: name.to_string(),
        count,
        class: class.to_string(),
        size,
    })
}

fn read_job<'a>(mut words: impl Iterator<Item = &'a str>) -> Option<Job> {
    let name = words.next().filter(|it| is_name(it))?.to_string();
    let priority = read_number(words.next()?).filter(|it| (1..=100).contains(it))? as u8;
    let mut groups: Vec<Group> = Vec::new();
    for word in words.next()?.split(',') {
        let group = read_group(word)?;
        if groups.len() == 8 || groups.iter().any(|it| it.name == group.name) {
            return None;
        }
        groups.push(group);
    }
    words.next().is_none().then_some(Job {
        name,
        priority,
        groups,
    })
}

fn read_node(word: &str) -> Option<u8> {
    let number = read_number(word)?;
    (1..=64).contains(&number).then_some(number as u8)
}

/// What is asked for behind `request S`.
fn read_command(mut words: std::str::Split<'_, char>) -> Option<Command> {
    match words.next()? {
        "put" => Some(Command::JobPut(Rc::new(read_job(words)?))),
        "drain" => {
            let node = read_node(words.next()?)?;
            let force = match words.next()? {
                "slow" => false,
                "force" => true,
                _ => return None,
            };
            words.next().is_none().then_some(Command::Drain(node, force))
        }
        _ => None,
    }
}

/// The step of a line. A command is put behind the others, and its event says where it stands.
fn read_step(line: &str, commands: &mut Vec<Command>) -> Option<Step> {
    if line == "flow" {
        return Some(Step::Flow(None));
    }
    let (verb, word) = line.split_once(' ')?;
    let server = |input| Some(Step::Event(Event::Server(read_server(word)?, input)));
    match verb {
        "flow" => Some(Step::Flow(Some(read_number(word)?))),
        "deliver" => match read_number(word)? {
            0 => None,
            message => Some(Step::Event(Event::Deliver(message))),
        },
        "timeout" => server(Input::Timeout),
        "beat" => server(Input::Beat),
        "crash" => server(Input::Crash),
        "restart" => server(Input::Restart),
        "register" => {
            let (client, server) = word.split_once(' ')?;
            Some(Step::Event(Event::Register(read_node(client)?, read_server(server)?)))
        }
        "request" => {
            let mut words = word.split(' ');
            let server = read_server(words.next()?)?;
            commands.push(read_command(words)?);
            Some(Step::Event(Event::Propose(server, commands.len() - 1)))
        }
        _ => None,
    }
}

// ---- Messages and frames ----

const LIMIT: u64 = 1 << 40;
const VERSION: u8 = 3;
const MOST_ENTRIES: usize = 32;
const FRAME_LIMIT: usize = 16_777_216;

/// A group of a job: its name, how many are to run, on nodes of which class, of which size.
struct Group {
    name: String,
    count: u8,
    class: String,
    size: [u32; 3],
}

struct Job {
    name: String,
    priority: u8,
    groups: Vec<Group>,
}

#[derive(Clone)]
struct Node {
    class: String,
    size: [u32; 3],
    /// Whether it is drained by force.
    drains: Option<bool>,
}

#[derive(Clone)]
enum Command {
    Noop,
    JobPut(Rc<Job>),
    NodePut(u8, Rc<Node>),
    Drain(u8, bool),
}

#[derive(Clone)]
struct Entry {
    term: u64,
    command: Command,
}

enum Body {
    VoteRequest {
        term: u64,
        last_index: u64,
        last_term: u64,
    },
    VoteReply {
        term: u64,
        asked: u64,
        granted: bool,
    },
    Append {
        term: u64,
        prev_index: u64,
        prev_term: u64,
        commit: u64,
        entries: Vec<Entry>,
    },
    AppendReply {
        term: u64,
        asked: u64,
        ok: bool,
        at: u64,
    },
}

struct Message {
    from: ServerId,
    to: ServerId,
    body: Body,
}

/// All frames that were ever sent, one behind the other.
#[derive(Default)]
struct Frames {
    bytes: Vec<u8>,
    ends: Vec<(ServerId, usize)>,
}

impl Frames {
    fn begin(&mut self, kind: u8, from: ServerId, to: ServerId) -> usize {
        let size_at = self.bytes.len() + 4;
        self.bytes.extend_from_slice(&[VERSION, kind, from.0, to.0, 0, 0, 0, 0]);
        size_at
    }

    fn number(&mut self, number: u64) {
        self.bytes.extend_from_slice(&number.to_be_bytes());
    }

    fn end(&mut self, to: ServerId, size_at: usize) {
        let size = (self.bytes.len() - size_at - 4) as u32;
        self.bytes[size_at..size_at + 4].copy_from_slice(&size.to_be_bytes());
        self.ends.push((to, self.bytes.len()));
    }

    fn append(
        &mut self,
        from: ServerId,
        to: ServerId,
        head: [u64; 4],
        entries: &[Entry],
    ) {
        let size_at = self.begin(3, from, to);
        for number in head {
            self.number(number);
        }
        self.bytes.push(entries.len() as u8);
        for entry in entries {
            self.number(entry.term);
            self.command(&entry.command);
        }
        self.end(to, size_at);
    }

    fn name(&mut self, name: &str) {
        self.bytes.push(name.len() as u8);
        self.bytes.extend_from_slice(name.as_bytes());
    }

    fn size(&mut self, size: &[u32; 3]) {
        for number in size {
            self.bytes.extend_from_slice(&number.to_be_bytes());
        }
    }

    fn command(&mut self, command: &Command) {
        match command {
            Command::Noop => self.bytes.push(0),
            Command::JobPut(job) => {
                self.bytes.push(1);
                self.name(&job.name);
                self.bytes.extend_from_slice(&[job.priority, job.groups.len() as u8]);
                for group in &job.groups {
                    self.name(&group.name);
                    self.bytes.push(group.count);
                    self.name(&group.class);
                    self.size(&group.size);
                }
            }
            Command::NodePut(number, node) => {
                self.bytes.extend_from_slice(&[3, *number]);
                self.name(&node.class);
                self.size(&node.size);
            }
            Command::Drain(number, force) => {
                self.bytes.extend_from_slice(&[5, *number, u8::from(*force)]);
            }
        }
    }

    fn send(&mut self, message: &Message) {
        let (from, to) = (message.from, message.to);
        match &message.body {
            Body::VoteRequest {
                term,
                last_index,
                last_term,
            } => {
                let size_at = self.begin(1, from, to);
                self.number(*term);
                self.number(*last_index);
                self.number(*last_term);
                self.end(to, size_at);
            }
            Body::VoteReply {
                term,
                asked,
                granted,
            } => {
                let size_at = self.begin(2, from, to);
                self.number(*term);
                self.number(*asked);
                self.bytes.push(u8::from(*granted));
                self.end(to, size_at);
            }
            Body::Append {
                term,
                prev_index,
                prev_term,
                commit,
                entries,
            } => self.append(from, to, [*term, *prev_index, *prev_term, *commit], entries),
            Body::AppendReply {
                term,
                asked,
                ok,
                at,
            } => {
                let size_at = self.begin(4, from, to);
                self.number(*term);
                self.number(*asked);
                self.bytes.push(u8::from(*ok));
                self.number(*at);
                self.end(to, size_at);
            }
        }
    }

    /// The k-th frame, from 1, with its receiver.
    fn get(&self, k: u64) -> Option<(ServerId, &[u8])> {
        let place = usize::try_from(k.checked_sub(1)?).ok()?;
        let (to, end) = *self.ends.get(place)?;
        let start = match place.checked_sub(1) {
            Some(before) => self.ends[before].1,
            None => 0,
        };
        Some((to, &self.bytes[start..end]))
    }
}

#[derive(Clone, Copy, PartialEq, Eq, Debug)]
enum Refusal {
    NotLeader,
    UnknownNode,
    OutOfRange,
    TableFull,
    Exhausted,
    Frame(usize),
    Down,
}

impl Refusal {
    fn number(self) -> u8 {
        match self {
            Refusal::NotLeader => 2,
            Refusal::UnknownNode => 9,
            Refusal::OutOfRange => 12,
            Refusal::TableFull => 13,
            Refusal::Exhausted => 14,
            Refusal::Frame(_) => 15,
            Refusal::Down => 16,
        }
    }
}

struct Reader<'a> {
    bytes: &'a [u8],
    at: usize,
}

impl Reader<'_> {
    fn u8(&mut self) -> Result<u8, Refusal> {
        let byte = *self.bytes.get(self.at).ok_or(Refusal::Frame(self.at))?;
        self.at += 1;
        Ok(byte)
    }

    fn u64(&mut self) -> Result<u64, Refusal> {
        match self.bytes.get(self.at..self.at + 8) {
            Some(found) => {
                self.at += 8;
                Ok(u64::from_be_bytes(found.try_into().unwrap()))
            }
            None => Err(Refusal::Frame(self.at)),
        }
    }

    /// A term or an index.
    fn number(&mut self) -> Result<u64, Refusal> {
        let at = self.at;
        let number = self.u64()?;
        if number >= LIMIT {
            return Err(Refusal::Frame(at));
        }
        Ok(number)
    }

    fn bool(&mut self) -> Result<bool, Refusal> {
        match self.u8()? {
            0 => Ok(false),
            1 => Ok(true),
            _ => Err(Refusal::Frame(self.at - 1)),
        }
    }

    fn server(&mut self) -> Result<ServerId, Refusal> {
        ServerId::from_number(self.u8()?).ok_or(Refusal::Frame(self.at - 1))
    }

    fn size(&mut self) -> Result<(), Refusal> {
        let at = self.at;
        match self.bytes.get(at..at + 4) {
            Some(found) => {
                let size = u32::from_be_bytes(found.try_into().unwrap()) as usize;
                if size + 8 != self.bytes.len() || self.bytes.len() > FRAME_LIMIT {
                    return Err(Refusal::Frame(at));
                }
                self.at += 4;
                Ok(())
            }
            None => Err(Refusal::Frame(at)),
        }
    }

    /// A byte from the first number to the second.
    fn byte_in(&mut self, least: u8, most: u8) -> Result<u8, Refusal> {
        match self.u8()? {
            byte if (least..=most).contains(&byte) => Ok(byte),
            _ => Err(Refusal::Frame(self.at - 1)),
        }
    }

    fn name(&mut self) -> Result<String, Refusal> {
        let start = self.at;
        let size = usize::from(self.u8()?);
        let found = self.bytes.get(self.at..self.at + size).ok_or(Refusal::Frame(start))?;
        let name = std::str::from_utf8(found).ok().filter(|it| is_name(it));
        self.at += size;
        Ok(name.ok_or(Refusal::Frame(start))?.to_string())
    }

    fn size_of(&mut self) -> Result<[u32; 3], Refusal> {
        let start = self.at;
        let mut numbers = [0; 3];
        for number in &mut numbers {
            let found = self.bytes.get(self.at..self.at + 4).ok_or(Refusal::Frame(self.at))?;
            *number = u64::from(u32::from_be_bytes(found.try_into().unwrap()));
            self.at += 4;
        }
        size_of(numbers).ok_or(Refusal::Frame(start))
    }

    fn group(&mut self) -> Result<Group, Refusal> {
        Ok(Group {
            name: self.name()?,
            count: self.byte_in(0, 64)?,
            class: self.name()?,
            size: self.size_of()?,
        })
    }

    fn job(&mut self) -> Result<Job, Refusal> {
        let name = self.name()?;
        let priority = self.byte_in(1, 100)?;
        let count = self.byte_in(1, 8)?;
        let mut groups: Vec<Group> = Vec::with_capacity(usize::from(count));
        for _ in 0..count {
            let start = self.at;
            let group = self.group()?;
            if groups.iter().any(|it| it.name == group.name) {
                return Err(Refusal::Frame(start));
            }
            groups.push(group);
        }
        Ok(Job {
            name,
            priority,
            groups,
        })
    }

    fn command(&mut self) -> Result<Command, Refusal> {
        match self.u8()? {
            0 => Ok(Command::Noop),
            1 => Ok(Command::JobPut(Rc::new(self.job()?))),
            3 => {
                let number = self.byte_in(1, 64)?;
                let (class, size) = (self.name()?, self.size_of()?);
                let node = Node {
                    class,
                    size,
                    drains: None,
                };
                Ok(Command::NodePut(number, Rc::new(node)))
            }
            5 => Ok(Command::Drain(self.byte_in(1, 64)?, self.bool()?)),
            _ => Err(Refusal::Frame(self.at - 1)),
        }
    }

    fn entry(&mut self) -> Result<Entry, Refusal> {
        let term = self.number()?;
        let command = self.command()?;
        Ok(Entry { term, command })
    }

    fn append(&mut self) -> Result<Body, Refusal> {
        let term = self.number()?;
        let prev_index = self.number()?;
        let prev_term = self.number()?;
        let commit = self.number()?;
        let count = usize::from(self.u8()?);
        if count > MOST_ENTRIES || prev_index + count as u64 >= LIMIT {
            return Err(Refusal::Frame(self.at - 1));
        }
        let mut entries = Vec::with_capacity(count);
        for _ in 0..count {
            entries.push(self.entry()?);
        }
        Ok(Body::Append {
            term,
            prev_index,
            prev_term,
            commit,
            entries,
        })
    }

    fn body(&mut self, kind: u8) -> Result<Body, Refusal> {
        match kind {
            1 => Ok(Body::VoteRequest {
                term: self.number()?,
                last_index: self.number()?,
                last_term: self.number()?,
            }),
            2 => Ok(Body::VoteReply {
                term: self.number()?,
                asked: self.number()?,
                granted: self.bool()?,
            }),
            3 => self.append(),
            _ => Ok(Body::AppendReply {
                term: self.number()?,
                asked: self.number()?,
                ok: self.bool()?,
                at: self.number()?,
            }),
        }
    }
}

fn read_message(bytes: &[u8]) -> Result<Message, Refusal> {
    let mut reader = Reader { bytes, at: 0 };
    if reader.u8()? != VERSION {
        return Err(Refusal::Frame(0));
    }
    let kind = reader.u8()?;
    if !(1..=4).contains(&kind) {
        return Err(Refusal::Frame(1));
    }
    let from = reader.server()?;
    let to = reader.server()?;
    if from == to {
        return Err(Refusal::Frame(3));
    }
    reader.size()?;
    let body = reader.body(kind)?;
    if reader.at != bytes.len() {
        return Err(Refusal::Frame(reader.at));
    }
    Ok(Message { from, to, body })
}

// ---- Servers ----

#[derive(Clone, Copy, PartialEq, Eq)]
enum Role {
    Follower,
    Candidate,
    Leader,
}

/// A job's row: what was put last, and how many commands were applied then.
#[allow(dead_code)] // No worker reads it here.
struct JobRow {
    job: Rc<Job>,
    version: u64,
}

/// A pending evaluation.
#[allow(dead_code)]
struct Evaluation {
    job: Rc<Job>,
    priority: u8,
}

/// The replicated state: how many commands were applied, and the rows. An evaluation is found by
/// the index of the entry that made it.
#[derive(Default)]
struct State {
    count: u64,
    jobs: HashMap<String, JobRow>,
    nodes: HashMap<u8, Node>,
    evaluations: HashMap<u64, Evaluation>,
}

impl State {
    /// Why a command is not proposed, if it is not.
    fn refusal(&self, command: &Command) -> Option<Refusal> {
        match command {
            Command::JobPut(job) => {
                let has_room = self.jobs.len() < 256 || self.jobs.contains_key(&job.name);
                (!has_room || self.evaluations.len() >= 65_536).then_some(Refusal::TableFull)
            }
            Command::Drain(number, _) => {
                (!self.nodes.contains_key(number)).then_some(Refusal::UnknownNode)
            }
            Command::Noop | Command::NodePut(_, _) => None,
        }
    }

    fn put_job(&mut self, job: &Rc<Job>) {
        let row = JobRow {
            job: job.clone(),
            version: self.count,
        };
        match self.jobs.get_mut(&job.name) {
            Some(old) => *old = row,
            None => drop(self.jobs.insert(job.name.clone(), row)),
        }
        let evaluation = Evaluation {
            job: job.clone(),
            priority: job.priority,
        };
        self.evaluations.insert(self.count, evaluation);
    }

    fn apply(&mut self, command: &Command) {
        self.count += 1;
        match command {
            Command::Noop => {}
            Command::JobPut(job) => self.put_job(job),
            Command::NodePut(number, node) => {
                self.nodes.insert(*number, Node::clone(node));
            }
            Command::Drain(number, force) => {
                if let Some(node) = self.nodes.get_mut(number) {
                    node.drains = Some(*force);
                }
            }
        }
    }
}

struct Server {
    me: ServerId,
    size: usize,
    term: u64,
    vote: Option<ServerId>,
    log: Vec<Entry>,
    /// None while it is down.
    state: Option<State>,
    role: Role,
    commit: u64,
    known: Option<ServerId>,
    votes: Vec<bool>,
    next: Vec<u64>,
    matched: Vec<u64>,
}

impl Server {
    fn new(me: ServerId, size: usize) -> Server {
        Server {
            me,
            size,
            term: 0,
            vote: None,
            log: Vec::new(),
            state: Some(State::default()),
            role: Role::Follower,
            commit: 0,
            known: None,
            votes: vec![false; size],
            next: vec![1; size],
            matched: vec![0; size],
        }
    }

    fn last(&self) -> u64 {
        self.log.len() as u64
    }

    fn term_at(&self, index: u64) -> u64 {
        match index {
            0 => 0,
            _ => self.log.get(index as usize - 1).map_or(0, |it| it.term),
        }
    }

    fn others(&self) -> impl Iterator<Item = ServerId> + use<> {
        let me = self.me;
        (1..=self.size as u8).map(ServerId).filter(move |it| *it != me)
    }

    fn take(&mut self, input: Input, out: &mut Frames) -> Result<(), Refusal> {
        match (input, self.state.is_some()) {
            (Input::Restart, true) => return Err(Refusal::OutOfRange),
            (Input::Restart, false) => {
                self.role = Role::Follower;
                self.commit = 0;
                self.known = None;
                self.state = Some(State::default());
            }
            (_, false) => return Err(Refusal::Down),
            (Input::Crash, true) => self.state = None,
            (Input::Timeout, true) => self.timeout(out)?,
            (Input::Beat, true) => self.beat(out),
        }
        Ok(())
    }

    fn propose(&mut self, command: Command) -> Result<(), Refusal> {
        if self.state.is_none() {
            return Err(Refusal::Down);
        }
        if self.role != Role::Leader {
            return Err(Refusal::NotLeader);
        }
        if self.last() + 1 >= LIMIT {
            return Err(Refusal::Exhausted);
        }
        match self.state.as_ref().and_then(|it| it.refusal(&command)) {
            Some(refusal) => Err(refusal),
            None => {
                let term = self.term;
                self.log.push(Entry { term, command });
                Ok(())
            }
        }
    }

    fn timeout(&mut self, out: &mut Frames) -> Result<(), Refusal> {
        if self.role == Role::Leader {
            return Ok(());
        }
        if self.term + 1 >= LIMIT || self.last() + 1 >= LIMIT {
            return Err(Refusal::Exhausted);
        }
        self.term += 1;
        self.vote = Some(self.me);
        self.known = None;
        self.votes.fill(false);
        self.votes[self.me.place()] = true;
        self.role = Role::Candidate;
        for to in self.others() {
            out.send(&Message {
                from: self.me,
                to,
                body: Body::VoteRequest {
                    term: self.term,
                    last_index: self.last(),
                    last_term: self.term_at(self.last()),
                },
            });
        }
        Ok(())
    }

    fn beat(&self, out: &mut Frames) {
        if self.role != Role::Leader {
            return;
        }
        for to in self.others() {
            let prev_index = self.next[to.place()] - 1;
            let start = (prev_index as usize).min(self.log.len());
            let end = (start + MOST_ENTRIES).min(self.log.len());
            let head = [self.term, prev_index, self.term_at(prev_index), self.commit];
            out.append(self.me, to, head, &self.log[start..end]);
        }
    }

    /// A frame comes.
    fn receive(&mut self, message: Message, out: &mut Frames) -> Result<(), Refusal> {
        if message.from.place() >= self.size {
            return Err(Refusal::Frame(2));
        }
        if message.to != self.me {
            return Err(Refusal::Frame(3));
        }
        let from = message.from;
        match message.body {
            Body::VoteRequest {
                term,
                last_index,
                last_term,
            } => self.vote_request(from, term, last_index, last_term, out),
            Body::VoteReply {
                term,
                asked,
                granted,
            } => self.vote_reply(from, term, asked, granted),
            Body::Append {
                term,
                prev_index,
                prev_term,
                commit,
                entries,
            } => self.append(from, [term, prev_index, prev_term, commit], entries, out),
            Body::AppendReply {
                term,
                asked,
                ok,
                at,
            } => self.append_reply(from, term, asked, ok, at),
        }
        Ok(())
    }

    fn meet(&mut self, term: u64) {
        if self.term < term {
            self.term = term;
            self.vote = None;
            self.known = None;
            self.role = Role::Follower;
        }
    }

    fn vote_request(
        &mut self,
        from: ServerId,
        asked: u64,
        last_index: u64,
        last_term: u64,
        out: &mut Frames,
    ) {
        self.meet(asked);
        let own = (self.term_at(self.last()), self.last());
        let granted = asked == self.term
            && self.vote.is_none_or(|it| it == from)
            && own <= (last_term, last_index);
        if granted {
            self.vote = Some(from);
        }
        out.send(&Message {
            from: self.me,
            to: from,
            body: Body::VoteReply {
                term: self.term,
                asked,
                granted,
            },
        });
    }

    fn vote_reply(&mut self, from: ServerId, term: u64, asked: u64, granted: bool) {
        self.meet(term);
        if asked != self.term || !granted || self.role != Role::Candidate {
            return;
        }
        self.votes[from.place()] = true;
        if 2 * self.votes.iter().filter(|it| **it).count() > self.size {
            self.role = Role::Leader;
            let first = self.last() + 1;
            self.next.fill(first);
            self.matched.fill(0);
            self.log.push(Entry {
                term: self.term,
                command: Command::Noop,
            });
        }
    }

    fn apply_to(&mut self, commit: u64) {
        if let Some(state) = &mut self.state {
            for entry in &self.log[self.commit as usize..commit as usize] {
                state.apply(&entry.command);
            }
        }
        self.commit = commit;
    }

    fn append(&mut self, from: ServerId, head: [u64; 4], entries: Vec<Entry>, out: &mut Frames) {
        let [asked, prev_index, prev_term, commit] = head;
        if asked < self.term {
            return self.answer(from, asked, false, 0, out);
        }
        self.meet(asked);
        if self.role == Role::Leader {
            return;
        }
        self.role = Role::Follower;
        self.known = Some(from);
        if !self.stays(prev_index, prev_term) {
            let at = (prev_index - 1).min(self.last());
            return self.answer(from, asked, false, at, out);
        }
        let reached = prev_index + entries.len() as u64;
        for (place, entry) in entries.iter().enumerate() {
            let index = prev_index + place as u64 + 1;
            if !self.stays(index, entry.term) {
                self.log.truncate(index as usize - 1);
                self.log.extend_from_slice(&entries[place..]);
                break;
            }
        }
        self.apply_to(self.commit.max(commit.min(reached)));
        self.answer(from, asked, true, reached, out);
    }

    /// Whether what stands at an index stays: it is committed, or in the log with this term.
    fn stays(&self, index: u64, term: u64) -> bool {
        index <= self.commit || index <= self.last() && self.term_at(index) == term
    }

    fn answer(&self, to: ServerId, asked: u64, ok: bool, at: u64, out: &mut Frames) {
        out.send(&Message {
            from: self.me,
            to,
            body: Body::AppendReply {
                term: self.term,
                asked,
                ok,
                at,
            },
        });
    }

    fn append_reply(&mut self, from: ServerId, term: u64, asked: u64, ok: bool, at: u64) {
        self.meet(term);
        if asked != self.term || self.role != Role::Leader {
            return;
        }
        let place = from.place();
        if !ok {
            let earlier = (self.next[place] - 1).min(at + 1);
            self.next[place] = earlier.max(self.matched[place] + 1);
        } else if at <= self.last() {
            self.matched[place] = self.matched[place].max(at);
            self.next[place] = self.matched[place] + 1;
        }
        let mut index = self.last();
        while index > self.commit && !(self.is_held(index) && self.term_at(index) == self.term) {
            index -= 1;
        }
        self.apply_to(index);
    }

    /// Whether more than half of the servers hold an index.
    fn is_held(&self, index: u64) -> bool {
        let others = self.others().filter(|it| index <= self.matched[it.place()]);
        2 * (1 + others.count()) > self.size
    }
}

// ---- The group ----

struct World {
    servers: Vec<Server>,
    nodes: Vec<Rc<Node>>,
    commands: Vec<Command>,
    frames: Frames,
    trace: Vec<Event>,
}

impl World {
    fn new(scenario: &Scenario, commands: Vec<Command>) -> World {
        let size = scenario.servers;
        World {
            servers: (1..=size as u8).map(|it| Server::new(ServerId(it), size)).collect(),
            nodes: scenario.nodes.clone(),
            commands,
            frames: Frames::default(),
            trace: Vec::new(),
        }
    }

    fn step(&mut self, event: Event) -> Result<(), Refusal> {
        match event {
            Event::Deliver(k) => {
                let (to, bytes) = self.frames.get(k).ok_or(Refusal::OutOfRange)?;
                let server = &mut self.servers[to.place()];
                if server.state.is_none() {
                    return Err(Refusal::Down);
                }
                let message = read_message(bytes)?;
                server.receive(message, &mut self.frames)?;
            }
            Event::Server(me, input) => {
                let server = self.servers.get_mut(me.place()).ok_or(Refusal::OutOfRange)?;
                server.take(input, &mut self.frames)?;
            }
            Event::Register(client, to) => {
                let place = usize::from(client - 1);
                let node = self.nodes.get(place).ok_or(Refusal::OutOfRange)?.clone();
                let server = self.servers.get_mut(to.place()).ok_or(Refusal::OutOfRange)?;
                server.propose(Command::NodePut(client, node))?;
            }
            Event::Propose(me, place) => {
                let server = self.servers.get_mut(me.place()).ok_or(Refusal::OutOfRange)?;
                server.propose(self.commands[place].clone())?;
            }
        }
        self.trace.push(event);
        Ok(())
    }
}

/// The 32-bit words of ChaCha8 under a key.
struct Words {
    state: [u32; 16],
    block: [u32; 16],
    used: usize,
}

impl Words {
    fn new(key: u64) -> Words {
        let mut bytes = [0; 32];
        bytes[..8].copy_from_slice(&key.to_be_bytes());
        let mut state = [0; 16];
        state[..4].copy_from_slice(&[0x6170_7865, 0x3320_646e, 0x7962_2d32, 0x6b20_6574]);
        for (word, four) in state[4..12].iter_mut().zip(bytes.chunks_exact(4)) {
            *word = u32::from_le_bytes(four.try_into().unwrap());
        }
        Words {
            state,
            block: [0; 16],
            used: 16,
        }
    }

    fn refill(&mut self) {
        fn quarter(x: &mut [u32; 16], a: usize, b: usize, c: usize, d: usize) {
            x[a] = x[a].wrapping_add(x[b]);
            x[d] = (x[d] ^ x[a]).rotate_left(16);
            x[c] = x[c].wrapping_add(x[d]);
            x[b] = (x[b] ^ x[c]).rotate_left(12);
            x[a] = x[a].wrapping_add(x[b]);
            x[d] = (x[d] ^ x[a]).rotate_left(8);
            x[c] = x[c].wrapping_add(x[d]);
            x[b] = (x[b] ^ x[c]).rotate_left(7);
        }
        let mut x = self.state;
        for _ in 0..4 {
            quarter(&mut x, 0, 4, 8, 12);
            quarter(&mut x, 1, 5, 9, 13);
            quarter(&mut x, 2, 6, 10, 14);
            quarter(&mut x, 3, 7, 11, 15);
            quarter(&mut x, 0, 5, 10, 15);
            quarter(&mut x, 1, 6, 11, 12);
            quarter(&mut x, 2, 7, 8, 13);
            quarter(&mut x, 3, 4, 9, 14);
        }
        for ((out, word), start) in self.block.iter_mut().zip(x).zip(self.state) {
            *out = word.wrapping_add(start);
        }
        let (low, carry) = self.state[12].overflowing_add(1);
        self.state[12] = low;
        self.state[13] = self.state[13].wrapping_add(u32::from(carry));
        self.used = 0;
    }

    fn next(&mut self) -> u32 {
        if self.used == 16 {
            self.refill();
        }
        self.used += 1;
        self.block[self.used - 1]
    }
}

struct Play {
    world: World,
    flight: VecDeque<u64>,
    /// How many of the messages ever sent were put in flight.
    seen: u64,
    words: Words,
    order: Order,
    drop: u32,
    repeat: u32,
}

impl Play {
    fn new(scenario: &Scenario, commands: Vec<Command>) -> Play {
        Play {
            world: World::new(scenario, commands),
            flight: VecDeque::new(),
            seen: 0,
            words: Words::new(scenario.key),
            order: scenario.order,
            drop: u32::from(scenario.drop),
            repeat: u32::from(scenario.repeat),
        }
    }

    fn event(&mut self, event: Event) -> Result<(), Refusal> {
        self.world.step(event)?;
        let sent = self.world.frames.ends.len() as u64;
        self.flight.extend(self.seen + 1..=sent);
        self.seen = sent;
        Ok(())
    }

    fn take_message(&mut self) -> Option<u64> {
        if self.flight.is_empty() {
            return None;
        }
        match self.order {
            Order::Sent => self.flight.pop_front(),
            Order::Any => {
                let word = self.words.next() as usize;
                self.flight.remove(word % self.flight.len())
            }
        }
    }

    fn flow(&mut self, count: u64) {
        for _ in 0..count {
            let Some(message) = self.take_message() else {
                return;
            };
            let word = self.words.next() % 100;
            if word < self.drop {
                continue;
            }
            let taken = self.event(Event::Deliver(message));
            if taken.is_ok() && word < self.drop + self.repeat {
                self.flight.push_back(message);
            }
        }
    }

    fn take(&mut self, step: &Step) -> Result<(), Refusal> {
        match step {
            Step::Event(event) => self.event(*event),
            Step::Flow(count) => {
                self.flow(count.unwrap_or(10_000));
                Ok(())
            }
        }
    }
}

fn print_end(out: &mut impl Write, world: &World) -> io::Result<()> {
    for server in &world.servers {
        let (number, term, last) = (server.me.0, server.term, server.last());
        let Some(state) = &server.state else {
            writeln!(out, "server {number} down term {term} last {last}")?;
            continue;
        };
        let role = match server.role {
            Role::Follower => "follower",
            Role::Candidate => "candidate",
            Role::Leader => "leader",
        };
        let applied = state.count;
        writeln!(out, "server {number} {role} term {term} last {last} applied {applied}")?;
    }
    let (events, messages) = (world.trace.len(), world.frames.ends.len());
    writeln!(out, "events {events} messages {messages}")?;
    out.flush()
}

fn run(text: &str, out: &mut impl Write) -> Result<u8, &'static str> {
    let failed = |_| "output";
    let scenario = read_scenario(text).map_err(|_| "bad scenario")?;
    let (mut steps, mut commands) = (Vec::new(), Vec::new());
    for line in &scenario.steps {
        steps.push(read_step(line, &mut commands).ok_or("bad scenario")?);
    }
    let mut play = Play::new(&scenario, commands);
    let mut status = 0;
    for (step, line) in steps.iter().zip(&scenario.steps) {
        if let Err(refusal) = play.take(step) {
            writeln!(out, "refused {} {line}", refusal.number()).map_err(failed)?;
            out.flush().map_err(failed)?;
            status = 1;
        }
    }
    print_end(out, &play.world).map_err(failed)?;
    Ok(status)
}

fn main() -> ExitCode {
    let words: Vec<String> = env::args().collect();
    let [_, verb, file] = words.as_slice() else {
        eprintln!("usage: plain run FILE");
        return ExitCode::from(2);
    };
    if verb != "run" {
        eprintln!("usage: plain run FILE");
        return ExitCode::from(2);
    }
    let Ok(bytes) = fs::read(file) else {
        eprintln!("plain: cannot read {file}");
        return ExitCode::from(2);
    };
    let Ok(text) = std::str::from_utf8(&bytes) else {
        eprintln!("plain: bad scenario");
        return ExitCode::from(2);
    };
    match run(text, &mut io::BufWriter::new(io::stdout())) {
        Ok(status) => ExitCode::from(status),
        Err(fault) => {
            eprintln!("plain: {fault}");
            ExitCode::from(2)
        }
    }
}
