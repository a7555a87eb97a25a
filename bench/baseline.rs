//! The same rules, written independently in Rust: the yardstick of the benchmark and the other side of the comparison test.
//!
//!     baseline script              runs the script on standard input, as the program `lumtsagar` does
//!     baseline steps empty|full N  takes N steps on an empty or on a full table, each with the whole soundness test first
use std::io::{Read, Write};

const SITES: u32 = 16;
const AGENTS: usize = 64;
const MAILS: usize = 512;

#[derive(Clone, Copy, PartialEq)]
enum Phase {
    Free,
    Spawning(u32),
    Born(u32),
    Enrolled(u32),
    Asking(u32),
    Granted(u32),
    Landed,
    Booked,
}

#[derive(Clone, Copy, PartialEq)]
enum Status {
    Queued,
    Out(u32),
    Handed,
    Closed,
    Lost,
}

#[derive(Clone, Copy, PartialEq)]
enum Lock {
    Free,
    Move(u32),
    Mail(u32),
}

#[derive(Clone, Copy, PartialEq)]
struct Agent {
    site: u32,
    phase: Phase,
    map: Option<u32>,
}

const EMPTY: Agent = Agent {
    site: 0,
    phase: Phase::Free,
    map: None,
};

struct Table {
    sites: u32,
    agents: usize,
    mails: usize,
    handed: usize,
    lock: Lock,
    agent: [Agent; AGENTS],
    sender: [u32; MAILS],
    number: [u32; MAILS],
    addressee: [u32; MAILS],
    value: [u32; MAILS],
    status: [Status; MAILS],
    log: [u32; MAILS],
}

type Told = (u32, u32);
const DONE: Told = (0, 0);

impl Table {
    fn open(sites: u32) -> Option<Table> {
        if sites == 0 || sites > SITES {
            return None;
        }
        let mut agent = [EMPTY; AGENTS];
        agent[0].map = Some(0);
        Some(Table {
            sites,
            agents: 1,
            mails: 0,
            handed: 0,
            lock: Lock::Free,
            agent,
            sender: [0; MAILS],
            number: [0; MAILS],
            addressee: [0; MAILS],
            value: [0; MAILS],
            status: [Status::Queued; MAILS],
            log: [0; MAILS],
        })
    }

    fn agent_fine(&self, i: usize) -> bool {
        let x = &self.agent[i];
        let me = i as u32;
        let mate = |n: u32| (n as usize) < self.agents && self.agent[n as usize].site == x.site;
        let phase_fine = match x.phase {
            Phase::Spawning(c) => {
                mate(c) && matches!(self.agent[c as usize].phase, Phase::Born(p) | Phase::Enrolled(p) if p == me)
            }
            Phase::Born(p) | Phase::Enrolled(p) => mate(p) && self.agent[p as usize].phase == Phase::Spawning(me),
            Phase::Asking(u) | Phase::Granted(u) => u < self.sites,
            Phase::Free | Phase::Landed | Phase::Booked => true,
        };
        let map_fine = match (x.phase, x.map) {
            (Phase::Born(_), m) => m.is_none(),
            (_, None) => false,
            (Phase::Landed, Some(s)) => s < self.sites,
            (_, Some(s)) => s == x.site,
        };
        let moving = matches!(x.phase, Phase::Granted(_) | Phase::Landed);
        x.site < self.sites && phase_fine && map_fine && (self.lock == Lock::Move(me)) == moving
    }

    fn sound(&self) -> bool {
        if self.sites == 0 || self.sites > SITES || self.agents == 0 || self.agents > AGENTS {
            return false;
        }
        if self.mails > MAILS || self.handed > MAILS {
            return false;
        }
        let lock_there = match self.lock {
            Lock::Free => true,
            Lock::Move(a) => (a as usize) < self.agents,
            Lock::Mail(m) => (m as usize) < self.mails,
        };
        let mut fine = lock_there;
        for i in 0..self.agents {
            fine &= self.agent_fine(i);
        }
        if !fine {
            return false;
        }
        let mut counts = [0u32; AGENTS];
        for m in 0..self.mails {
            let (a, b) = (self.sender[m] as usize, self.addressee[m] as usize);
            if a >= self.agents || b >= self.agents {
                return false;
            }
            counts[a] += 1;
            let under_way = matches!(self.status[m], Status::Out(_) | Status::Handed);
            fine &= !matches!(self.agent[a].phase, Phase::Born(_) | Phase::Enrolled(_));
            fine &= self.number[m] == counts[a];
            fine &= self.status[m] != Status::Lost;
            fine &= (self.lock == Lock::Mail(m as u32)) == under_way;
            if let Status::Out(s) = self.status[m] {
                fine &= s == self.agent[b].site;
            }
        }
        let mut seen = [false; MAILS];
        for i in 0..self.handed {
            let m = self.log[i] as usize;
            if m >= self.mails || seen[m] {
                return false;
            }
            seen[m] = true;
        }
        for m in 0..self.mails {
            fine &= seen[m] == matches!(self.status[m], Status::Handed | Status::Closed);
        }
        fine & self.room_empty()
    }

    fn room_empty(&self) -> bool {
        let n = self.mails;
        self.agent[self.agents..].iter().all(|x| *x == EMPTY)
            & self.sender[n..].iter().fold(true, |f, x| f & (*x == 0))
            & self.number[n..].iter().fold(true, |f, x| f & (*x == 0))
            & self.addressee[n..].iter().fold(true, |f, x| f & (*x == 0))
            & self.value[n..].iter().fold(true, |f, x| f & (*x == 0))
            & self.status[n..].iter().fold(true, |f, x| f & (*x == Status::Queued))
            & self.log[self.handed..].iter().fold(true, |f, x| f & (*x == 0))
    }

    fn send(&mut self, a: u32, n: u32, b: u32, v: u32) -> Told {
        if a as usize >= self.agents || b as usize >= self.agents {
            return (11, 0);
        }
        if matches!(self.agent[a as usize].phase, Phase::Born(_) | Phase::Enrolled(_)) {
            return (14, 0);
        }
        let k = self.sender[..self.mails].iter().filter(|x| **x == a).count() as u32;
        if n == 0 || n > k + 1 {
            return (21, 0);
        }
        if n <= k {
            let m = (0..self.mails).find(|m| self.sender[*m] == a && self.number[*m] == n).unwrap();
            let same = self.addressee[m] == b && self.value[m] == v;
            return if same { (1, m as u32) } else { (20, 0) };
        }
        if self.mails == MAILS {
            return (19, 0);
        }
        let m = self.mails;
        self.sender[m] = a;
        self.number[m] = n;
        self.addressee[m] = b;
        self.value[m] = v;
        self.status[m] = Status::Queued;
        self.mails += 1;
        (0, m as u32)
    }

    /// One step by its word, on a table that was not yet tested.
    fn step(&mut self, word: &str, v: &[u32]) -> Told {
        if !self.sound() {
            return (27, 0);
        }
        match word {
            "send" => self.send(v[0], v[1], v[2], v[3]),
            "forward" | "hand" | "close" => self.mail_step(word, v[0]),
            _ => self.agent_step(word, v),
        }
    }

    fn agent_step(&mut self, word: &str, v: &[u32]) -> Told {
        let a = v[0] as usize;
        if a >= self.agents {
            return (11, 0);
        }
        let phase = self.agent[a].phase;
        match (word, phase) {
            ("spawn", Phase::Free) if self.agents == AGENTS => return (18, 0),
            ("spawn", Phase::Free) => {
                let child = self.agents;
                self.agent[child] = Agent {
                    site: self.agent[a].site,
                    phase: Phase::Born(a as u32),
                    map: None,
                };
                self.agent[a].phase = Phase::Spawning(child as u32);
                self.agents += 1;
                return (0, child as u32);
            }
            ("ask", _) if v[1] >= self.sites => return (10, 0),
            ("ask", Phase::Free) => self.agent[a].phase = Phase::Asking(v[1]),
            ("spawn", _) | ("ask", _) => return (13, 0),
            ("enrol", Phase::Born(_)) | ("grant", Phase::Asking(_)) if self.lock != Lock::Free => return (16, 0),
            ("enrol", Phase::Born(p)) => {
                self.agent[a].phase = Phase::Enrolled(p);
                self.agent[a].map = Some(self.agent[a].site);
            }
            ("greet", Phase::Enrolled(p)) => {
                self.agent[a].phase = Phase::Free;
                self.agent[p as usize].phase = Phase::Free;
            }
            ("grant", Phase::Asking(u)) => {
                self.agent[a].phase = Phase::Granted(u);
                self.lock = Lock::Move(a as u32);
            }
            ("leap", Phase::Granted(u)) => {
                self.agent[a].site = u;
                self.agent[a].phase = Phase::Landed;
            }
            ("book", Phase::Landed) => {
                self.agent[a].map = Some(self.agent[a].site);
                self.agent[a].phase = Phase::Booked;
                self.lock = Lock::Free;
            }
            ("settle", Phase::Booked) => self.agent[a].phase = Phase::Free,
            _ => return (15, 0),
        }
        DONE
    }

    fn mail_step(&mut self, word: &str, mail: u32) -> Told {
        let m = mail as usize;
        if m >= self.mails {
            return (12, 0);
        }
        let to = self.agent[self.addressee[m] as usize];
        match (word, self.status[m]) {
            ("forward", Status::Queued) if self.lock != Lock::Free => return (16, 0),
            ("forward", Status::Queued) => match to.map {
                None => return (17, 0),
                Some(s) => {
                    self.status[m] = Status::Out(s);
                    self.lock = Lock::Mail(mail);
                }
            },
            ("hand", Status::Out(s)) if s != to.site => self.status[m] = Status::Lost,
            ("hand", Status::Out(_)) => {
                self.status[m] = Status::Handed;
                self.log[self.handed] = mail;
                self.handed += 1;
            }
            ("close", Status::Handed) => {
                self.status[m] = Status::Closed;
                self.lock = Lock::Free;
            }
            _ => return (15, 0),
        }
        DONE
    }

    fn write(&self, out: &mut String) {
        use std::fmt::Write;
        let dash = |x: Option<u32>| x.map_or("-".to_string(), |n| n.to_string());
        let lock = match self.lock {
            Lock::Free => "free".to_string(),
            Lock::Move(a) => format!("move:{a}"),
            Lock::Mail(m) => format!("mail:{m}"),
        };
        let (s, a, m, h) = (self.sites, self.agents, self.mails, self.handed);
        write!(out, "sites={s}\nagents={a}\nmessages={m}\nhanded={h}\nlock={lock}\n").unwrap();
        for i in 0..self.agents {
            let x = &self.agent[i];
            let (word, number) = match x.phase {
                Phase::Free => ("free", None),
                Phase::Spawning(n) => ("spawning", Some(n)),
                Phase::Born(n) => ("born", Some(n)),
                Phase::Enrolled(n) => ("enrolled", Some(n)),
                Phase::Asking(n) => ("asking", Some(n)),
                Phase::Granted(n) => ("granted", Some(n)),
                Phase::Landed => ("landed", None),
                Phase::Booked => ("booked", None),
            };
            writeln!(out, "agent.{i}={},{word},{},{}", x.site, dash(number), dash(x.map)).unwrap();
        }
        for i in 0..self.mails {
            let (word, site) = match self.status[i] {
                Status::Queued => ("queued", None),
                Status::Out(s) => ("out", Some(s)),
                Status::Handed => ("handed", None),
                Status::Closed => ("closed", None),
                Status::Lost => ("lost", None),
            };
            let (a, n, b, v) = (self.sender[i], self.number[i], self.addressee[i], self.value[i]);
            writeln!(out, "message.{i}={a},{n},{b},{v},{word},{}", dash(site)).unwrap();
        }
        for i in 0..self.handed {
            writeln!(out, "log.{i}={}", self.log[i]).unwrap();
        }
    }
}

/// A line's word and numbers, or nothing where it is not in the grammar.
fn parse(line: &[u8]) -> Option<(&str, Vec<u32>)> {
    let text = std::str::from_utf8(line).ok()?;
    let (word, rest) = text.split_once('=')?;
    let count = match word {
        "sites" | "spawn" | "enrol" | "greet" | "grant" | "leap" | "book" | "settle" | "forward" | "hand" | "close" => 1,
        "ask" => 2,
        "send" => 4,
        _ => return None,
    };
    let mut numbers = Vec::with_capacity(count);
    for field in rest.split(',') {
        if field.is_empty() || field.len() > 10 || !field.bytes().all(|b| b.is_ascii_digit()) {
            return None;
        }
        numbers.push(u32::try_from(field.parse::<u64>().ok()?).ok()?);
    }
    (numbers.len() == count).then_some((word, numbers))
}

fn run_script(input: &[u8]) -> String {
    use std::fmt::Write;
    if input.len() > 65536 {
        return "state=toolong\n".to_string();
    }
    let mut out = String::new();
    let mut table: Option<Table> = None;
    let body = input.strip_suffix(b"\n").unwrap_or(input);
    let lines: Vec<&[u8]> = if input.is_empty() { vec![] } else { body.split(|b| *b == 10).collect() };
    for (i, line) in lines.iter().enumerate() {
        let (code, number) = match (parse(line), &mut table) {
            (None, _) => (24, 0),
            (Some(("sites", _)), Some(_)) => (26, 0),
            (Some(("sites", v)), None) => {
                table = Table::open(v[0]);
                if table.is_some() { DONE } else { (22, 0) }
            }
            (Some(_), None) => (25, 0),
            (Some((word, v)), Some(t)) => t.step(word, &v),
        };
        writeln!(out, "line.{}={code},{number}", i + 1).unwrap();
    }
    match &table {
        None => out.push_str("state=none\n"),
        Some(t) => t.write(&mut out),
    }
    out
}

/// A table of three sites, with 64 agents and 512 closed messages where it is to be full.
fn bench_table(full: bool) -> Table {
    let mut t = Table::open(3).unwrap();
    if full {
        for child in 1..AGENTS as u32 {
            for (word, a) in [("spawn", 0), ("enrol", child), ("greet", child)] {
                t.step(word, &[a]);
            }
        }
        for m in 0..MAILS as u32 {
            t.step("send", &[m % 64, m / 64 + 1, (m + 1) % 64, m]);
            for word in ["forward", "hand", "close"] {
                t.step(word, &[m]);
            }
        }
    }
    t
}

fn main() {
    let args: Vec<String> = std::env::args().collect();
    if args.get(1).map(String::as_str) == Some("steps") {
        let mut t = bench_table(args[2] == "full");
        let count: u32 = args[3].parse().unwrap();
        let mut sum = 0;
        for i in 0..count / 5 {
            for (word, v) in [("ask", [0, i % 3]), ("grant", [0, 0]), ("leap", [0, 0]), ("book", [0, 0]), ("settle", [0, 0])] {
                sum += t.step(word, &v).0;
            }
        }
        println!("{sum}");
        return;
    }
    let mut input = Vec::new();
    std::io::stdin().take(65537).read_to_end(&mut input).unwrap();
    std::io::stdout().write_all(run_script(&input).as_bytes()).unwrap();
}
