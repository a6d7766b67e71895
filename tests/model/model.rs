// A model of the box, written from the document alone. It is naive on purpose: the winner is found by a scan over the live rules, a walk
// by stepping, a lowest address by trying every place where an answer can change, and nothing is kept but the hall, the rules and the
// boundaries.

use std::collections::BTreeMap;
use std::fmt::Write;

pub const LIMIT: usize = 65_536;
const TOP: u64 = 1 << 32;

#[derive(Clone, Copy)]
enum End {
    Node(usize),
    Port,
    Drop,
}

struct Link {
    source: usize,
    end: End,
}

struct Rule {
    number: u64,
    node: usize,
    link: usize,
    lower: u64,
    upper: u64,
    priority: u64,
}

impl Rule {
    fn covers(&self, address: u64) -> bool {
        self.lower <= address && address < self.upper
    }
}

enum Fate {
    Out(usize, usize),
    Lost(usize, usize),
    Round,
}

// An entry of a change list.
struct Change {
    atom: usize,
    lower: u64,
    upper: u64,
    old: Option<usize>,
    new: Option<usize>,
}

enum Answer {
    End,
    Refused(u8),
    Ok,
    Changed(Vec<Change>),
    Loop(u64, usize),
    NoLoop,
    Went(Fate),
    Yes(u64),
    No,
    Tally(u64, u64, u64),
}

struct Hall {
    nodes: Option<usize>,
    closed: bool,
    links: Vec<Link>,
    // the live rules, in no order
    rules: Vec<Rule>,
    // from each boundary below the top to the number of the atom that starts there
    atoms: BTreeMap<u64, usize>,
}

// What `hallcheck` prints for this input.
pub fn output(input: &[u8]) -> String {
    let mut out = String::new();
    if input.len() > LIMIT {
        out.push_str("long\n");
        return out;
    }
    let mut hall = Hall::fresh();
    let mut rest = input;
    let mut place = 0;
    loop {
        let (answer, passed) = hall.take(rest);
        match &answer {
            Answer::End => return out,
            _ => line(&mut out, place, &answer),
        }
        if passed == 0 {
            return out;
        }
        rest = &rest[passed..];
        place += 1;
    }
}

fn line(out: &mut String, place: usize, answer: &Answer) {
    write!(out, "{place} ").unwrap();
    match answer {
        Answer::End => unreachable!(),
        Answer::Refused(number) => writeln!(out, "refused {number}").unwrap(),
        Answer::Ok => writeln!(out, "ok").unwrap(),
        Answer::Changed(list) => {
            writeln!(out, "ok {}", list.len()).unwrap();
            for change in list {
                write!(out, "= {} {} {}", change.atom, change.lower, change.upper).unwrap();
                for link in [change.old, change.new] {
                    match link {
                        Some(link) => write!(out, " {link}").unwrap(),
                        None => out.push_str(" -"),
                    }
                }
                out.push('\n');
            }
        }
        Answer::Loop(address, node) => writeln!(out, "loop {address} {node}").unwrap(),
        Answer::NoLoop => writeln!(out, "none").unwrap(),
        Answer::Went(Fate::Out(link, hops)) => writeln!(out, "out {link} {hops}").unwrap(),
        Answer::Went(Fate::Lost(node, hops)) => writeln!(out, "lost {node} {hops}").unwrap(),
        Answer::Went(Fate::Round) => writeln!(out, "round").unwrap(),
        Answer::Yes(address) => writeln!(out, "yes {address}").unwrap(),
        Answer::No => writeln!(out, "no").unwrap(),
        Answer::Tally(out_, lost, round) => writeln!(out, "tally {out_} {lost} {round}").unwrap(),
    }
}

// The length of the body of each kind, from 1 on.
pub const BODY: [usize; 9] = [1, 3, 0, 10, 2, 0, 5, 2, 1];

fn number(bytes: &[u8]) -> u64 {
    bytes.iter().fold(0, |sum, &byte| sum * 256 + u64::from(byte))
}

impl Hall {
    fn fresh() -> Hall {
        Hall {
            nodes: None,
            closed: false,
            links: Vec::new(),
            rules: Vec::new(),
            atoms: BTreeMap::from([(0, 0)]),
        }
    }

    // The record at the front: its answer, and how many bytes are behind it after that.
    fn take(&mut self, rest: &[u8]) -> (Answer, usize) {
        let Some(&kind) = rest.first() else {
            return (Answer::End, 0);
        };
        if kind == 0 || kind > 9 {
            return (Answer::Refused(1), 0);
        }
        let size = BODY[usize::from(kind) - 1];
        if rest.len() - 1 < size {
            return (Answer::Refused(2), 0);
        }
        let answer = match self.record(kind, &rest[1..1 + size]) {
            Ok(answer) => answer,
            Err(reason) => Answer::Refused(reason),
        };
        (answer, 1 + size)
    }

    fn record(&mut self, kind: u8, body: &[u8]) -> Result<Answer, u8> {
        let in_order = match kind {
            1 => self.nodes.is_none(),
            2 | 3 => self.nodes.is_some() && !self.closed,
            _ => self.closed,
        };
        if !in_order {
            return Err(3);
        }
        match kind {
            1 => self.hall(body[0]),
            2 => self.link(body[0], body[1], body[2]),
            3 => {
                self.closed = true;
                Ok(Answer::Ok)
            }
            4 => self.insert(
                number(&body[0..2]),
                usize::from(body[2]),
                number(&body[3..7]),
                u32::from(body[7]),
                number(&body[8..10]),
            ),
            5 => self.remove(number(body)),
            6 => Ok(self.question_loop()),
            7 => {
                let node = self.node(body[0])?;
                Ok(Answer::Went(self.fate(node, number(&body[1..5]))))
            }
            8 => {
                let from = self.node(body[0])?;
                let to = self.node(body[1])?;
                Ok(self.question_reach(from, to))
            }
            _ => {
                let node = self.node(body[0])?;
                Ok(self.question_tally(node))
            }
        }
    }

    fn hall(&mut self, count: u8) -> Result<Answer, u8> {
        if count == 0 || count > 16 {
            return Err(4);
        }
        self.nodes = Some(usize::from(count));
        Ok(Answer::Ok)
    }

    fn node(&self, node: u8) -> Result<usize, u8> {
        let node = usize::from(node);
        if node < self.nodes.unwrap() {
            Ok(node)
        } else {
            Err(4)
        }
    }

    fn link(&mut self, source: u8, code: u8, end: u8) -> Result<Answer, u8> {
        if self.links.len() == 64 {
            return Err(6);
        }
        let source = self.node(source)?;
        if code > 2 || (code == 2 && end != 0) {
            return Err(7);
        }
        let end = match code {
            0 => End::Node(self.node(end)?),
            1 => End::Port,
            _ => End::Drop,
        };
        self.links.push(Link { source, end });
        Ok(Answer::Ok)
    }

    fn insert(&mut self, rule: u64, link: usize, prefix: u64, length: u32, priority: u64) -> Result<Answer, u8> {
        if rule > 255 {
            return Err(8);
        }
        if self.rules.iter().any(|live| live.number == rule) {
            return Err(9);
        }
        if link >= self.links.len() {
            return Err(5);
        }
        if length > 32 {
            return Err(11);
        }
        let size = 1u64 << (32 - length);
        if prefix % size != 0 {
            return Err(11);
        }
        let (lower, upper) = (prefix, prefix + size);
        let node = self.links[link].source;
        let tie = |live: &Rule| live.node == node && live.priority == priority && live.lower < upper && lower < live.upper;
        if self.rules.iter().any(tie) {
            return Err(12);
        }
        let fresh = [lower, upper]
            .into_iter()
            .filter(|end| *end != TOP && !self.atoms.contains_key(end))
            .count();
        // the boundary 0 is no inner one
        if self.atoms.len() - 1 + fresh > 511 {
            return Err(13);
        }
        for end in [lower, upper] {
            if end != TOP && !self.atoms.contains_key(&end) {
                self.atoms.insert(end, self.atoms.len());
            }
        }
        let before = self.winners(node);
        self.rules.push(Rule {
            number: rule,
            node,
            link,
            lower,
            upper,
            priority,
        });
        Ok(Answer::Changed(self.changes(before, node)))
    }

    fn remove(&mut self, rule: u64) -> Result<Answer, u8> {
        if rule > 255 {
            return Err(8);
        }
        let Some(at) = self.rules.iter().position(|live| live.number == rule) else {
            return Err(10);
        };
        let node = self.rules[at].node;
        let before = self.winners(node);
        self.rules.remove(at);
        Ok(Answer::Changed(self.changes(before, node)))
    }

    // The winner at a node of each atom, by rising address: its number and its link.
    fn winners(&self, node: usize) -> Vec<Option<(u64, usize)>> {
        let winner = |&address: &u64| self.winner(node, address).map(|rule| (rule.number, rule.link));
        self.atoms.keys().map(winner).collect()
    }

    // The entries of the atoms whose winner at the node is another rule than before.
    fn changes(&self, before: Vec<Option<(u64, usize)>>, node: usize) -> Vec<Change> {
        let uppers = self.atoms.keys().copied().skip(1).chain([TOP]);
        let after = self.winners(node);
        let mut list = Vec::new();
        for ((((&lower, &atom), upper), old), new) in self.atoms.iter().zip(uppers).zip(before).zip(after) {
            if old.map(|(rule, _)| rule) != new.map(|(rule, _)| rule) {
                list.push(Change {
                    atom,
                    lower,
                    upper,
                    old: old.map(|(_, link)| link),
                    new: new.map(|(_, link)| link),
                });
            }
        }
        list
    }

    // The live rule at the node that covers the address with the highest priority.
    fn winner(&self, node: usize, address: u64) -> Option<&Rule> {
        self.rules
            .iter()
            .filter(|rule| rule.node == node && rule.covers(address))
            .max_by_key(|rule| rule.priority)
    }

    // The link that a packet for the address takes at each node: that of the winner there.
    fn next(&self, address: u64) -> Vec<Option<usize>> {
        let mut best: Vec<Option<&Rule>> = vec![None; self.nodes.unwrap()];
        for rule in self.rules.iter().filter(|rule| rule.covers(address)) {
            if best[rule.node].map_or(true, |held| held.priority < rule.priority) {
                best[rule.node] = Some(rule);
            }
        }
        best.into_iter().map(|rule| rule.map(|rule| rule.link)).collect()
    }

    fn fate(&self, node: usize, address: u64) -> Fate {
        self.walk(&self.next(address), node).1
    }

    // The nodes at which a packet stands, from `start` on, and its fate. After as many moves as there are nodes it goes round.
    fn walk(&self, next: &[Option<usize>], start: usize) -> (Vec<usize>, Fate) {
        let mut stood = vec![start];
        let mut node = start;
        for hops in 0..next.len() {
            let Some(link) = next[node] else {
                return (stood, Fate::Lost(node, hops));
            };
            match self.links[link].end {
                End::Port => return (stood, Fate::Out(link, hops)),
                End::Drop => return (stood, Fate::Lost(node, hops)),
                End::Node(to) => {
                    node = to;
                    stood.push(node);
                }
            }
        }
        (stood, Fate::Round)
    }

    // The addresses at which an answer can change: 0 and the ends of the live rules.
    fn candidates(&self) -> Vec<u64> {
        let mut ends: Vec<u64> = vec![0];
        for rule in &self.rules {
            ends.extend([rule.lower, rule.upper]);
        }
        ends.retain(|&end| end < TOP);
        ends.sort_unstable();
        ends.dedup();
        ends
    }

    fn question_loop(&self) -> Answer {
        for address in self.candidates() {
            let next = self.next(address);
            let mut never_ends = false;
            let mut on_circle = None;
            for start in 0..next.len() {
                let (stood, fate) = self.walk(&next, start);
                if let Fate::Round = fate {
                    never_ends = true;
                    if on_circle.is_none() && stood[1..].contains(&start) {
                        on_circle = Some(start);
                    }
                }
            }
            if never_ends {
                return Answer::Loop(address, on_circle.unwrap());
            }
        }
        Answer::NoLoop
    }

    fn question_reach(&self, from: usize, to: usize) -> Answer {
        for address in self.candidates() {
            if self.walk(&self.next(address), from).0.contains(&to) {
                return Answer::Yes(address);
            }
        }
        Answer::No
    }

    fn question_tally(&self, node: usize) -> Answer {
        let lowers = self.candidates();
        let (mut out, mut lost, mut round) = (0, 0, 0);
        for (i, &lower) in lowers.iter().enumerate() {
            let size = lowers.get(i + 1).unwrap_or(&TOP) - lower;
            match self.fate(node, lower) {
                Fate::Out(..) => out += size,
                Fate::Lost(..) => lost += size,
                Fate::Round => round += size,
            }
        }
        Answer::Tally(out, lost, round)
    }
}
