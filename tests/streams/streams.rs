// Streams for the tests: the same seed gives the same stream.

use std::collections::{BTreeMap, BTreeSet};

const LIMIT: usize = 65_536;
const TOP: u64 = 1 << 32;

// splitmix64
pub struct Random(u64);

impl Random {
    pub fn new(seed: u64) -> Random {
        Random(seed.wrapping_mul(0x9e37_79b9_7f4a_7c15) ^ 0x5851_f42d_4c95_7f2d)
    }

    fn next(&mut self) -> u64 {
        self.0 = self.0.wrapping_add(0x9e37_79b9_7f4a_7c15);
        let mut z = self.0;
        z = (z ^ (z >> 30)).wrapping_mul(0xbf58_476d_1ce4_e5b9);
        z = (z ^ (z >> 27)).wrapping_mul(0x94d0_49bb_1331_11eb);
        z ^ (z >> 31)
    }

    pub fn below(&mut self, n: u64) -> u64 {
        self.next() % n
    }

    fn between(&mut self, low: u64, high: u64) -> u64 {
        low + self.below(high - low + 1)
    }

    // true in so many of a hundred times
    fn percent(&mut self, n: u64) -> bool {
        self.below(100) < n
    }

    fn pick(&mut self, from: &[u64]) -> u64 {
        from[self.below(from.len() as u64) as usize]
    }

    fn byte(&mut self) -> u8 {
        self.next() as u8
    }
}

struct Live {
    node: u64,
    lower: u64,
    upper: u64,
    priority: u64,
}

// A stream that grows, with what its records so far have made of the hall, as far as the next records lean on it.
struct Maker {
    random: Random,
    out: Vec<u8>,
    nodes: u64,
    sources: Vec<u64>,
    live: BTreeMap<u64, Live>,
    ends: BTreeSet<u64>,
    // how many of a hundred fields are drawn from the edges of what is allowed, and past them
    edges: u64,
    // the prefixes that are used again and again: value and length
    pool: Vec<(u64, u64)>,
    // priorities are drawn below this
    priorities: u64,
}

impl Maker {
    fn new(random: Random, edges: u64) -> Maker {
        Maker {
            random,
            out: Vec::new(),
            nodes: 0,
            sources: Vec::new(),
            live: BTreeMap::new(),
            ends: BTreeSet::from([0, TOP]),
            edges,
            pool: Vec::new(),
            priorities: 65_536,
        }
    }

    fn edge(&mut self) -> bool {
        let edges = self.edges;
        self.random.percent(edges)
    }

    fn hall(&mut self, nodes: u64) {
        self.out.extend([1, nodes as u8]);
        if self.nodes == 0 && (1..=16).contains(&nodes) {
            self.nodes = nodes;
        }
    }

    fn link(&mut self, source: u64, code: u64, end: u64) {
        self.out.extend([2, source as u8, code as u8, end as u8]);
        let fits = source < self.nodes && code <= 2 && (code != 2 || end == 0) && (code != 0 || end < self.nodes);
        if fits && self.sources.len() < 64 {
            self.sources.push(source);
        }
    }

    fn close(&mut self) {
        self.out.push(3);
    }

    fn node(&mut self) -> u64 {
        let nodes = self.nodes;
        if self.edge() {
            self.random.pick(&[0, nodes.max(1) - 1, nodes, nodes + 1, 15, 16, 255])
        } else {
            self.random.below(nodes.max(1))
        }
    }

    // A link to a node (mostly), a port or the drop.
    fn any_link(&mut self, to_node: u64) {
        let source = self.node();
        if self.random.percent(to_node) {
            let end = self.node();
            self.link(source, 0, end);
        } else if self.edge() {
            let (code, end) = (self.random.below(5), self.random.pick(&[0, 0, 1, 255]));
            self.link(source, code, end);
        } else if self.random.percent(70) {
            let end = self.random.below(256);
            self.link(source, 1, end);
        } else {
            self.link(source, 2, 0);
        }
    }

    // A ring of links over all nodes, some of them twice, and a port here and there.
    fn ring(&mut self) {
        for node in 0..self.nodes {
            let to = (node + 1) % self.nodes;
            self.link(node, 0, to);
            if self.random.percent(40) {
                let to = self.random.below(self.nodes);
                self.link(node, 0, to);
            }
            if self.random.percent(40) {
                self.link(node, 1, node);
            }
        }
    }

    // Prefixes that lie inside each other, beside each other and apart.
    fn fill_pool(&mut self, count: usize) {
        let mut base = self.random.below(TOP);
        while self.pool.len() < count {
            let length = match self.random.below(8) {
                0 => 0,
                1 => self.random.between(1, 4),
                2..=4 => self.random.between(5, 16),
                5 | 6 => self.random.between(17, 31),
                _ => 32,
            };
            let size = TOP >> length;
            self.pool.push((base / size * size, length));
            if self.random.percent(50) {
                base = base ^ size % TOP;
            } else if self.random.percent(30) {
                base = self.random.below(TOP);
            }
        }
    }

    fn prefix(&mut self) -> (u64, u64) {
        if self.pool.is_empty() || self.random.percent(10) {
            let length = self.random.below(33);
            let size = TOP >> length;
            return (self.random.below(TOP) / size * size, length);
        }
        let at = self.random.below(self.pool.len() as u64) as usize;
        self.pool[at]
    }

    fn write_insert(&mut self, rule: u64, link: u64, prefix: u64, length: u64, priority: u64) {
        self.out.push(4);
        self.out.extend((rule as u16).to_be_bytes());
        self.out.push(link as u8);
        self.out.extend((prefix as u32).to_be_bytes());
        self.out.push(length as u8);
        self.out.extend((priority as u16).to_be_bytes());
    }

    // How many of the two ends are no boundary yet.
    fn adds(&self, lower: u64, upper: u64) -> usize {
        [lower, upper].into_iter().filter(|end| !self.ends.contains(end)).count()
    }

    fn ties(&self, node: u64, lower: u64, upper: u64, priority: u64) -> bool {
        self.live
            .values()
            .any(|rule| rule.node == node && rule.priority == priority && rule.lower < upper && lower < rule.upper)
    }

    // Writes an insert, whatever comes of it, and keeps it in mind if it is one to be accepted.
    fn insert_as(&mut self, rule: u64, link: u64, prefix: u64, length: u64, priority: u64) -> bool {
        self.write_insert(rule, link, prefix, length, priority);
        if rule > 255 || self.live.contains_key(&rule) || link as usize >= self.sources.len() || length > 32 {
            return false;
        }
        let size = TOP >> length;
        let node = self.sources[link as usize];
        let (lower, upper) = (prefix, prefix + size);
        if prefix % size != 0 || self.ties(node, lower, upper, priority) || self.ends.len() - 2 + self.adds(lower, upper) > 511 {
            return false;
        }
        self.live.insert(
            rule,
            Live {
                node,
                lower,
                upper,
                priority,
            },
        );
        self.ends.extend([lower, upper]);
        true
    }

    fn free_rule(&mut self) -> u64 {
        let start = self.random.below(256);
        (0..256)
            .map(|i| (start + i) % 256)
            .find(|rule| !self.live.contains_key(rule))
            .unwrap_or(start)
    }

    fn insert(&mut self) {
        let (mut prefix, mut length) = self.prefix();
        let mut rule = self.free_rule();
        let mut link = self.random.below(self.sources.len().max(1) as u64);
        let mut priority = self.random.below(self.priorities);
        if self.edge() {
            rule = self.random.pick(&[0, 1, 254, 255, 256, 257, 65_535]);
        }
        if self.edge() {
            let links = self.sources.len() as u64;
            link = self.random.pick(&[0, links.max(1) - 1, links, links + 1, 63, 64, 255]);
        }
        if self.edge() {
            length = self.random.pick(&[0, 1, 31, 32, 33, 34, 64, 255]);
        }
        if self.edge() {
            prefix = self.random.pick(&[0, 1, 1 << 31, TOP - 1, TOP - 2, prefix ^ 1, prefix ^ (1 << 24)]);
        }
        if self.edge() {
            priority = self.random.pick(&[0, 1, 65_534, 65_535]);
        }
        self.insert_as(rule, link, prefix, length, priority);
    }

    // An insert with the priority and a part of the range of a live rule, most often at its node.
    fn tie(&mut self) {
        let Some(&rule) = self.live.keys().nth(self.random.below(self.live.len().max(1) as u64) as usize) else {
            return self.insert();
        };
        let (node, lower, priority) = (self.live[&rule].node, self.live[&rule].lower, self.live[&rule].priority);
        let there: Vec<u64> = (0..self.sources.len() as u64)
            .filter(|&link| self.sources[link as usize] == node)
            .collect();
        let link = if self.random.percent(80) {
            self.random.pick(&there)
        } else {
            self.random.below(self.sources.len() as u64)
        };
        let length = self.random.below(33);
        let size = TOP >> length;
        // the same place, or the one just below or above
        let near = self
            .random
            .pick(&[lower, lower, self.live[&rule].upper % TOP, (lower + TOP - 1) % TOP]);
        let number = self.free_rule();
        self.insert_as(number, link, near / size * size, length, priority);
    }

    fn remove(&mut self) {
        let rule = if self.live.is_empty() || self.edge() {
            self.random.pick(&[0, 1, 7, 254, 255, 256, 511, 65_535])
        } else {
            let at = self.random.below(self.live.len() as u64) as usize;
            *self.live.keys().nth(at).unwrap()
        };
        self.out.push(5);
        self.out.extend((rule as u16).to_be_bytes());
        self.live.remove(&rule);
    }

    fn address(&mut self) -> u64 {
        if self.random.percent(20) {
            return self.random.below(TOP);
        }
        let at = self.random.below(self.ends.len() as u64) as usize;
        let end = *self.ends.iter().nth(at).unwrap();
        (end + TOP - self.random.below(2)) % TOP
    }

    fn question(&mut self) {
        match self.random.below(4) {
            0 => self.out.push(6),
            1 => {
                let (node, address) = (self.node(), self.address());
                self.out.extend([7, node as u8]);
                self.out.extend((address as u32).to_be_bytes());
            }
            2 => {
                let (from, to) = (self.node(), self.node());
                self.out.extend([8, from as u8, to as u8]);
            }
            _ => {
                let node = self.node();
                self.out.extend([9, node as u8]);
            }
        }
    }

    // One record of a closed hall.
    fn step(&mut self, inserts: u64, removes: u64, ties: u64) {
        let at = self.random.below(100);
        if at < inserts {
            self.insert();
        } else if at < inserts + removes {
            self.remove();
        } else if at < inserts + removes + ties {
            self.tie();
        } else {
            self.question();
        }
    }

    fn steps(&mut self, count: u64, inserts: u64, removes: u64, ties: u64) {
        for _ in 0..count {
            self.step(inserts, removes, ties);
        }
    }

    // A closed hall of any size.
    fn any_hall(&mut self, most_nodes: u64, most_links: u64) {
        let nodes = self.random.between(1, most_nodes);
        self.hall(nodes);
        let to_node = self.random.pick(&[30, 60, 90]);
        if self.random.percent(30) {
            self.ring();
        }
        for _ in 0..self.random.between(0, most_links) {
            self.any_link(to_node);
        }
        self.close();
        let count = self.random.pick(&[2, 6, 20, 60]) as usize;
        self.fill_pool(count);
        self.priorities = self.random.pick(&[2, 8, 100, 65_536]);
    }
}

fn mixed(random: Random, edges: u64) -> Vec<u8> {
    let mut maker = Maker::new(random, edges);
    maker.any_hall(6, 14);
    let count = maker.random.pick(&[5, 20, 60, 150]);
    maker.steps(count, 45, 20, 5);
    maker.out
}

// Kinds in any order, each with a body.
fn order(random: Random) -> Vec<u8> {
    let mut maker = Maker::new(random, 20);
    for _ in 0..maker.random.between(2, 60) {
        match maker.random.below(8) {
            0 => {
                let nodes = maker.random.pick(&[0, 1, 3, 16, 17, 255]);
                maker.hall(nodes);
            }
            1 | 2 => maker.any_link(50),
            3 => {
                if maker.random.percent(30) {
                    maker.close();
                }
            }
            _ => maker.step(40, 20, 5),
        }
    }
    maker.out
}

// A good stream with bytes changed, left out, put in, or with its end cut off.
fn damaged(random: Random) -> Vec<u8> {
    let mut maker = Maker::new(random, 3);
    maker.any_hall(16, 40);
    maker.steps(40, 50, 15, 5);
    let (mut out, mut random) = (maker.out, maker.random);
    for _ in 0..random.between(1, 4) {
        let at = random.below(out.len() as u64) as usize;
        match random.below(4) {
            0 => out[at] = random.byte(),
            1 => out[at] ^= 1 << random.below(8),
            2 => {
                out.remove(at);
            }
            _ => out.insert(at, random.below(12) as u8),
        }
        if out.is_empty() {
            break;
        }
    }
    out
}

fn cut_off(random: Random) -> Vec<u8> {
    let mut maker = Maker::new(random, 3);
    let nodes = maker.random.between(1, 5);
    maker.hall(nodes);
    if maker.random.percent(70) {
        maker.ring();
        maker.close();
        maker.steps(12, 50, 10, 0);
    } else {
        maker.any_link(50);
        maker.steps(2, 60, 20, 0);
    }
    let keep = maker.random.between(0, maker.out.len() as u64) as usize;
    maker.out.truncate(keep);
    maker.out
}

fn noise(mut random: Random) -> Vec<u8> {
    let count = random.pick(&[0, 1, 2, 5, 40, 300]);
    let small = random.percent(70);
    (0..count)
        .map(|_| if small { random.below(11) as u8 } else { random.byte() })
        .collect()
}

// Halls at 16 and 17 nodes and at 64 and 65 links.
fn limits(random: Random) -> Vec<u8> {
    let mut maker = Maker::new(random, 2);
    let nodes = maker.random.pick(&[15, 16, 17, 16]);
    maker.hall(nodes);
    if nodes == 17 {
        maker.hall(16);
    }
    let links = maker.random.pick(&[0, 1, 63, 64, 65, 66, 70]);
    let to_node = maker.random.pick(&[50, 80, 100]);
    for at in 0..links {
        if at == 64 {
            maker.edges = 40;
        }
        maker.any_link(to_node);
    }
    maker.edges = 2;
    maker.close();
    maker.fill_pool(40);
    maker.steps(80, 60, 10, 5);
    maker.out
}

// All 256 rule numbers live, then changes.
fn rules(random: Random) -> Vec<u8> {
    let mut maker = Maker::new(random, 1);
    let nodes = maker.random.between(1, 16);
    maker.hall(nodes);
    maker.ring();
    maker.close();
    maker.fill_pool(120);
    maker.pool.retain(|&(_, length)| length > 0);
    let mut tries = 0;
    while maker.live.len() < 256 && tries < 900 {
        maker.insert();
        tries += 1;
    }
    maker.steps(60, 40, 30, 10);
    maker.out
}

// Up to the last boundaries: inserts that add two, one or none.
fn boundaries(random: Random) -> Vec<u8> {
    let mut maker = Maker::new(random, 0);
    let nodes = maker.random.between(1, 4);
    maker.hall(nodes);
    maker.ring();
    maker.close();
    let goal = maker.random.pick(&[100, 300, 508, 509, 510, 511]) as usize;
    let links = maker.sources.len() as u64;
    // rules come and go, their boundaries stay
    while maker.ends.len() - 2 < goal {
        if maker.live.len() > 200 || maker.random.percent(10) {
            maker.remove();
        }
        let length = maker.random.pick(&[9, 10, 12, 24, 32]);
        let size = TOP >> length;
        let lower = maker.random.below(TOP) / size * size;
        let (rule, link) = (maker.free_rule(), maker.random.below(links));
        let priority = maker.random.below(65_536);
        if maker.ends.len() - 2 + maker.adds(lower, lower + size) <= goal {
            maker.insert_as(rule, link, lower, length, priority);
        } else if maker.random.percent(20) {
            // an end at the top or at 0 adds one at most
            let lower = if maker.random.percent(50) { 0 } else { TOP - size };
            maker.insert_as(rule, link, lower, length, priority);
        }
    }
    while maker.live.len() > 250 {
        maker.remove();
    }
    for _ in 0..30 {
        let at = maker.random.below(maker.ends.len() as u64 - 1) as usize;
        let lower = *maker.ends.iter().nth(at).unwrap();
        let least = if lower == 0 {
            0
        } else {
            32 - u64::from(lower.trailing_zeros().min(32))
        };
        let length = maker.random.between(least, 32);
        let (rule, link, priority) = (maker.free_rule(), maker.random.below(links), maker.random.below(65_536));
        maker.insert_as(rule, link, lower, length, priority);
        maker.steps(2, 20, 40, 20);
    }
    // the whole range at once: the longest list there is
    let (rule, link) = (maker.free_rule(), maker.random.below(links));
    maker.insert_as(rule, link, 0, 0, 65_535);
    maker.out.push(5);
    maker.out.extend((rule as u16).to_be_bytes());
    maker.live.remove(&rule);
    maker.out
}

// Halls full of circles, with nodes that only lead into one.
fn circles(random: Random) -> Vec<u8> {
    let mut maker = Maker::new(random, 0);
    let nodes = maker.random.between(1, 16);
    maker.hall(nodes);
    for _ in 0..maker.random.between(1, 64) {
        let source = maker.random.below(nodes);
        let end = maker.random.below(nodes);
        maker.link(source, 0, end);
    }
    maker.any_link(0);
    maker.close();
    maker.fill_pool(25);
    // the higher addresses first, so that the lowest atoms are not the lowest addresses
    maker.pool.sort_unstable_by(|a, b| b.cmp(a));
    for (prefix, length) in maker.pool.clone() {
        let (rule, link, priority) = (
            maker.free_rule(),
            maker.random.below(maker.sources.len() as u64),
            maker.random.below(65_536),
        );
        maker.insert_as(rule, link, prefix, length, priority);
        maker.question();
    }
    maker.steps(60, 30, 30, 5);
    maker.out
}

// One long way through all nodes, in an order of its own: out, lost or round after the most hops there can be.
fn long_way(random: Random) -> Vec<u8> {
    let mut maker = Maker::new(random, 0);
    let nodes = maker.random.pick(&[1, 2, 15, 16, 16]);
    maker.hall(nodes);
    let mut way: Vec<u64> = (0..nodes).collect();
    for at in (1..way.len()).rev() {
        let other = maker.random.below(at as u64 + 1) as usize;
        way.swap(at, other);
    }
    for pair in way.windows(2) {
        maker.link(pair[0], 0, pair[1]);
    }
    let (first, last) = (way[0], way[way.len() - 1]);
    maker.link(last, 1, 200);
    maker.link(last, 2, 0);
    let back = maker.random.below(nodes);
    maker.link(last, 0, back);
    maker.close();
    let links = maker.sources.len() as u64;
    for link in 0..nodes - 1 {
        let length = maker.random.pick(&[0, 0, 0, 1]);
        maker.insert_as(link, link, 0, length, 1);
    }
    for _ in 0..20 {
        let (rule, link) = (maker.free_rule(), links - 1 - maker.random.below(3));
        let (lower, priority) = (maker.random.below(8) << 29, maker.random.between(2, 9));
        maker.insert_as(rule, link, lower, 3, priority);
        maker.out.extend([
            8,
            first as u8,
            last as u8,
            7,
            first as u8,
            maker.random.byte(),
            0,
            0,
            0,
            9,
            first as u8,
            6,
        ]);
        maker.steps(2, 0, 30, 0);
    }
    maker.out
}

// Near the most bytes that are read; some at them, some past them.
fn full(random: Random) -> Vec<u8> {
    let mut maker = Maker::new(random, 1);
    maker.any_hall(16, 64);
    let goal = LIMIT - maker.random.below(30) as usize;
    let (inserts, removes) = if maker.random.percent(50) { (30, 28) } else { (3, 2) };
    let cheap = maker.random.percent(50);
    while maker.out.len() < goal {
        if maker.live.len() > 120 {
            maker.remove();
        }
        maker.step(inserts, removes, 1);
        if cheap {
            maker.out.extend([3; 6]);
        }
    }
    match maker.random.below(4) {
        0 => maker.out.resize(LIMIT, 3),
        1 => maker.out.resize(LIMIT + 1, 3),
        2 => maker.out.truncate(LIMIT),
        _ => {}
    }
    maker.out
}

// The stream of a seed, and what kind of stream it is.
pub fn stream(seed: u64) -> (&'static str, Vec<u8>) {
    let mut random = Random::new(seed);
    match random.below(1000) {
        0..=239 => ("mixed", mixed(random, 2)),
        240..=399 => ("edge", mixed(random, 25)),
        400..=479 => ("order", order(random)),
        480..=599 => ("damaged", damaged(random)),
        600..=669 => ("cut off", cut_off(random)),
        670..=719 => ("noise", noise(random)),
        720..=789 => ("limits", limits(random)),
        790..=839 => ("rules", rules(random)),
        840..=889 => ("boundaries", boundaries(random)),
        890..=949 => ("circles", circles(random)),
        950..=989 => ("long way", long_way(random)),
        _ => ("full", full(random)),
    }
}
