// A peer of `chainlist` in plain Rust, of which nothing is proved, and a benchmark of the two.
//
//   peer list < FILE        prints what chainlist prints of a chain file that the reader accepts
//   peer make SEED CARRIERS NODES LINKS SELECTION > FILE
//                           writes a chain file drawn at random
//   peer against PROGRAM    runs PROGRAM and `peer list` on the same files, compares what they print, and prints how
//                           long each took and the ratio
//
// It keeps the candidates in a heap and the labels of each node in a list of their own.

use std::cmp::Reverse;
use std::collections::BinaryHeap;
use std::io::{Read, Write};
use std::process::{Command, Stdio};
use std::time::{Duration, Instant};

const CEILING: u32 = 1_000_000_000;
const LABELS: usize = 1024;
const NO_LINK: u16 = 65535;

// Delay, fee, width and colours. Widths are kept as what they lack of the widest, so that every part is better when it
// is less, and the order of settling is the order of the fields. Parts that are not selected are all neutral.
#[derive(Clone, Copy, PartialEq, Eq, PartialOrd, Ord)]
struct Weight {
    delay: u32,
    fee: u32,
    lack: u32,
    colours: u32,
}

const NEUTRAL: Weight = Weight {
    delay: 0,
    fee: 0,
    lack: 0,
    colours: 0,
};

impl Weight {
    fn join(self, other: Weight) -> Weight {
        Weight {
            delay: (self.delay + other.delay).min(CEILING),
            fee: (self.fee + other.fee).min(CEILING),
            lack: self.lack.max(other.lack),
            colours: self.colours | other.colours,
        }
    }

    fn as_good(self, other: Weight) -> bool {
        self.delay <= other.delay
            && self.fee <= other.fee
            && self.lack <= other.lack
            && self.colours & other.colours == self.colours
    }

    fn text(self, selection: u8) -> String {
        match selection {
            1 => format!("{}", self.delay),
            2 => format!("{} {}", self.delay, self.fee),
            _ => format!(
                "{} {} {} {}",
                self.delay, self.fee, !self.lack, self.colours
            ),
        }
    }
}

struct Link {
    tail: u16,
    onward: bool,
    head: u16,
    weight: Weight,
}

struct Carrier {
    nodes: usize,
    entries: Vec<bool>,
    links: Vec<Link>,
}

struct Chain {
    selection: u8,
    destination: u16,
    source: u16,
    bounds: Weight,
    carriers: Vec<Carrier>,
}

struct Bytes<'a>(&'a [u8]);

impl Bytes<'_> {
    fn number(&mut self, bytes: usize) -> u32 {
        let (front, rest) = self.0.split_at(bytes);
        self.0 = rest;
        front.iter().fold(0, |n, b| n << 8 | u32::from(*b))
    }

    fn weight(&mut self, selection: u8) -> Weight {
        let [delay, fee, width, colours] = [(); 4].map(|()| self.number(4));
        Weight {
            delay: delay.min(CEILING),
            fee: if selection >= 2 { fee.min(CEILING) } else { 0 },
            lack: if selection == 3 { !width } else { 0 },
            colours: if selection == 3 { colours } else { 0 },
        }
    }

    fn carrier(&mut self, selection: u8) -> Carrier {
        self.number(5);
        let nodes = self.number(2) as usize;
        let links = self.number(2);
        let mut entries = vec![false; nodes];
        for _ in 0..self.number(2) {
            entries[self.number(2) as usize] = true;
        }
        let link = |bytes: &mut Self| {
            let tail = bytes.number(2) as u16;
            let onward = bytes.number(2) >> 8 == 1;
            let head = bytes.number(2) as u16;
            bytes.number(2);
            Link {
                tail,
                onward,
                head,
                weight: bytes.weight(selection),
            }
        };
        let links = (0..links).map(|_| link(self)).collect();
        Carrier {
            nodes,
            entries,
            links,
        }
    }

    fn chain(&mut self) -> Chain {
        self.number(5);
        let selection = self.number(1) as u8;
        let carriers = self.number(1);
        let destination = self.number(2) as u16;
        let source = self.number(2) as u16;
        let bounds = self.weight(selection);
        let carriers = (0..carriers).map(|_| self.carrier(selection)).collect();
        Chain {
            selection,
            destination,
            source,
            bounds,
            carriers,
        }
    }
}

#[derive(Clone, Copy)]
struct Label {
    node: u16,
    weight: Weight,
    mark: bool,
}

// One crossing: settles a run at the end of `labels`; false where more than 1,024 labels are needed.
fn cross(
    carrier: &Carrier,
    bounds: Weight,
    start: Option<u16>,
    before: usize,
    marks: &[bool],
    labels: &mut Vec<Label>,
) -> bool {
    let first = labels.len();
    let mut inside = vec![Vec::new(); carrier.nodes];
    let mut heap = BinaryHeap::new();
    for (place, link) in carrier.links.iter().enumerate() {
        if !link.onward {
            inside[usize::from(link.head)].push(place);
            continue;
        }
        for (key, label) in labels
            .iter()
            .enumerate()
            .skip(before)
            .filter(|(_, l)| l.mark && l.node == link.head)
        {
            heap.push(Reverse((
                link.weight.join(label.weight),
                link.tail,
                place as u16,
                key,
            )));
        }
    }
    if let Some(node) = start {
        heap.push(Reverse((NEUTRAL, node, NO_LINK, 0)));
    }
    let mut settled: Vec<Vec<Weight>> = vec![Vec::new(); carrier.nodes];
    while let Some(Reverse((weight, node, _, _))) = heap.pop() {
        let at = usize::from(node);
        if !weight.as_good(bounds) || settled[at].iter().any(|w| w.as_good(weight)) {
            continue;
        }
        if labels.len() == LABELS {
            labels.truncate(first);
            return false;
        }
        let key = labels.len();
        settled[at].push(weight);
        labels.push(Label {
            node,
            weight,
            mark: marks[at],
        });
        for &place in &inside[at] {
            let link = &carrier.links[place];
            heap.push(Reverse((
                link.weight.join(weight),
                link.tail,
                place as u16,
                key,
            )));
        }
    }
    true
}

fn list(chain: &Chain) -> String {
    if chain.bounds.delay == CEILING || chain.bounds.fee == CEILING {
        return "refused 3\n".into();
    }
    let mut labels = Vec::new();
    let mut before = 0;
    let last = chain.carriers.len() - 1;
    for (position, carrier) in chain.carriers.iter().enumerate() {
        let outside = |node: u16| usize::from(node) >= carrier.nodes;
        if position == 0 && outside(chain.destination) || position == last && outside(chain.source)
        {
            return "refused 6\n".into();
        }
        let at_source: Vec<bool> = (0..carrier.nodes)
            .map(|v| v == usize::from(chain.source))
            .collect();
        let marks = if position == last {
            &at_source
        } else {
            &carrier.entries
        };
        let start = (position == 0).then_some(chain.destination);
        let first = labels.len();
        if !cross(carrier, chain.bounds, start, before, marks, &mut labels) {
            return "refused 7\n".into();
        }
        before = first;
    }
    let listed: Vec<_> = labels
        .iter()
        .enumerate()
        .skip(before)
        .filter(|(_, l)| l.mark)
        .collect();
    if listed.is_empty() {
        return "no route\n".into();
    }
    let mut text = format!("routes {}\n", listed.len());
    for (k, (key, label)) in listed.iter().enumerate() {
        text += &format!(
            "{}: {} key {}\n",
            k + 1,
            label.weight.text(chain.selection),
            key
        );
    }
    text
}

// A generator of numbers (xorshift).
struct Draw(u64);

impl Draw {
    fn below(&mut self, n: u32) -> u32 {
        self.0 ^= self.0 << 13;
        self.0 ^= self.0 >> 7;
        self.0 ^= self.0 << 17;
        (self.0 >> 33) as u32 % n
    }
}

fn make(seed: u64, carriers: u32, nodes: u32, links: u32, selection: u8) -> Vec<u8> {
    let mut draw = Draw(seed.wrapping_mul(0x9e37_79b9_7f4a_7c15) | 1);
    let mut out = b"CHN\0\x01".to_vec();
    out.extend([selection, carriers as u8, 0, 0, 0, 0]);
    for bound in [600, 600, 100, 0xffff_ffffu32] {
        out.extend(bound.to_be_bytes());
    }
    for carrier in 0..carriers {
        out.extend(b"LNK\0\x01");
        let entries = (nodes / 4).max(1);
        for count in [nodes, links, entries] {
            out.extend((count as u16).to_be_bytes());
        }
        for entry in 0..entries {
            out.extend((entry as u16 * 4).min(nodes as u16 - 1).to_be_bytes());
        }
        for _ in 0..links {
            let onward = carrier > 0 && draw.below(6) == 0;
            let head = if onward {
                draw.below(nodes / 4) * 4
            } else {
                draw.below(nodes)
            };
            out.extend((draw.below(nodes) as u16).to_be_bytes());
            out.extend([onward as u8, 0]);
            out.extend((head as u16).to_be_bytes());
            out.extend([0, 0]);
            for column in [
                1 + draw.below(99),
                1 + draw.below(99),
                100 + draw.below(900),
                1 << draw.below(4),
            ] {
                out.extend(column.to_be_bytes());
            }
        }
    }
    out
}

// What a program prints of the input, and the least time that it took in so many runs.
fn timed(command: &mut Command, input: &[u8], runs: u32) -> (String, Duration) {
    let mut least = Duration::MAX;
    let mut text = String::new();
    for _ in 0..runs {
        let begun = Instant::now();
        let mut child = command
            .stdin(Stdio::piped())
            .stdout(Stdio::piped())
            .spawn()
            .expect("the program starts");
        child
            .stdin
            .take()
            .expect("an input")
            .write_all(input)
            .expect("it reads its input");
        let out = child.wait_with_output().expect("it ends");
        least = least.min(begun.elapsed());
        text = String::from_utf8_lossy(&out.stdout).into_owned();
    }
    (text, least)
}

fn against(program: &str) -> bool {
    let own = std::env::current_exe().expect("this program's path");
    let mut same = true;
    println!("carriers nodes links selection: first line; chainlist, peer, ratio");
    for (carriers, nodes, links, selection) in [
        (2, 4, 8, 2),
        (3, 24, 80, 1),
        (3, 24, 80, 2),
        (3, 24, 80, 3),
        (4, 100, 400, 2),
        (3, 256, 800, 1),
        (3, 256, 800, 2),
        (1, 1024, 2600, 1),
    ] {
        for seed in 1..=3 {
            let file = make(seed, carriers, nodes, links, selection);
            let (ours, time) = timed(&mut Command::new(program), &file, 5);
            let (peers, peer_time) = timed(Command::new(&own).arg("list"), &file, 5);
            let ratio = time.as_secs_f64() / peer_time.as_secs_f64();
            let first = ours.lines().next().unwrap_or("").to_string();
            println!("{carriers} {nodes} {links} {selection}: {first}; {time:.1?}, {peer_time:.1?}, {ratio:.1}");
            if ours != peers {
                println!("  THE PEER PRINTS SOMETHING ELSE");
                same = false;
            }
        }
    }
    same
}

fn main() {
    let args: Vec<String> = std::env::args().skip(1).collect();
    let number = |i: usize| args[i].parse().expect("a number");
    match args.first().map(String::as_str) {
        Some("list") => {
            let mut bytes = Vec::new();
            std::io::stdin().read_to_end(&mut bytes).expect("an input");
            print!("{}", list(&Bytes(&bytes).chain()));
        }
        Some("make") => {
            let file = make(
                number(1),
                number(2) as u32,
                number(3) as u32,
                number(4) as u32,
                number(5) as u8,
            );
            std::io::stdout().write_all(&file).expect("an output");
        }
        Some("against") => std::process::exit(if against(&args[1]) { 0 } else { 1 }),
        _ => eprintln!("peer list | make SEED CARRIERS NODES LINKS SELECTION | against PROGRAM"),
    }
}
