//! What `bay_tool replay` does with the records of bench/bay, by hand in plain Rust: whole numbers under trigger option d
//! alone, associations that write RptEna and take. Status 2: a line that it doesn't know.
use std::collections::{HashMap, VecDeque};
use std::io::{self, BufRead, BufReader, BufWriter, Write};
use std::process::exit;

/// An entry, and where its octets begin among all that ever were; each member has its number, the length of its Data and
/// that Data.
struct Entry {
    step: u64,
    moment: u64,
    start: usize,
    length: usize,
}

/// A report control block, and its retained entries.
struct Block {
    reference: String,
    set: String,
    capacity: usize,
    entries: VecDeque<Entry>,
    octets: VecDeque<u8>,
    gone: usize,
    size: usize,
    newest: u64,
    cursor: u64,
    sent: u64,
    enabler: Option<u32>,
    touched: Vec<(u16, u32)>,
}

impl Block {
    fn new(reference: String, set: String, capacity: usize) -> Block {
        let (entries, octets) = (VecDeque::new(), VecDeque::new());
        Block { reference, set, capacity, entries, octets, gone: 0, size: 0, newest: 0, cursor: 0, sent: 0, enabler: None, touched: Vec::new() }
    }

    fn front(&self) -> u64 {
        self.newest - self.entries.len() as u64
    }

    /// The number of the next entry to report, and the step that made it.
    fn next(&self) -> Option<(u64, u64)> {
        let number = self.cursor.max(self.front()) + 1;
        let entry = self.entries.get((number - self.front() - 1) as usize)?;
        Some((entry.step, number))
    }

    /// An entry of the members that were touched.
    fn append(&mut self, step: u64, moment: u64, values: &[i32]) {
        self.touched.sort_unstable();
        let (start, mut length) = (self.gone + self.octets.len(), 0);
        for (member, attribute) in self.touched.drain(..) {
            let octets = values[attribute as usize].to_be_bytes();
            let data = &octets[leading(octets)..];
            self.octets.extend(member.to_be_bytes());
            self.octets.push_back(data.len() as u8);
            self.octets.extend(data);
            length += 3 + data.len();
            self.size += 6 + data.len();
        }
        self.size += 24;
        self.newest += 1;
        self.entries.push_back(Entry { step, moment, start, length });
        while self.size > self.capacity {
            self.discard();
        }
    }

    fn discard(&mut self) {
        let Some(Entry { length, .. }) = self.entries.pop_front() else { return };
        let mut at = 0;
        self.size -= 24;
        while at < length {
            let data = usize::from(self.octets[at + 2]);
            at += 3 + data;
            self.size -= 6 + data;
        }
        self.octets.drain(..length);
        self.gone += length;
    }

    fn report(&mut self, association: u32, number: u64, out: &mut impl Write) -> io::Result<()> {
        let front = self.front();
        let Entry { moment, start, length, .. } = self.entries[(number - front - 1) as usize];
        let start = start - self.gone;
        let over = u8::from(self.cursor < front);
        write!(out, "{association} report {} sq {} id {number} time {moment} ovfl {over}", self.reference, self.sent % 65536)?;
        let mut at = start;
        while at < start + length {
            let member = u16::from_be_bytes([self.octets[at], self.octets[at + 1]]);
            let data = usize::from(self.octets[at + 2]);
            write!(out, " {member}=d:85{data:02x}")?;
            for octet in self.octets.range(at + 3..at + 3 + data) {
                write!(out, "{octet:02x}")?;
            }
            at += 3 + data;
        }
        self.cursor = number;
        self.sent += 1;
        writeln!(out)
    }
}

/// How many octets a number has in front that say nothing.
fn leading(octets: [u8; 4]) -> usize {
    let repeats = |i: &usize| (octets[*i] == 0 && octets[i + 1] < 128) || (octets[*i] == 255 && octets[i + 1] >= 128);
    (0..3).take_while(repeats).count()
}

fn refuse(line: &str) -> ! {
    eprintln!("bay_plain: {line}");
    exit(2)
}

#[derive(Default)]
struct Bay {
    names: HashMap<String, u32>,
    values: Vec<i32>,
    /// Of each attribute the blocks and members that hold it.
    touches: Vec<Vec<(u8, u16)>>,
    blocks: Vec<Block>,
    sets: HashMap<String, Vec<String>>,
    domain: String,
    node: String,
    set: String,
    /// Of the step: the attributes that are set, and what they were.
    before: Vec<(u32, i32)>,
    marks: Vec<u64>,
}

impl Bay {
    fn configure(&mut self, line: &str) {
        let words: Vec<&str> = line.split(' ').collect();
        match words[..] {
            ["record", "1"] | ["config", "1"] | ["server", _, _, _] => {}
            ["ld", name] => self.domain = name.to_string(),
            ["ln", name] => self.node = format!("{}/{name}", self.domain),
            ["attr", fc, path, "int32", "d", value] => {
                self.names.insert(format!("{}${fc}${path}", self.node), self.values.len() as u32);
                self.values.push(value.parse().unwrap_or_else(|_| refuse(line)));
            }
            ["set", name] => self.set = format!("{}${name}", self.node),
            ["member", reference] => self.sets.entry(self.set.clone()).or_default().push(reference.to_string()),
            ["brcb", name, "'", set, _, _, _, _, _, capacity] => {
                let capacity = capacity.parse().unwrap_or_else(|_| refuse(line));
                self.blocks.push(Block::new(format!("{}$BR${name}", self.node), set[1..].to_string(), capacity));
            }
            _ => refuse(line),
        }
    }

    /// What each attribute touches.
    fn open(&mut self) {
        self.touches.resize(self.values.len(), Vec::new());
        self.marks.resize(self.values.len(), 0);
        for (b, block) in self.blocks.iter().enumerate() {
            for (m, member) in self.sets[&block.set].iter().enumerate() {
                self.touches[self.names[member] as usize].push((b as u8, m as u16 + 1));
            }
        }
    }

    fn set(&mut self, step: u64, moment: u64, line: &str) {
        let mut words = line.split(' ').skip(1);
        while let Some(name) = words.next() {
            let value = words.next().and_then(|word| word.parse::<i32>().ok());
            let (Some(x), Some(value)) = (self.names.get(name), value) else { refuse(line) };
            let old = std::mem::replace(&mut self.values[*x as usize], value);
            if self.marks[*x as usize] != step {
                self.marks[*x as usize] = step;
                self.before.push((*x, old));
            }
        }
        let mut hit = 0u32;
        for (x, old) in self.before.drain(..) {
            if self.values[x as usize] == old {
                continue;
            }
            for (b, member) in &self.touches[x as usize] {
                self.blocks[usize::from(*b)].touched.push((*member, x));
                hit |= 1 << b;
            }
        }
        while hit != 0 {
            self.blocks[hit.trailing_zeros() as usize].append(step, moment, &self.values);
            hit &= hit - 1;
        }
    }

    fn take(&mut self, association: u32, out: &mut impl Write) -> io::Result<()> {
        let enabled = |block: &Block| block.enabler == Some(association);
        let next = |(b, block): (usize, &Block)| block.next().filter(|_| enabled(block)).map(|(step, number)| (step, b, number));
        match self.blocks.iter().enumerate().filter_map(next).min() {
            Some((_, b, number)) => self.blocks[b].report(association, number, out),
            None => writeln!(out, "{association} empty"),
        }
    }

    fn play(&mut self, step: u64, line: &str, out: &mut impl Write) -> io::Result<()> {
        if line.starts_with("set ") {
            self.set(step, 441763200000, line);
            return Ok(());
        }
        let words: Vec<&str> = line.split(' ').collect();
        match words[..] {
            ["open", _, "direct"] => Ok(()),
            ["take", a] => self.take(a.parse().unwrap_or_else(|_| refuse(line)), out),
            ["write", a, reference, "RptEna", "T"] => {
                let block = self.blocks.iter_mut().find(|block| block.reference == reference);
                block.unwrap_or_else(|| refuse(line)).enabler = a.parse().ok();
                writeln!(out, "{a} ok")
            }
            _ => refuse(line),
        }
    }
}

fn main() -> io::Result<()> {
    let mut input = BufReader::with_capacity(65536, io::stdin().lock());
    let mut out = BufWriter::with_capacity(65536, io::stdout().lock());
    let (mut bay, mut line, mut ends, mut step) = (Bay::default(), String::new(), 0, 0);
    while ends < 2 {
        line.clear();
        if input.read_line(&mut line)? == 0 {
            refuse("no end");
        }
        let words = line.trim_end_matches('\n');
        match (words, ends) {
            ("end", 0) => {
                bay.open();
                ends = 1;
            }
            ("end", _) => ends = 2,
            (_, 0) => bay.configure(words),
            _ => {
                step += 1;
                bay.play(step, words, &mut out)?;
            }
        }
    }
    writeln!(out, "end")?;
    out.flush()
}
