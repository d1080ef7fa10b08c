//! What `bay_tool replay` does with the records of bench/controls, by hand in plain Rust: controls of whole numbers, and
//! associations of MMS that read SBO and write SBOw and Oper. Status 2: a line that it doesn't know.
use std::collections::{HashMap, VecDeque};
use std::io::{self, BufRead, BufReader, BufWriter, Write};
use std::process::exit;

/// What a client commands: the octets of ctlVal, origin, ctlNum and Test, and of the whole value.
#[derive(Clone)]
struct Command {
    value: Vec<u8>,
    category: i64,
    identity: Vec<u8>,
    count: u8,
    test: bool,
    whole: Vec<u8>,
}

impl Command {
    fn is_same(&self, other: &Command) -> bool {
        self.value == other.value && self.category == other.category && self.identity == other.identity && self.count == other.count && self.test == other.test
    }
}

struct Selection {
    by: usize,
    since: u64,
    command: Option<Command>,
}

struct Running {
    by: usize,
    command: Command,
    is_ended: bool,
}

struct Control {
    path: String,
    model: u8,
    timeout: u64,
    keeps: bool,
    selection: Option<Selection>,
    running: Option<Running>,
}

#[derive(Clone, Copy, PartialEq)]
enum Node {
    Sbo,
    Sbow,
    Oper,
}

impl Control {
    fn holder(&self, now: u64) -> Option<&Selection> {
        self.selection.as_ref().filter(|it| now < it.since + self.timeout)
    }

    fn is_selectable(&self) -> bool {
        self.model == 2 || self.model == 4
    }

    /// A read of SBO; whether it selects.
    fn select(&mut self, by: usize, now: u64) -> bool {
        let free = self.running.is_none() && self.holder(now).is_none();
        if free {
            self.selection = Some(Selection { by, since: now, command: None });
        }
        free
    }

    /// The AddCause that refuses a select with a value, or an operate.
    fn refusal(&self, by: usize, node: Node, command: &Command, now: u64) -> Option<u8> {
        let held = self.holder(now);
        if node == Node::Oper && self.model == 0 {
            return Some(1);
        }
        if self.running.is_some() {
            return Some(12);
        }
        if node == Node::Sbow {
            return held.map(|_| 19);
        }
        match held {
            Some(it) if self.is_selectable() && it.by != by => Some(27),
            None if self.is_selectable() => Some(18),
            Some(it) if self.model == 4 && it.command.as_ref().map_or(false, |m| !m.is_same(command)) => Some(26),
            _ => None,
        }
    }

    fn accept(&mut self, by: usize, node: Node, command: Command, now: u64) {
        if node == Node::Sbow {
            self.selection = Some(Selection { by, since: now, command: Some(command) });
            return;
        }
        let held = self.selection.take().filter(|it| now < it.since + self.timeout && self.keeps);
        self.selection = held.map(|it| Selection { by, since: now, command: it.command });
        if self.model >= 3 {
            self.running = Some(Running { by, is_ended: command.test, command });
        }
    }
}

/// An element of BER at the front of octets: tag, content, what is behind it.
fn element(octets: &[u8]) -> (u8, &[u8], &[u8]) {
    let (length, start) = match octets[1] {
        0x81 => (octets[2] as usize, 3),
        0x82 => (octets[2] as usize * 256 + octets[3] as usize, 4),
        n => (n as usize, 2),
    };
    (octets[0], &octets[start..start + length], &octets[start + length..])
}

fn content(octets: &[u8]) -> &[u8] {
    element(octets).1
}

fn wrapped(tag: u8, inside: &[u8]) -> Vec<u8> {
    let mut octets = vec![tag];
    match inside.len() {
        n if n < 128 => octets.push(n as u8),
        n if n < 256 => octets.extend([0x81, n as u8]),
        n => octets.extend([0x82, (n >> 8) as u8, n as u8]),
    }
    octets.extend(inside);
    octets
}

/// A variable by its name, and what follows the name.
fn variable(item: &[u8]) -> Vec<u8> {
    let names = [wrapped(0x1A, b"BAY1"), wrapped(0x1A, item)].concat();
    wrapped(0x30, &wrapped(0xA0, &wrapped(0xA1, &names)))
}

fn information(variables: &[u8], values: &[u8]) -> Vec<u8> {
    wrapped(0xA3, &wrapped(0xA0, &[wrapped(0xA0, variables), wrapped(0xA0, values)].concat()))
}

fn last_error(item: &[u8], command: &Command, cause: u8) -> Vec<u8> {
    let origin = [wrapped(0x85, &[command.category as u8]), wrapped(0x89, &command.identity)].concat();
    let count = if command.count < 128 { vec![command.count] } else { vec![0, command.count] };
    let parts = [wrapped(0x8A, &[b"BAY1/", item].concat()), wrapped(0x85, &[1]), wrapped(0xA2, &origin), wrapped(0x86, &count), wrapped(0x85, &[cause])];
    information(&wrapped(0x30, &wrapped(0xA0, &wrapped(0x80, b"LastApplError"))), &wrapped(0xA2, &parts.concat()))
}

/// The command that a value is, where it is one of a whole number.
fn command_of(whole: &[u8]) -> Option<Command> {
    let (0xA2, parts, _) = element(whole) else { return None };
    let (0x85, value, rest) = element(parts) else { return None };
    let (0xA2, origin, rest) = element(rest) else { return None };
    let (0x85, category, names) = element(origin) else { return None };
    let (0x86, count, rest) = element(rest) else { return None };
    let (0x91, _, rest) = element(rest) else { return None };
    let (0x83, test, _) = element(rest) else { return None };
    let category = category.iter().fold(0, |sum, it| sum * 256 + *it as i64);
    Some(Command { value: value.to_vec(), category, identity: content(names).to_vec(), count: *count.last()?, test: test != [0], whole: whole.to_vec() })
}

enum Output {
    Pdus(Vec<Vec<u8>>),
    Ended(usize),
}

struct Bay {
    controls: Vec<Control>,
    names: HashMap<Vec<u8>, (usize, Node)>,
    waiting: Vec<Option<VecDeque<Output>>>,
    now: u64,
}

impl Bay {
    fn add(&mut self, words: &[&str]) -> Option<()> {
        let (path, number) = (words[1].to_string(), self.controls.len());
        for (end, node) in [("SBO", Node::Sbo), ("SBOw", Node::Sbow), ("Oper", Node::Oper)] {
            self.names.insert(format!("CSWI1$CO${path}${end}").into_bytes(), (number, node));
        }
        let (model, timeout, keeps) = (words[2].parse().ok()?, words[3].parse().ok()?, words[4] == "1");
        self.controls.push(Control { path, model, timeout, keeps, selection: None, running: None });
        Some(())
    }

    /// The reply to a request of one variable, behind what it has to say before; an accepted operate is told as an act.
    fn ask(&mut self, by: usize, pdu: &[u8], out: &mut impl Write) -> Option<Vec<Vec<u8>>> {
        let inside = content(pdu);
        let (_, _, service) = element(inside);
        let invoke = &inside[..inside.len() - service.len()];
        let (tag, fields, _) = element(service);
        let (_, list, values) = if tag == 0xA4 { element(content(fields)) } else { element(fields) };
        let (_, _, item) = element(content(content(content(list))));
        let item = content(item);
        let (number, node) = *self.names.get(item)?;
        let control = &mut self.controls[number];
        if tag == 0xA4 {
            let text = if control.select(by, self.now) { format!("BAY1/CSWI1$CO${}", control.path) } else { String::new() };
            let service = wrapped(0xA4, &wrapped(0xA1, &wrapped(0x8A, text.as_bytes())));
            return Some(vec![wrapped(0xA1, &[invoke, &service].concat())]);
        }
        let command = command_of(content(values))?;
        if let Some(cause) = control.refusal(by, node, &command, self.now) {
            let service = wrapped(0xA5, &[0x80, 1, 3]);
            return Some(vec![last_error(item, &command, cause), wrapped(0xA1, &[invoke, &service].concat())]);
        }
        if node == Node::Oper && !command.test {
            writeln!(out, "act BAY1/CSWI1$CO${} {} by {by}", control.path, hex(&wrapped(0x85, &command.value))).ok()?;
        }
        control.accept(by, node, command, self.now);
        Some(vec![wrapped(0xA1, &[invoke, &wrapped(0xA5, &[0x81, 0])].concat())])
    }

    fn done(&mut self, reference: &str) -> Option<()> {
        let item = [&reference.as_bytes()["BAY1/".len()..], b"$Oper"].concat();
        let number = self.names.get(&item)?.0;
        if let Some(running) = self.controls[number].running.as_mut().filter(|it| !it.is_ended) {
            running.is_ended = true;
            self.waiting[running.by].as_mut()?.push_back(Output::Ended(number));
        }
        Some(())
    }

    fn take(&mut self, by: usize, out: &mut impl Write) -> Option<()> {
        let Some(queue) = &mut self.waiting[by] else { return writeln!(out, "{by} closed").ok() };
        let pdus = match queue.pop_front() {
            None => return writeln!(out, "{by} empty").ok(),
            Some(Output::Pdus(pdus)) => pdus,
            Some(Output::Ended(number)) => {
                let control = &mut self.controls[number];
                let running = control.running.take()?;
                vec![information(&variable(format!("CSWI1$CO${}$Oper", control.path).as_bytes()), &running.command.whole)]
            }
        };
        pdus.iter().try_for_each(|pdu| writeln!(out, "{by} pdu {}", hex(pdu)).ok())
    }

    fn line(&mut self, words: &[&str], out: &mut impl Write) -> Option<()> {
        match words {
            ["record", ..] | ["config", ..] | ["server", ..] | ["ld", _] | ["ln", _] | ["end"] => Some(()),
            ["ctl", ..] => self.add(words),
            ["open", by, "mms", _] => Some(self.waiting[by.parse::<usize>().ok()?] = Some(VecDeque::new())),
            ["pdu", by, text] => {
                let by = by.parse().ok()?;
                let pdus = self.ask(by, &octets(text)?, out)?;
                Some(self.waiting[by].as_mut()?.push_back(Output::Pdus(pdus)))
            }
            ["take", by] => self.take(by.parse().ok()?, out),
            ["done", reference, "T"] => self.done(reference),
            _ => None,
        }
    }
}

fn octets(text: &str) -> Option<Vec<u8>> {
    let digit = |it: u8| (it as char).to_digit(16).map(|it| it as u8);
    text.as_bytes().chunks(2).map(|pair| Some(digit(pair[0])? * 16 + digit(*pair.get(1)?)?)).collect()
}

fn hex(octets: &[u8]) -> String {
    let digit = |it: u8| b"0123456789abcdef"[it as usize] as char;
    octets.iter().flat_map(|it| [digit(it >> 4), digit(it & 15)]).collect()
}

fn main() -> io::Result<()> {
    let mut source = BufReader::new(io::stdin().lock());
    let mut out = BufWriter::new(io::stdout().lock());
    let waiting = (0..17).map(|_| None).collect();
    let mut bay = Bay { controls: Vec::new(), names: HashMap::new(), waiting, now: 441763200000 };
    let (mut line, mut ends) = (String::new(), 0);
    while ends < 2 && source.read_line(&mut line)? > 0 {
        let words: Vec<&str> = line.trim_end().split(' ').collect();
        ends += (words == ["end"]) as u32;
        if bay.line(&words, &mut out).is_none() {
            exit(2);
        }
        line.clear();
    }
    writeln!(out, "end")
}
