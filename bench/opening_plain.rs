//! What `bay_tool replay` does with the configuration of a record, and `bay_tool check` with a configuration, by hand in plain
//! Rust: each line is judged, the tree of names is built, what lines name is looked up, and the bay is opened. Behind its
//! configuration a record may only end. Names of the configuration are borrowed from its text. Status 3: a refused line of the
//! configuration, 2: another line that isn't right, 1: other words, 6: no reading.
#![allow(dead_code)] // much of a bay is for its steps, and there are none
use std::borrow::Cow;
use std::collections::VecDeque;
use std::env::args;
use std::hint::black_box;
use std::io::{self, Read};
use std::iter::{once, successors};
use std::mem::take;
use std::ops::Range;
use std::process::exit;
use std::rc::Rc;

mod opening_words;
use opening_words::*;

/// Why a line of the configuration is refused.
#[derive(Clone, Copy)]
enum Kind {
    Word = 1, Order, Name, Duplicate, TypeName, Flags, Value, Number, Unknown, Long, Many, Member,
}

struct Refusal {
    line: usize,
    kind: Kind,
}

fn require(is_right: bool, kind: Kind) -> Result<(), Kind> {
    is_right.then_some(()).ok_or(kind)
}

// the tree of names

#[derive(Clone, Copy)]
enum Call {
    Sbo, Select, Operate, Cancel,
}

/// The calls of a control, in the order of its structure.
fn calls(model: u32) -> &'static [(&'static [u8], Call)] {
    match model {
        2 => &[(b"SBO", Call::Sbo), (b"Oper", Call::Operate), (b"Cancel", Call::Cancel)],
        4 => &[(b"SBOw", Call::Select), (b"Oper", Call::Operate), (b"Cancel", Call::Cancel)],
        _ => &[(b"Oper", Call::Operate)],
    }
}

/// What stands at a name. Parameters of controls and edited values are numbered by themselves while lines are read, and behind
/// the attributes of lines in the end.
#[derive(Clone, Copy)]
enum What {
    Structure, Attribute(u32), Parameter(u32), Edited(u32), Block(u32), Component(u32, u8), Groups(u32),
    GroupComponent(u32, u8), Call(u32, Call), CallPart,
}

struct Branch<'t> {
    name: &'t [u8],
    item: Rc<[u8]>,
    what: What,
    kind: Type,
    first: Option<u32>,
    last: Option<u32>,
    next: Option<u32>,
}

impl<'t> Branch<'t> {
    fn new(name: &'t [u8], item: Rc<[u8]>) -> Branch<'t> {
        Branch { name, item, what: What::Structure, kind: NO_PARTS, first: None, last: None, next: None }
    }
}

/// The names of a domain while they grow, each found by its item. The first branch is the domain, above its logical nodes.
struct Tree<'t> {
    branches: Vec<Branch<'t>>,
    places: Numbers<Rc<[u8]>>,
    path: Vec<u8>,
}

impl<'t> Tree<'t> {
    fn new() -> Tree<'t> {
        Tree { branches: vec![Branch::new(b"", Rc::new([]))], places: Numbers::default(), path: Vec::new() }
    }

    fn children(&self, at: u32) -> impl Iterator<Item = u32> + use<'_, 't> {
        successors(self.branches[at as usize].first, |child| self.branches[*child as usize].next)
    }

    fn enter(&mut self, name: &[u8]) {
        if !self.path.is_empty() {
            self.path.push(b'$');
        }
        self.path.extend_from_slice(name);
    }

    /// A new name at the path, the last one below a branch.
    fn grow(&mut self, at: u32, name: &'t [u8]) -> u32 {
        let item = Rc::from(self.path.as_slice());
        let place = self.branches.len() as u32;
        self.places.insert(Rc::clone(&item), place);
        self.branches.push(Branch::new(name, item));
        match self.branches[at as usize].last.replace(place) {
            Some(last) => self.branches[last as usize].next = Some(place),
            None => self.branches[at as usize].first = Some(place),
        }
        place
    }

    /// Grows what stands at the end of names below a branch. Where it is there already, a structure even, or something but a
    /// structure stands above it, it is a duplicate.
    fn claim(&mut self, mut at: u32, names: impl Iterator<Item = &'t [u8]>, what: What, kind: Type) -> Result<u32, Kind> {
        let mut is_new = false;
        self.path.clear();
        self.path.extend_from_slice(&self.branches[at as usize].item);
        for name in names {
            self.enter(name);
            let known = if is_new { None } else { self.places.get(self.path.as_slice()) };
            match known {
                Some(place) => at = *place,
                None => {
                    at = self.grow(at, name);
                    is_new = true;
                }
            }
            require(matches!(self.branches[at as usize].what, What::Structure), Kind::Duplicate)?;
        }
        require(is_new, Kind::Duplicate)?;
        let branch = &mut self.branches[at as usize];
        (branch.what, branch.kind) = (what, kind);
        Ok(at)
    }

    /// Grows the parts of a command, whose ctlVal is of this type.
    fn command(&mut self, at: u32, call: Call, kind: Type) -> Result<(), Kind> {
        self.claim(at, once(&b"ctlVal"[..]), What::CallPart, kind)?;
        for (name, kind) in &COMMAND[..if matches!(call, Call::Cancel) { 5 } else { 6 }] {
            self.claim(at, names(name), What::CallPart, *kind)?;
        }
        Ok(())
    }
}

// the lines of a configuration

/// The rows of flags: d counts 1, q 2 and u 4.
const FLAGS: [&[u8]; 8] = [b"-", b"d", b"q", b"dq", b"u", b"du", b"qu", b"dqu"];

struct Attribute {
    kind: Type,
    flags: u8,
    is_writable: bool,
}

/// An attribute under SG: its value in each group.
struct Setting {
    attribute: u32,
    domain: u32,
    values: Vec<Value>,
}

#[derive(Clone, Copy)]
struct Groups {
    count: u8,
    active: u8,
    edited: u8,
}

struct Domain<'t> {
    name: &'t [u8],
    tree: Tree<'t>,
    groups: Option<Groups>,
}

struct Set {
    reference: Rc<[u8]>,
    members: Vec<u32>,
}

struct Entry {
    moment: u64,
    step: u64,
    start: usize,
    length: usize,
}

/// A report control block, with its retained entries in room for its capacity.
#[derive(Default)]
struct Block<'t> {
    reference: Rc<[u8]>,
    rpt_id: Cow<'t, [u8]>,
    set: Option<u32>,
    conf_rev: u32,
    opt_flds: u16,
    buf_tm: u32,
    trg_ops: u8,
    intg_pd: u32,
    capacity: u32,
    octets: VecDeque<u8>,
    entries: VecDeque<Entry>,
    size: usize,
    newest: u64,
    newest_moment: Option<u64>,
    enabled_by: Option<u8>,
    sent: u16,
    cursor: u64,
    gathered: Vec<(u16, u8)>,
    due: Option<u64>,
}

struct Control {
    reference: Rc<[u8]>,
    model: u8,
    timeout: u32,
    class: u8,
    kind: Type,
    selected: Option<(u8, u64)>,
    executing: Option<u8>,
    is_blocked: bool,
}

/// What a line names among all lines.
enum Named<'t> {
    Member { set: usize, reference: &'t [u8] },
    DatSet { block: usize, reference: &'t [u8] },
}

#[derive(Default)]
struct Config<'t> {
    identity: [&'t [u8]; 3],
    domains: Vec<Domain<'t>>,
    domain_numbers: Numbers<&'t [u8]>,
    logical_nodes: usize,
    attributes: Vec<Attribute>,
    values: Vec<Value>,
    parameters: Vec<(Type, Value)>,
    settings: Vec<Setting>,
    sets: Vec<Set>,
    set_numbers: Numbers<Rc<[u8]>>,
    blocks: Vec<Block<'t>>,
    controls: Vec<Control>,
    named: Vec<(usize, Named<'t>)>,
}

#[derive(Clone, Copy, Default, PartialEq)]
enum Place {
    #[default] Start, Configured, Served, InDomain, InNode, InSet, InMembers, Ended,
}

/// What was read of a configuration so far: how many lines, and the place of the next one.
#[derive(Default)]
struct Reader<'t> {
    config: Config<'t>,
    lines: usize,
    place: Place,
    node: &'t [u8],
    branch: u32,
    has_settings: bool,
    members: usize,
}

impl<'t> Reader<'t> {
    fn is_in_node(&self) -> bool {
        matches!(self.place, Place::InNode | Place::InMembers)
    }

    fn is_between(&self) -> bool {
        self.place == Place::Served || self.is_in_node()
    }

    /// A line may stand here, and there is room for it and for what it makes.
    fn admit(&self, may_stand: bool, has_room: bool) -> Result<(), Kind> {
        require(may_stand, Kind::Order)?;
        require(self.lines < 20000 && has_room, Kind::Many)
    }

    /// The reference of names below the logical node.
    fn reference(&self, names: &[&[u8]]) -> Rc<[u8]> {
        let domain = self.config.domains.last().map_or(&b""[..], |it| it.name);
        let mut reference = [domain, self.node].join(&b'/');
        for name in names {
            reference.push(b'$');
            reference.extend_from_slice(name);
        }
        reference.into()
    }

    /// A word of `server`, an item name or a reference is too long.
    fn has_long(&self, words: &[&[u8]]) -> bool {
        let is_long = |behind: usize| !self.node.is_empty() && self.node.len() + 1 + behind > 64;
        match *words {
            [b"attr", fc, path, ..] => is_long(fc.len() + 1 + path.len()),
            [b"member", reference, ..] => reference.len() > 129 || cut(reference).is_some_and(|(_, item)| item.len() > 64),
            [b"set", name, ..] => is_long(name.len()),
            [b"brcb", name, ..] => is_long(name.len() + "BR$$TimeofEntry".len()),
            [b"ctl", path, b"2" | b"4", ..] => is_long(path.len() + "CO$$Cancel$origin$orIdent".len()),
            [b"ctl", path, ..] => is_long(path.len() + "CO$$Oper$origin$orIdent".len()),
            [b"server", ref identity @ ..] => identity.iter().any(|word| word.len() > 64),
            _ => false,
        }
    }

    fn read(&mut self, line: &'t [u8], words: &mut Vec<&'t [u8]>) -> Result<(), Kind> {
        require(line.len() <= 1000, Kind::Long)?;
        let is_skipped = matches!(line, [] | [b'#', ..]);
        words.clear();
        if !is_skipped {
            words.extend(line.split(|octet| *octet == b' '));
            require(!self.has_long(words), Kind::Long)?;
        }
        let is_printable = line.iter().all(|octet| matches!(octet, b' '..=b'~'));
        require(is_printable && words.iter().all(|word| !word.is_empty()), Kind::Word)?;
        self.place = match **words {
            [] => self.admit(true, true).map(|()| self.place),
            [b"attr", fc, path, kind, flags, ref values @ ..] => self.attribute(fc, path, kind, flags, values),
            [b"member", reference] => self.member(reference),
            [b"set", name] => self.set(name),
            [b"ln", name] => self.logical_node(name),
            [b"brcb", a, b, c, d, e, f, g, h, i] => self.block([a, b, c, d, e, f, g, h, i]),
            [b"ctl", a, b, c, d, e] => self.control([a, b, c, d, e]),
            [b"sgcb", count, active] => self.groups(count, active),
            [b"ld", name] => self.domain(name),
            [b"server", vendor, model, revision] => self.server([vendor, model, revision]),
            [b"config", version] => self.config(version),
            [b"end"] => self.admit(self.is_between(), true).map(|()| Place::Ended),
            _ => Err(Kind::Word),
        }?;
        Ok(())
    }

    fn config(&self, version: &[u8]) -> Result<Place, Kind> {
        self.admit(self.place == Place::Start, true)?;
        require(version == b"1", Kind::Number).map(|()| Place::Configured)
    }

    fn server(&mut self, identity: [&'t [u8]; 3]) -> Result<Place, Kind> {
        self.config.identity = identity;
        self.admit(self.place == Place::Configured, true).map(|()| Place::Served)
    }

    fn domain(&mut self, name: &'t [u8]) -> Result<Place, Kind> {
        let number = self.config.domains.len();
        self.admit(self.is_between(), number < 16)?;
        require(is_name(name), Kind::Name)?;
        require(self.config.domain_numbers.insert(name, number as u32).is_none(), Kind::Duplicate)?;
        self.config.domains.push(Domain { name, tree: Tree::new(), groups: None });
        (self.node, self.has_settings) = (b"", false);
        Ok(Place::InDomain)
    }

    fn logical_node(&mut self, name: &'t [u8]) -> Result<Place, Kind> {
        self.admit(self.place == Place::InDomain || self.is_in_node(), self.config.logical_nodes < 256)?;
        require(is_name(name), Kind::Name)?;
        self.branch = self.tree().claim(0, once(name), What::Structure, NO_PARTS)?;
        self.config.logical_nodes += 1;
        self.node = name;
        Ok(Place::InNode)
    }

    /// The tree of the domain whose lines are read.
    fn tree(&mut self) -> &mut Tree<'t> {
        &mut self.config.domains.last_mut().expect("a domain").tree
    }

    fn claim(&mut self, fc: &'t [u8], path: &'t [u8], what: What, kind: Type) -> Result<u32, Kind> {
        let branch = self.branch;
        self.tree().claim(branch, once(fc).chain(names(path)), what, kind)
    }

    fn attribute(&mut self, fc: &'t [u8], path: &'t [u8], kind: &[u8], flags: &[u8], words: &[&[u8]]) -> Result<Place, Kind> {
        let is_setting = fc == b"SG";
        let groups = self.config.domains.last().and_then(|it| it.groups).filter(|_| is_setting);
        let is_counted = match groups {
            Some(groups) => words.len() == groups.count.into(),
            None => words.len() == 1 || is_setting && !words.is_empty(),
        };
        require(is_counted, Kind::Word)?;
        let number = self.config.attributes.len() as u32;
        self.admit(self.is_in_node() && is_setting == groups.is_some(), number < 10000 && dollars(path) < 8)?;
        require(is_constraint(fc) && is_path(path), Kind::Name)?;
        let branch = self.claim(fc, path, What::Attribute(number), NO_PARTS)?;
        let kind = Type::read(kind).ok_or(Kind::TypeName)?;
        let flags = FLAGS.iter().position(|row| *row == flags).ok_or(Kind::Flags)? as u8;
        self.tree().branches[branch as usize].kind = kind;
        let value = if let Some(groups) = groups {
            let values: Vec<Value> = words.iter().map(|word| kind.value(word)).collect::<Option<_>>().ok_or(Kind::Value)?;
            let value = values[usize::from(groups.active) - 1].clone();
            self.claim(b"SE", path, What::Edited(self.config.settings.len() as u32), kind)?;
            let domain = self.config.domains.len() as u32 - 1;
            self.config.settings.push(Setting { attribute: number, domain, values });
            self.has_settings = true;
            value
        } else {
            kind.value(words[0]).ok_or(Kind::Value)?
        };
        self.config.values.push(value);
        self.config.attributes.push(Attribute { kind, flags, is_writable: matches!(fc, b"CF" | b"DC" | b"SP" | b"SV") });
        Ok(Place::InNode)
    }

    fn set(&mut self, name: &'t [u8]) -> Result<Place, Kind> {
        let number = self.config.sets.len();
        self.admit(self.is_in_node(), number < 128)?;
        require(is_name(name), Kind::Name)?;
        let reference = self.reference(&[name]);
        require(self.config.set_numbers.insert(Rc::clone(&reference), number as u32).is_none(), Kind::Duplicate)?;
        self.config.sets.push(Set { reference, members: Vec::new() });
        self.members = 0;
        Ok(Place::InSet)
    }

    fn member(&mut self, reference: &'t [u8]) -> Result<Place, Kind> {
        let has_room = self.members < 256 && cut(reference).is_none_or(|(_, item)| dollars(item) < 10);
        self.admit(matches!(self.place, Place::InSet | Place::InMembers), has_room)?;
        require(is_reference(reference), Kind::Name)?;
        let set = self.config.sets.len() - 1;
        self.config.named.push((self.lines, Named::Member { set, reference }));
        self.members += 1;
        Ok(Place::InMembers)
    }

    fn block(&mut self, words: [&'t [u8]; 9]) -> Result<Place, Kind> {
        let [name, rpt_id, dat_set, conf_rev, opt_flds, buf_tm, trg_ops, intg_pd, capacity] = words;
        let number = self.config.blocks.len();
        self.admit(self.is_in_node(), number < 32)?;
        require(is_name(name), Kind::Name)?;
        let branch = self.claim(b"BR", name, What::Block(number as u32), NO_PARTS)?;
        let (rpt_id, dat_set) = (text(rpt_id, 129).ok_or(Kind::Value)?, text(dat_set, 1000).ok_or(Kind::Value)?);
        let block = Block {
            reference: self.reference(&[b"BR", name]),
            rpt_id: rpt_id.into(),
            conf_rev: number_in(conf_rev, 1..=u32::MAX).ok_or(Kind::Number)?,
            opt_flds: bits(opt_flds, 10).ok_or(Kind::Value)? as u16,
            buf_tm: number_in(buf_tm, 0..=u32::MAX).ok_or(Kind::Number)?,
            trg_ops: bits(trg_ops, 6).ok_or(Kind::Value)? as u8,
            intg_pd: number_in(intg_pd, 0..=u32::MAX).ok_or(Kind::Number)?,
            capacity: number_in(capacity, 1..=1048576).ok_or(Kind::Number)?,
            ..Block::default()
        };
        for (component, (name, kind)) in BLOCK.into_iter().enumerate() {
            self.tree().claim(branch, once(name), What::Component(number as u32, component as u8), kind)?;
        }
        if !dat_set.is_empty() {
            self.config.named.push((self.lines, Named::DatSet { block: number, reference: dat_set }));
        }
        self.config.blocks.push(block);
        Ok(Place::InNode)
    }

    fn control(&mut self, words: [&'t [u8]; 5]) -> Result<Place, Kind> {
        let [path, model, timeout, class, kind] = words;
        let number = self.config.controls.len() as u32;
        self.admit(self.is_in_node(), number < 64 && dollars(path) < 8)?;
        require(is_path(path), Kind::Name)?;
        let (model, branch) = (number_in(model, 0..=4), self.branch);
        let mut commands = Vec::new();
        for (name, call) in calls(model.unwrap_or(0)) {
            let names = once(&b"CO"[..]).chain(names(path)).chain(once(*name));
            let kind = if matches!(call, Call::Sbo) { Type::Text(129) } else { NO_PARTS };
            commands.push((self.tree().claim(branch, names, What::Call(number, *call), kind)?, *call));
        }
        let parameters = &PARAMETERS[..commands.len()]; // one, or three
        for (i, (name, kind)) in parameters.iter().enumerate() {
            let names = once(&b"CF"[..]).chain(names(path)).chain(once(*name));
            let what = What::Parameter((self.config.parameters.len() + i) as u32);
            self.tree().claim(branch, names, what, *kind)?;
        }
        let control = Control {
            reference: self.reference(&[b"CO", path]),
            model: model.ok_or(Kind::Number)? as u8,
            timeout: number_in(timeout, 1..=u32::MAX).ok_or(Kind::Number)?,
            class: number_in(class, 0..=1).ok_or(Kind::Number)? as u8,
            kind: match kind {
                b"bool" => Type::Bool,
                b"int32" => Type::Int(32),
                _ => return Err(Kind::TypeName),
            },
            selected: None,
            executing: None,
            is_blocked: false,
        };
        for (branch, call) in commands.into_iter().filter(|(_, call)| !matches!(call, Call::Sbo)) {
            self.tree().command(branch, call, control.kind)?;
        }
        let values = [Value::Int(control.model.into()), Value::Uint(control.timeout), Value::Int(control.class.into())];
        self.config.parameters.extend(parameters.iter().map(|(_, kind)| *kind).zip(values));
        self.config.controls.push(control);
        Ok(Place::InNode)
    }

    fn groups(&mut self, count: &[u8], active: &[u8]) -> Result<Place, Kind> {
        self.admit(self.is_in_node() && self.node == b"LLN0" && !self.has_settings, true)?;
        let number = self.config.domains.len() as u32 - 1;
        let branch = self.claim(b"SP", b"SGCB", What::Groups(number), NO_PARTS)?;
        let count = number_in(count, 1..=16).ok_or(Kind::Number)?;
        let active = number_in(active, 1..=count).ok_or(Kind::Number)?;
        for (component, (name, kind)) in GROUPS.into_iter().enumerate() {
            self.tree().claim(branch, once(name), What::GroupComponent(number, component as u8), kind)?;
        }
        let groups = Groups { count: count as u8, active: active as u8, edited: 0 };
        self.config.domains[number as usize].groups = Some(groups);
        Ok(Place::InNode)
    }
}

impl<'t> Config<'t> {
    /// Reads the lines of a configuration behind so many others, and gives what stands behind them: those of a record go up to
    /// its `end`, others up to the end of the text.
    fn read(mut text: &'t [u8], before: usize, is_in_record: bool) -> Result<(Config<'t>, &'t [u8]), Refusal> {
        let (mut reader, mut words) = (Reader::default(), Vec::new());
        while let Some((line, rest)) = first_line(text).filter(|_| !(is_in_record && reader.place == Place::Ended)) {
            let number = before + reader.lines + 1;
            reader.read(line, &mut words).map_err(|kind| Refusal { line: number, kind })?;
            reader.lines += 1;
            text = rest;
        }
        if reader.place != Place::Ended || !is_in_record && !text.is_empty() {
            return Err(Refusal { line: before + reader.lines + 1, kind: Kind::Order });
        }
        Ok((reader.config, text))
    }
}

/// A line without its newline, and what stands behind it.
fn first_line(text: &[u8]) -> Option<(&[u8], &[u8])> {
    let at = text.iter().position(|octet| *octet == b'\n')?;
    Some((&text[..at], &text[at + 1..]))
}

// the model of a configuration

/// A name, with what is below it: its attributes and its leaves stand behind each other among those of all nodes.
struct Node {
    item: Rc<[u8]>,
    what: What,
    kind: Type,
    /// The most octets of its Data.
    octets: u32,
    may_be_member: bool,
    attributes: Range<u32>,
    leaves: Range<u32>,
}

/// The nodes of a domain by their items, and in the ascending order of these.
struct Directory {
    numbers: Numbers<Rc<[u8]>>,
    ascending: Vec<u32>,
}

/// The nodes by their numbers, each before its parts.
#[derive(Default)]
struct Nodes<'t> {
    rows: Vec<Node>,
    parts: Vec<Part<'t>>,
    attributes: Vec<u32>,
    leaves: Vec<What>,
    /// The numbers of the first attribute of a control, and of the first value that is edited.
    first_parameter: u32,
    first_edited: u32,
}

/// What a structure sums up of a part.
struct Listed {
    kind: Type,
    octets: u32,
    is_data: bool,
}

impl<'t> Nodes<'t> {
    /// Adds a branch of a tree and those below it, and notes their numbers. It is under a functional constraint, unless it is a
    /// logical node.
    fn list(&mut self, tree: &Tree<'t>, at: u32, fc: Option<&'t [u8]>, numbers: &mut [u32]) -> Listed {
        let branch = &tree.branches[at as usize];
        let (number, first, attributes, leaves) = (self.rows.len(), self.parts.len(), self.attributes.len(), self.leaves.len());
        let what = match branch.what {
            What::Parameter(i) => What::Attribute(self.first_parameter + i),
            What::Edited(i) => What::Attribute(self.first_edited + i),
            what => what,
        };
        numbers[at as usize] = number as u32;
        let item = Rc::clone(&branch.item);
        self.rows.push(Node { item, what, kind: branch.kind, octets: 0, may_be_member: false, attributes: 0..0, leaves: 0..0 });
        let (mut octets, mut is_data) = (0, matches!(what, What::Attribute(_) | What::Structure));
        self.parts.extend(tree.children(at).map(|child| Part { name: tree.branches[child as usize].name, kind: NO_PARTS }));
        let count = self.parts.len() - first;
        for (child, place) in tree.children(at).zip(first..) {
            let fc = fc.unwrap_or(self.parts[place].name);
            let part = self.list(tree, child, Some(fc), numbers);
            self.parts[place].kind = part.kind;
            octets += part.octets;
            is_data &= part.is_data;
        }
        let mut kind = branch.kind;
        if count > 0 {
            kind = Type::Structure { first: first as u32, count: count as u32 };
        } else if !matches!(kind, Type::Structure { .. }) {
            self.leaves.push(what);
        }
        if let What::Attribute(attribute) = what {
            self.attributes.push(attribute);
        }
        let octets = kind.octets(octets);
        let row = &mut self.rows[number];
        (row.kind, row.octets, row.may_be_member) = (kind, octets, is_data && fc.is_some_and(is_constraint));
        row.attributes = attributes as u32..self.attributes.len() as u32;
        row.leaves = leaves as u32..self.leaves.len() as u32;
        Listed { kind, octets, is_data }
    }

    /// The attributes of a node.
    fn attributes_of(&self, node: u32) -> &[u32] {
        let Range { start, end } = self.rows[node as usize].attributes;
        &self.attributes[start as usize..end as usize]
    }
}

/// What a configuration names. Attributes are those of its lines, of controls, and of the values that are edited.
struct Model<'t> {
    config: Config<'t>,
    directories: Vec<Directory>,
    nodes: Nodes<'t>,
    blocks: Numbers<Rc<[u8]>>,
    controls: Numbers<Rc<[u8]>>,
}

impl<'t> Model<'t> {
    /// Builds the model of a configuration behind so many lines, and looks up what its lines name.
    fn build(mut config: Config<'t>, before: usize) -> Result<Model<'t>, Refusal> {
        let first_parameter = config.attributes.len() as u32;
        let first_edited = first_parameter + config.parameters.len() as u32;
        let mut nodes = Nodes { first_parameter, first_edited, ..Nodes::default() };
        let branches = config.domains.iter().map(|it| it.tree.branches.len()).sum();
        nodes.rows.reserve_exact(branches);
        nodes.parts.reserve_exact(branches);
        let mut directories = Vec::new();
        for domain in &mut config.domains {
            let tree = &mut domain.tree;
            let (first, mut numbers) = (nodes.rows.len() as u32, vec![0; tree.branches.len()]);
            for logical_node in tree.children(0) {
                nodes.list(tree, logical_node, None, &mut numbers);
            }
            let mut places = take(&mut tree.places);
            places.values_mut().for_each(|place| *place = numbers[*place as usize]);
            let mut ascending: Vec<u32> = (first..nodes.rows.len() as u32).collect();
            ascending.sort_by(|one, other| nodes.rows[*one as usize].item.cmp(&nodes.rows[*other as usize].item));
            directories.push(Directory { numbers: places, ascending });
            tree.branches = Vec::new();
        }
        let by_reference = |references: &mut dyn Iterator<Item = &Rc<[u8]>>| references.cloned().zip(0..).collect();
        let blocks = by_reference(&mut config.blocks.iter().map(|it| &it.reference));
        let controls = by_reference(&mut config.controls.iter().map(|it| &it.reference));
        let mut model = Model { config, directories, nodes, blocks, controls };
        for (line, named) in take(&mut model.config.named) {
            model.look_up(named).map_err(|kind| Refusal { line: before + line + 1, kind })?;
        }
        Ok(model)
    }

    /// The node of a reference.
    fn node(&self, reference: &[u8]) -> Option<u32> {
        let (domain, item) = cut(reference)?;
        let domain = self.config.domain_numbers.get(domain)?;
        self.directories[*domain as usize].numbers.get(item).copied()
    }

    fn look_up(&mut self, named: Named<'t>) -> Result<(), Kind> {
        match named {
            Named::Member { set, reference } => {
                let number = self.node(reference).ok_or(Kind::Unknown)?;
                let node = &self.nodes.rows[number as usize];
                require(node.may_be_member && node.octets <= 500, Kind::Member)?;
                self.config.sets[set].members.push(number);
            }
            Named::DatSet { block, reference } => {
                let set = self.config.set_numbers.get(reference).ok_or(Kind::Unknown)?;
                self.config.blocks[block].set = Some(*set);
            }
        }
        Ok(())
    }
}

// the bay

/// A member of a block's data set that holds an attribute.
struct Touch {
    block: u8,
    member: u16,
}

#[derive(Default)]
struct Association {
    size: Option<u32>,
    waiting: VecDeque<Vec<u8>>,
    edits: Option<u32>,
}

struct Bay<'t> {
    model: Model<'t>,
    attributes: Vec<Attribute>,
    values: Vec<Value>,
    touches: Vec<Vec<Touch>>,
    associations: [Association; 16],
    steps: u64,
    latest: u64,
}

impl<'t> Bay<'t> {
    fn open(mut model: Model<'t>) -> Bay<'t> {
        let config = &mut model.config;
        let (mut attributes, mut values) = (take(&mut config.attributes), take(&mut config.values));
        for (kind, value) in take(&mut config.parameters) {
            attributes.push(Attribute { kind, flags: 0, is_writable: false });
            values.push(value);
        }
        for setting in &config.settings {
            let kind = attributes[setting.attribute as usize].kind;
            attributes.push(Attribute { kind, flags: 0, is_writable: false });
            values.push(setting.values[0].clone());
        }
        let mut touches = Vec::new();
        touches.resize_with(attributes.len(), Vec::new);
        for (block, number) in config.blocks.iter_mut().zip(0..) {
            block.octets.reserve_exact(block.capacity as usize);
            block.entries.reserve_exact(block.capacity as usize / 24); // the least entry takes 24 octets
            let members = block.set.map_or(&[][..], |set| &config.sets[set as usize].members);
            for (node, member) in members.iter().zip(1..) {
                for attribute in model.nodes.attributes_of(*node) {
                    touches[*attribute as usize].push(Touch { block: number, member });
                }
            }
        }
        Bay { model, attributes, values, touches, associations: Default::default(), steps: 0, latest: 441763200000 }
    }
}

// the program

fn refuse(status: i32, words: &str) -> ! {
    eprintln!("{words}");
    exit(status)
}

/// Whether a line of a record is passed over: an empty one, or a remark that is no longer than a line may be, in octets 20 to 7E.
fn is_skipped(line: &[u8]) -> bool {
    matches!(line, [] | [b'#', ..]) && line.len() <= 140100 && line.iter().all(|octet| matches!(octet, b' '..=b'~'))
}

/// A line that isn't passed over, with how many lines there are up to it, and what stands behind it.
fn next_line(mut text: &[u8], mut number: usize) -> Option<(usize, &[u8], &[u8])> {
    loop {
        let (line, rest) = first_line(text)?;
        number += 1;
        if !is_skipped(line) {
            return Some((number, line, rest));
        }
        text = rest;
    }
}

fn check(text: &[u8]) -> Result<String, Refusal> {
    let (config, _) = Config::read(text, 0, false)?;
    let Config { domains, logical_nodes, attributes, sets, blocks, controls, .. } = &Model::build(config, 0)?.config;
    let counts = [domains.len(), *logical_nodes, attributes.len(), sets.len(), blocks.len(), controls.len()];
    Ok(format!("ok {}\n", counts.map(|count| count.to_string()).join(" ")))
}

fn replay(text: &[u8]) -> Result<String, Refusal> {
    let Some((before, b"record 1", text)) = next_line(text, 0) else { refuse(2, "opening_plain: no record") };
    let (config, rest) = Config::read(text, before, true)?;
    let bay = Bay::open(Model::build(config, before)?);
    let Some((_, b"end", _)) = next_line(rest, 0) else { refuse(2, "opening_plain: no end behind the configuration") };
    black_box(&bay);
    Ok("end\n".to_string())
}

fn main() {
    let mut input = Vec::new();
    if io::stdin().read_to_end(&mut input).is_err() {
        refuse(6, "opening_plain: read");
    }
    let answer = match args().nth(1).as_deref() {
        Some("check") => check(&input),
        Some("replay") => replay(&input),
        _ => refuse(1, "opening_plain: words"),
    };
    match answer {
        Ok(answer) => print!("{answer}"),
        Err(Refusal { line, kind }) => refuse(3, &format!("bay_tool: config line {line} kind {}", kind as u8)),
    }
}
