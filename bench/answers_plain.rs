//! The program of bench/answers by hand, in plain Rust: it reads a request for variables and makes the PDU of an answer, with
//! the same checks, and prints how many octets these were in all.
use std::collections::HashMap;

enum Value {
    Bool(bool),
    Int(i64),
    Bits(Vec<bool>),
    Time(u32, u32, u8),
    Struct(Vec<Value>),
}

struct Name {
    domain: Vec<u8>,
    item: Vec<u8>,
}

struct Target {
    node: Option<u32>,
    asked: Name,
}

fn length_of(n: usize) -> usize {
    match n {
        0..=127 => 1,
        128..=255 => 2,
        256..=65535 => 3,
        65536..=16777215 => 4,
        _ => 5,
    }
}

fn element_len(n: usize) -> usize {
    1 + length_of(n) + n
}

fn put_head(out: &mut Vec<u8>, tag: u8, n: usize) {
    out.push(tag);
    let count = length_of(n) - 1;
    if count > 0 {
        out.push(0x80 + count as u8);
        out.extend_from_slice(&(n as u32).to_be_bytes()[4 - count..]);
    } else {
        out.push(n as u8);
    }
}

fn int_len(value: i64) -> usize {
    let bits = 65 - (if value < 0 { !value } else { value }).leading_zeros() as usize;
    (bits + 7) / 8
}

fn content_len(value: &Value) -> usize {
    match value {
        Value::Bool(_) => 1,
        Value::Int(value) => int_len(*value),
        Value::Bits(bits) => 1 + (bits.len() + 7) / 8,
        Value::Time(..) => 8,
        Value::Struct(parts) => parts.iter().map(|part| element_len(content_len(part))).sum(),
    }
}

fn put_value(out: &mut Vec<u8>, value: &Value) {
    let n = content_len(value);
    match value {
        Value::Bool(value) => {
            put_head(out, 0x83, n);
            out.push(if *value { 0xff } else { 0 });
        }
        Value::Int(value) => {
            put_head(out, 0x85, n);
            out.extend_from_slice(&value.to_be_bytes()[8 - n..]);
        }
        Value::Bits(bits) => {
            put_head(out, 0x84, n);
            out.push(((n - 1) * 8 - bits.len()) as u8);
            for eight in bits.chunks(8) {
                out.push(eight.iter().enumerate().fold(0, |octet, (i, bit)| octet | u8::from(*bit) << (7 - i)));
            }
        }
        Value::Time(secs, frac, quality) => {
            put_head(out, 0x91, n);
            out.extend_from_slice(&secs.to_be_bytes());
            out.extend_from_slice(&frac.to_be_bytes()[1..]);
            out.push(*quality);
        }
        Value::Struct(parts) => {
            put_head(out, 0xa2, n);
            parts.iter().for_each(|part| put_value(out, part));
        }
    }
}

fn answer(invoke: u8, results: &[Value], size: usize) -> Option<Vec<u8>> {
    let sum: usize = results.iter().map(|value| element_len(content_len(value))).sum();
    let len = 3 + element_len(element_len(sum));
    if element_len(len) > size {
        return None;
    }
    let mut out = Vec::with_capacity(element_len(len));
    put_head(&mut out, 0xa1, len);
    out.extend_from_slice(&[2, 1, invoke]);
    put_head(&mut out, 0xa4, element_len(sum));
    put_head(&mut out, 0xa1, sum);
    results.iter().for_each(|value| put_value(&mut out, value));
    Some(out)
}

/// The content of an element with this tag, and what stands behind it.
fn element(octets: &[u8], tag: u8) -> Option<(&[u8], &[u8])> {
    let (first, rest) = octets.split_first()?;
    let (n, rest) = rest.split_first()?;
    if *first != tag || *n == 0x80 || *n > 0x84 {
        return None;
    }
    let count = if *n < 0x80 { 0 } else { *n as usize - 0x80 };
    let (field, rest) = rest.split_at_checked(count)?;
    let n = if count == 0 { *n as usize } else { field.iter().fold(0, |n, octet| n << 8 | *octet as usize) };
    rest.split_at_checked(n)
}

fn only(octets: &[u8], tag: u8) -> Option<&[u8]> {
    element(octets, tag).and_then(|(content, rest)| rest.is_empty().then_some(content))
}

fn is_visible(octets: &[u8]) -> bool {
    octets.iter().all(|octet| (0x20..=0x7e).contains(octet))
}

fn variable(octets: &[u8]) -> Option<(&[u8], &[u8], &[u8])> {
    let (content, rest) = element(octets, 0x30)?;
    let (domain, more) = element(only(only(content, 0xa0)?, 0xa1)?, 0x1a)?;
    let item = only(more, 0x1a)?;
    (is_visible(domain) && is_visible(item)).then_some((domain, item, rest))
}

/// The octets of the list of variables that a read names.
fn list(octets: &[u8]) -> Option<&[u8]> {
    let (_, service) = element(only(octets, 0xa0)?, 2)?;
    only(only(only(service, 0xa4)?, 0xa1)?, 0xa0)
}

fn view(octets: &[u8]) -> Option<usize> {
    let mut rest = list(octets)?;
    let mut count = 0;
    while !rest.is_empty() {
        rest = variable(rest)?.2;
        count += 1;
    }
    Some(count)
}

fn ask(nodes: &HashMap<Vec<u8>, HashMap<Vec<u8>, u32>>, octets: &[u8]) -> Option<Vec<Target>> {
    let mut rest = list(octets)?;
    let mut targets = Vec::new();
    while !rest.is_empty() {
        let (domain, item, more) = variable(rest)?;
        let node = nodes.get(domain).and_then(|items| items.get(item)).copied();
        targets.push(Target { node, asked: Name { domain: domain.to_vec(), item: item.to_vec() } });
        rest = more;
    }
    Some(targets)
}

fn asking(count: usize) -> Vec<u8> {
    let variable = b"\x30\x1f\xa0\x1d\xa1\x1b\x1a\x04BAY1\x1a\x13MMXU1$MX$TotW$mag$i";
    let long = |tag: u8, content: Vec<u8>| {
        let [high, low] = (content.len() as u16).to_be_bytes();
        [vec![tag, 0x82, high, low], content].concat()
    };
    let service = long(0xa4, long(0xa1, long(0xa0, variable.repeat(count))));
    long(0xa0, [vec![2, 1, 1], service].concat())
}

fn five() -> Value {
    Value::Struct(vec![Value::Int(123456), Value::Int(0), Value::Bits(vec![false; 13]), Value::Time(1700000000, 0x800000, 10), Value::Bool(false)])
}

fn hundred() -> Value {
    Value::Struct((0..4).map(|_| Value::Struct((0..5).map(|_| five()).collect())).collect())
}

fn main() {
    let words: Vec<String> = std::env::args().collect();
    let (times, how, count): (u64, &str, usize) = (words[1].parse().unwrap(), &words[2], words[3].parse().unwrap());
    let items = ["MMXU1", "MMXU1$MX", "MMXU1$MX$TotW", "MMXU1$MX$TotW$mag", "MMXU1$MX$TotW$mag$i"];
    let names: HashMap<Vec<u8>, u32> = items.iter().zip(0..).map(|(item, node)| (item.as_bytes().to_vec(), node)).collect();
    let nodes = HashMap::from([(b"BAY1".to_vec(), names)]);
    let (octets, results) = (asking(count), [hundred()]);
    let pdu = answer(1, &results, 65000).unwrap();
    let mut sum = 0;
    for _ in 0..times {
        let octets = std::hint::black_box(&octets);
        sum += match how {
            "view" if view(octets) == Some(count) => octets.len(),
            "ask" if ask(&nodes, octets).is_some_and(|targets| targets.len() == count && targets.iter().all(is_found)) => octets.len(),
            "answer" => std::hint::black_box(answer(1, std::hint::black_box(&results), 65000)).map_or(0, |pdu| pdu.len()),
            "copy" => std::hint::black_box(std::hint::black_box(&pdu).to_vec()).len(),
            _ => 0,
        };
    }
    println!("{sum}");
}

fn is_found(target: &Target) -> bool {
    target.node == Some(4) && !target.asked.domain.is_empty() && !target.asked.item.is_empty()
}
