//! What ber_walk does, as a plain reader in Rust: walks a BER element, read from standard input, so many times as the
//! argument says, and prints how many elements that were and what their values add up to.
use std::io::Read;

/// The most that elements may stand in one another.
const DEPTH: u32 = 16;

#[derive(Debug)]
enum Fault {
    Short,
    LongLength,
    Indefinite,
    BadTag,
    BadNumber,
    BadText,
}

struct Element<'a> {
    tag: u32,
    content: &'a [u8],
}

/// A tag of at most three octets, and the octets after it.
fn tag_of(bytes: &[u8]) -> Result<(u32, &[u8]), Fault> {
    match bytes {
        [a, rest @ ..] if a & 0x1f != 0x1f => Ok((u32::from(*a), rest)),
        [a, b, rest @ ..] if *b < 0x80 => Ok((u32::from(*a) << 8 | u32::from(*b), rest)),
        [a, b, c, rest @ ..] if *c < 0x80 => Ok((u32::from(*a) << 16 | u32::from(*b) << 8 | u32::from(*c), rest)),
        [_, _, _, ..] => Err(Fault::BadTag),
        _ => Err(Fault::Short),
    }
}

/// A length of at most five octets, and the octets after it.
fn length_of(bytes: &[u8]) -> Result<(usize, &[u8]), Fault> {
    let (first, rest) = bytes.split_first().ok_or(Fault::Short)?;
    match *first {
        0..=0x7f => Ok((usize::from(*first), rest)),
        0x80 => Err(Fault::Indefinite),
        0x85.. => Err(Fault::LongLength),
        _ => {
            let count = usize::from(*first & 0x7f);
            if rest.len() < count {
                return Err(Fault::Short);
            }
            let (octets, rest) = rest.split_at(count);
            Ok((octets.iter().fold(0, |length, octet| length << 8 | usize::from(*octet)), rest))
        }
    }
}

/// The first element, and the octets after it.
fn first(bytes: &[u8]) -> Result<(Element<'_>, &[u8]), Fault> {
    let (tag, after) = tag_of(bytes)?;
    let (length, after) = length_of(after)?;
    if after.len() < length {
        return Err(Fault::Short);
    }
    let (content, rest) = after.split_at(length);
    Ok((Element { tag, content }, rest))
}

/// A signed number of one to nine octets that fits 64 bits.
fn int(content: &[u8]) -> Result<i64, Fault> {
    let first = *content.first().ok_or(Fault::BadNumber)?;
    if content.len() > 9 || content.len() == 9 && (first != if content[1] < 0x80 { 0 } else { 0xff }) {
        return Err(Fault::BadNumber);
    }
    let mut number = if first < 0x80 { 0 } else { -1 };
    for octet in content {
        number = number << 8 | i64::from(*octet);
    }
    Ok(number)
}

/// An unsigned number of one to nine octets that fits 64 bits.
fn uint(content: &[u8]) -> Result<u64, Fault> {
    let first = *content.first().ok_or(Fault::BadNumber)?;
    if first >= 0x80 || content.len() > 9 || content.len() == 9 && first != 0 {
        return Err(Fault::BadNumber);
    }
    let mut number = 0;
    for octet in content {
        number = number << 8 | u64::from(*octet);
    }
    Ok(number)
}

/// How many bits a bit string has.
fn bit_count(content: &[u8]) -> Result<u64, Fault> {
    let (unused, octets) = content.split_first().ok_or(Fault::BadNumber)?;
    if *unused > 7 || octets.is_empty() && *unused > 0 {
        return Err(Fault::BadNumber);
    }
    Ok(octets.len() as u64 * 8 - u64::from(*unused))
}

/// What a primitive element is worth: its number where it is one, how many bits or letters, else its octets' sum.
fn worth(element: &Element<'_>) -> Result<u64, Fault> {
    match element.tag {
        0x02 | 0x85 => Ok(int(element.content)?.unsigned_abs()),
        0x86 => uint(element.content),
        0x84 => bit_count(element.content),
        0x8a if element.content.iter().all(|o| (0x20..=0x7e).contains(o)) => Ok(element.content.len() as u64),
        0x8a => Err(Fault::BadText),
        _ => Ok(element.content.iter().map(|o| u64::from(*o)).sum()),
    }
}

/// Whether an element of this tag holds elements.
fn is_constructed(tag: u32) -> bool {
    let lead = if tag < 1 << 8 {
        tag
    } else if tag < 1 << 16 {
        tag >> 8
    } else {
        tag >> 16
    };
    lead & 0x20 != 0
}

/// Walks the elements of a row and those in them.
fn walk(row: &[u8], depth: u32, elements: &mut u64, sum: &mut u64) -> Result<(), Fault> {
    let mut rest = row;
    while !rest.is_empty() {
        let (element, after) = first(rest)?;
        rest = after;
        *elements += 1;
        if !is_constructed(element.tag) {
            *sum = sum.wrapping_add(worth(&element)?);
        } else if depth > 0 {
            walk(element.content, depth - 1, elements, sum)?;
        } else {
            return Err(Fault::Short);
        }
    }
    Ok(())
}

fn main() -> Result<(), Fault> {
    let times: u64 = std::env::args().nth(1).and_then(|word| word.parse().ok()).ok_or(Fault::BadNumber)?;
    let mut octets = Vec::new();
    std::io::stdin().read_to_end(&mut octets).map_err(|_| Fault::Short)?;
    let (mut elements, mut sum) = (0, 0);
    for time in 0..times {
        if let Some(last) = octets.last_mut() {
            *last = (time % 256) as u8;
        }
        let (root, _) = first(&octets)?;
        elements += 1;
        walk(root.content, DEPTH, &mut elements, &mut sum)?;
    }
    println!("{elements} {sum}");
    Ok(())
}
