//! The words of a configuration with what they are read as, its types and values, and what control blocks and controls have by
//! themselves: the bottom of opening_plain.rs.
use std::collections::HashMap;
use std::hash::{BuildHasherDefault, Hasher};
use std::ops::RangeInclusive;

/// Hashes names, eight octets at a time.
#[derive(Default)]
pub struct NameHasher(u64);

impl Hasher for NameHasher {
    fn write(&mut self, octets: &[u8]) {
        let (words, rest) = octets.as_chunks();
        let last = rest.iter().fold(0, |word, octet| word << 8 | u64::from(*octet));
        for word in words.iter().map(|word| u64::from_le_bytes(*word)).chain([last]) {
            self.0 = (self.0.rotate_left(5) ^ word).wrapping_mul(0x9e37_79b9_7f4a_7c15);
        }
    }

    fn write_usize(&mut self, _: usize) {} // the length of a name says nothing more

    fn finish(&self) -> u64 {
        self.0 ^ self.0 >> 32
    }
}

/// Numbers by name.
pub type Numbers<Name> = HashMap<Name, u32, BuildHasherDefault<NameHasher>>;

// words

pub fn names(path: &[u8]) -> impl Iterator<Item = &[u8]> {
    path.split(|octet| *octet == b'$')
}

pub fn is_name(word: &[u8]) -> bool {
    let is_right = |octet: &u8| octet.is_ascii_alphanumeric() || *octet == b'_';
    word.len() <= 32 && word.first().is_some_and(u8::is_ascii_alphabetic) && word.iter().all(is_right)
}

pub fn is_path(word: &[u8]) -> bool {
    names(word).all(is_name)
}

pub fn dollars(word: &[u8]) -> usize {
    word.iter().filter(|octet| **octet == b'$').count()
}

/// The two sides of the first `/`.
pub fn cut(reference: &[u8]) -> Option<(&[u8], &[u8])> {
    let at = reference.iter().position(|octet| *octet == b'/')?;
    Some((&reference[..at], &reference[at + 1..]))
}

/// `LD/LN$FC$PATH`.
pub fn is_reference(word: &[u8]) -> bool {
    cut(word).is_some_and(|(domain, item)| is_name(domain) && is_path(item) && dollars(item) >= 2)
}

/// The functional constraints of `attr` lines, which are those of the members of data sets.
pub fn is_constraint(word: &[u8]) -> bool {
    matches!(word, b"ST" | b"MX" | b"CF" | b"DC" | b"SP" | b"SV" | b"SG" | b"EX")
}

/// A number in decimal, without leading zeros.
pub fn number(word: &[u8]) -> Option<u64> {
    if matches!(word, [] | [b'0', _, ..]) || !word.iter().all(u8::is_ascii_digit) {
        return None;
    }
    word.iter().try_fold(0u64, |number, octet| number.checked_mul(10)?.checked_add(u64::from(octet - b'0')))
}

pub fn number_in(word: &[u8], range: RangeInclusive<u32>) -> Option<u32> {
    number(word).and_then(|it| u32::try_from(it).ok()).filter(|it| range.contains(it))
}

pub fn bits(word: &[u8], count: u8) -> Option<u64> {
    let is_right = word.len() == usize::from(count) && word.iter().all(|octet| matches!(octet, b'0' | b'1'));
    is_right.then(|| word.iter().fold(0, |bits, octet| bits << 1 | u64::from(octet - b'0')))
}

pub fn text(word: &[u8], most: usize) -> Option<&[u8]> {
    word.strip_prefix(b"'").filter(|octets| octets.len() <= most && octets.iter().all(u8::is_ascii_graphic))
}

pub fn digit(octet: u8) -> Option<u8> {
    match octet {
        b'0'..=b'9' => Some(octet - b'0'),
        b'a'..=b'f' => Some(octet - b'a' + 10),
        _ => None,
    }
}

pub fn hexadecimal(digits: &[u8]) -> Option<Vec<u8>> {
    let (pairs, []) = digits.as_chunks::<2>() else { return None };
    pairs.iter().map(|[high, low]| Some(digit(*high)? << 4 | digit(*low)?)).collect()
}

// types and values

/// A type of Data. The parts of a structure stand behind each other in the parts of all types.
#[derive(Clone, Copy)]
pub enum Type {
    Bool, Int(u8), Uint(u8), Bits(u8), Time, Stamp, Text(u8), Octets(u8), EntryId, Structure { first: u32, count: u32 },
}

pub const NO_PARTS: Type = Type::Structure { first: 0, count: 0 };

pub struct Part<'t> {
    pub name: &'t [u8],
    pub kind: Type,
}

#[derive(Clone)]
pub enum Value {
    Bool(bool), Int(i64), Uint(u32), Bits(u64), Time(u64), Text(Vec<u8>), Octets(Vec<u8>),
}

/// The octets of an element of Data, by those of its content.
pub fn element_octets(content: u32) -> u32 {
    match content {
        0..128 => content + 2,
        128..256 => content + 3,
        256..65536 => content + 4,
        _ => content + 5,
    }
}

impl Type {
    pub fn read(word: &[u8]) -> Option<Type> {
        let kind = match word {
            b"bool" => Type::Bool,
            b"int8" => Type::Int(8),
            b"int16" => Type::Int(16),
            b"int32" => Type::Int(32),
            b"int64" => Type::Int(64),
            b"uint8" => Type::Uint(8),
            b"uint16" => Type::Uint(16),
            b"uint32" => Type::Uint(32),
            b"dbpos" => Type::Bits(2),
            b"quality" => Type::Bits(13),
            b"time" => Type::Time,
            [b'b', b'i', b't', b's', size @ ..] => Type::Bits(number_in(size, 1..=64)? as u8),
            [b't', b'e', b'x', b't', size @ ..] => Type::Text(number_in(size, 1..=255)? as u8),
            [b'o', b'c', b't', b'e', b't', b's', size @ ..] => Type::Octets(number_in(size, 1..=255)? as u8),
            _ => return None,
        };
        Some(kind)
    }

    pub fn value(self, word: &[u8]) -> Option<Value> {
        let value = match self {
            Type::Bool if word == b"T" || word == b"F" => Value::Bool(word == b"T"),
            Type::Int(width) => {
                let least = i64::MIN >> (64 - width);
                let value = match word {
                    [b'-', digits @ ..] => 0i64.checked_sub_unsigned(number(digits)?)?,
                    digits => i64::try_from(number(digits)?).ok()?,
                };
                Value::Int(Some(value).filter(|it| (least..=!least).contains(it))?)
            }
            Type::Uint(width) => Value::Uint(number_in(word, 0..=u32::MAX >> (32 - width))?),
            Type::Bits(count) => Value::Bits(bits(word, count)?),
            Type::Time if word.len() == 16 => {
                Value::Time(word.iter().try_fold(0, |time, octet| Some(time << 4 | u64::from(digit(*octet)?)))?)
            }
            Type::Text(most) => Value::Text(text(word, most.into())?.to_vec()),
            Type::Octets(most) => {
                let digits = word.strip_prefix(b"x")?;
                Value::Octets(hexadecimal(digits).filter(|octets| octets.len() <= most.into())?)
            }
            _ => return None,
        };
        Some(value)
    }

    /// The most octets of its Data, by those of its parts.
    pub fn octets(self, parts: u32) -> u32 {
        match self {
            Type::Bool => 3,
            Type::Int(width) => 2 + u32::from(width) / 8,
            Type::Uint(width) => 3 + u32::from(width) / 8,
            Type::Bits(count) => element_octets(1 + u32::from(count).div_ceil(8)),
            Type::Time | Type::EntryId => 10,
            Type::Stamp => 8,
            Type::Text(most) | Type::Octets(most) => element_octets(most.into()),
            Type::Structure { .. } => element_octets(parts),
        }
    }
}

pub const BLOCK: [(&[u8], Type); 15] = [
    (b"RptID", Type::Text(129)), (b"RptEna", Type::Bool), (b"DatSet", Type::Text(129)), (b"ConfRev", Type::Uint(32)),
    (b"OptFlds", Type::Bits(10)), (b"BufTm", Type::Uint(32)), (b"SqNum", Type::Uint(16)), (b"TrgOps", Type::Bits(6)),
    (b"IntgPd", Type::Uint(32)), (b"GI", Type::Bool), (b"PurgeBuf", Type::Bool), (b"EntryID", Type::EntryId),
    (b"TimeofEntry", Type::Stamp), (b"ResvTms", Type::Int(16)), (b"Owner", Type::Octets(64)),
];
pub const GROUPS: [(&[u8], Type); 5] = [
    (b"NumOfSG", Type::Uint(8)), (b"ActSG", Type::Uint(8)), (b"EditSG", Type::Uint(8)), (b"CnfEdit", Type::Bool),
    (b"LActTm", Type::Time),
];
/// What a command has behind ctlVal. Cancel has all but the last.
pub const COMMAND: [(&[u8], Type); 6] = [
    (b"origin$orCat", Type::Int(8)), (b"origin$orIdent", Type::Octets(64)), (b"ctlNum", Type::Uint(8)), (b"T", Type::Time),
    (b"Test", Type::Bool), (b"Check", Type::Bits(2)),
];
/// What a control has under CF. One that isn't selected has the first alone.
pub const PARAMETERS: [(&[u8], Type); 3] =
    [(b"ctlModel", Type::Int(8)), (b"sboTimeout", Type::Uint(32)), (b"sboClass", Type::Int(8))];
