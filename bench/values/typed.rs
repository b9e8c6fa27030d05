//! Types in plain Rust that are read straight from bytes, for comparison: with only the types that the shapes need, and no
//! untyped value between, but where the type has one.
//!
//! Short and long encodings are read, and all of the bytes are checked, as in `values::decode`. A map that repeats a key
//! keeps the place of the first and the value of the last.
#![allow(dead_code)]

use super::{DEPTH, Input, Invalid, Result, Value, after_code};
use std::collections::BTreeMap;

/// What is reserved at most, in bytes, because of a count in the bytes.
const ROOM: usize = 4096;
/// The entries up to which each key is compared with all others.
const FEW: usize = 16;

pub trait Typed: Sized {
    /// Reads what follows the code. There are at most `depth` levels inside.
    fn read(code: u8, input: &mut Input, depth: u32) -> Result<Self>;

    /// Reads `count` elements of an array, which fill the input.
    fn read_array(code: u8, count: usize, mut input: Input, depth: u32) -> Result<Vec<Self>> {
        // Elements without bytes are not among the shapes.
        if code < 0x50 {
            return Err(Invalid);
        }
        let mut items = room(count, &input);
        for _ in 0..count {
            items.push(Self::read(code, &mut input, depth)?);
        }
        input.end()?;
        Ok(items)
    }
}

pub fn from_slice<T: Typed>(bytes: &[u8]) -> Result<T> {
    let mut input = Input(bytes);
    let value = read(&mut input, DEPTH - 1)?;
    input.end()?;
    Ok(value)
}

#[inline(always)]
fn read<T: Typed>(input: &mut Input, depth: u32) -> Result<T> {
    let code = input.byte()?;
    T::read(code, input, depth)
}

#[inline(always)]
fn room<T>(count: usize, input: &Input) -> Vec<T> {
    Vec::with_capacity(count.min(input.0.len()).min(ROOM / size_of::<T>()))
}

/// The count and the body of a list, a map or an array, whose short code is given.
#[inline(always)]
fn counted<'a>(short: u8, code: u8, input: &mut Input<'a>) -> Result<(usize, Input<'a>)> {
    if code & !0x10 != short {
        return Err(Invalid);
    }
    let mut body = Input(input.sized(code)?);
    Ok((body.number(code)?, body))
}

#[inline(always)]
fn list<'a>(code: u8, input: &mut Input<'a>) -> Result<(usize, Input<'a>)> {
    if code == 0x45 { Ok((0, Input(&[]))) } else { counted(0xc0, code, input) }
}

#[inline(always)]
fn inside(depth: u32) -> Result<u32> {
    depth.checked_sub(1).ok_or(Invalid)
}

impl Typed for bool {
    #[inline(always)]
    fn read(code: u8, input: &mut Input, _: u32) -> Result<bool> {
        match (code, if code == 0x56 { input.byte()? } else { 0 }) {
            (0x41, _) | (0x56, 1) => Ok(true),
            (0x42, _) | (0x56, 0) => Ok(false),
            _ => Err(Invalid),
        }
    }
}

impl Typed for u8 {
    #[inline(always)]
    fn read(code: u8, input: &mut Input, _: u32) -> Result<u8> {
        if code == 0x50 { input.byte() } else { Err(Invalid) }
    }
}

impl Typed for u32 {
    #[inline(always)]
    fn read(code: u8, input: &mut Input, _: u32) -> Result<u32> {
        match code {
            0x43 => Ok(0),
            0x52 => Ok(input.byte()?.into()),
            0x70 => Ok(u32::from_be_bytes(input.array()?)),
            _ => Err(Invalid),
        }
    }

    fn read_array(code: u8, count: usize, input: Input, _: u32) -> Result<Vec<u32>> {
        // The other codes are not among the shapes.
        if code != 0x70 {
            return Err(Invalid);
        }
        let (numbers, []) = input.0.as_chunks() else { return Err(Invalid) };
        if numbers.len() != count {
            return Err(Invalid);
        }
        Ok(numbers.iter().map(|number| u32::from_be_bytes(*number)).collect())
    }
}

impl Typed for u64 {
    #[inline(always)]
    fn read(code: u8, input: &mut Input, _: u32) -> Result<u64> {
        match code {
            0x44 => Ok(0),
            0x53 => Ok(input.byte()?.into()),
            0x80 => Ok(u64::from_be_bytes(input.array()?)),
            _ => Err(Invalid),
        }
    }
}

impl Typed for i32 {
    #[inline(always)]
    fn read(code: u8, input: &mut Input, _: u32) -> Result<i32> {
        match code {
            0x54 => Ok((input.byte()? as i8).into()),
            0x71 => Ok(i32::from_be_bytes(input.array()?)),
            _ => Err(Invalid),
        }
    }
}

pub struct Timestamp(pub i64);

impl Typed for Timestamp {
    #[inline(always)]
    fn read(code: u8, input: &mut Input, _: u32) -> Result<Timestamp> {
        if code == 0x83 { Ok(Timestamp(i64::from_be_bytes(input.array()?))) } else { Err(Invalid) }
    }
}

pub struct Binary(pub Vec<u8>);

impl Typed for Binary {
    #[inline(always)]
    fn read(code: u8, input: &mut Input, _: u32) -> Result<Binary> {
        if code & !0x10 == 0xa0 { Ok(Binary(input.sized(code)?.to_vec())) } else { Err(Invalid) }
    }
}

#[inline(never)]
fn text(code: u8, input: &mut Input) -> Result<String> {
    input.text(code)
}

impl Typed for String {
    #[inline(always)]
    fn read(code: u8, input: &mut Input, _: u32) -> Result<String> {
        if code & !0x10 == 0xa1 { text(code, input) } else { Err(Invalid) }
    }
}

pub struct Symbol(pub String);

impl Typed for Symbol {
    #[inline(always)]
    fn read(code: u8, input: &mut Input, _: u32) -> Result<Symbol> {
        if code & !0x10 == 0xa3 { Ok(Symbol(text(code, input)?)) } else { Err(Invalid) }
    }
}

impl Typed for Value {
    #[inline(always)]
    fn read(code: u8, input: &mut Input, depth: u32) -> Result<Value> {
        let mut value = Value::Null;
        after_code(code, input, depth + 1, |it| value = it)?;
        Ok(value)
    }
}

impl<T: Typed> Typed for Option<T> {
    #[inline(always)]
    fn read(code: u8, input: &mut Input, depth: u32) -> Result<Option<T>> {
        if code == 0x40 { Ok(None) } else { Ok(Some(T::read(code, input, depth)?)) }
    }
}

impl<T: Typed> Typed for Vec<T> {
    #[inline(always)]
    fn read(code: u8, input: &mut Input, depth: u32) -> Result<Vec<T>> {
        let (count, body) = list(code, input)?;
        items(count, body, inside(depth)?)
    }
}

#[inline(never)]
fn items<T: Typed>(count: usize, mut body: Input, depth: u32) -> Result<Vec<T>> {
    let mut items = room(count, &body);
    for _ in 0..count {
        items.push(read(&mut body, depth)?);
    }
    body.end()?;
    Ok(items)
}

pub struct Array<T>(pub Vec<T>);

impl<T: Typed> Typed for Array<T> {
    #[inline(always)]
    fn read(code: u8, input: &mut Input, depth: u32) -> Result<Array<T>> {
        let (count, mut content) = counted(0xe0, code, input)?;
        let constructor = content.byte()?;
        Ok(Array(T::read_array(constructor, count, content, inside(depth)?)?))
    }
}

#[inline(never)]
fn pairs<K: Typed, V: Typed>(code: u8, input: &mut Input, depth: u32) -> Result<Vec<(K, V)>> {
    let (count, mut body) = counted(0xc1, code, input)?;
    let depth = inside(depth)?;
    if count % 2 != 0 {
        return Err(Invalid);
    }
    let mut pairs = room(count / 2, &body);
    for _ in 0..count / 2 {
        let key = read(&mut body, depth)?;
        pairs.push((key, read(&mut body, depth)?));
    }
    body.end()?;
    Ok(pairs)
}

impl<K: Typed + Ord, V: Typed> Typed for BTreeMap<K, V> {
    #[inline(always)]
    fn read(code: u8, input: &mut Input, depth: u32) -> Result<BTreeMap<K, V>> {
        Ok(pairs(code, input, depth)?.into_iter().collect())
    }
}

/// A map from texts, in the order of its entries.
pub struct Texts<V>(pub Vec<(String, V)>);

impl<V: Typed> Typed for Texts<V> {
    #[inline(always)]
    fn read(code: u8, input: &mut Input, depth: u32) -> Result<Texts<V>> {
        let pairs = pairs(code, input, depth)?;
        Ok(Texts(if differ(&pairs) { pairs } else { merged(pairs) }))
    }
}

/// Whether the keys are certain to differ: they ascend, or their hashes differ.
fn differ<V>(pairs: &[(String, V)]) -> bool {
    if pairs.is_sorted_by(|a, b| a.0 < b.0) {
        return true;
    }
    if pairs.len() <= FEW {
        let mut hashes = [0; FEW];
        for (at, (key, _)) in pairs.iter().enumerate() {
            hashes[at] = hash(key);
        }
        return (1..pairs.len()).all(|at| !hashes[..at].contains(&hashes[at]));
    }
    let mut hashes: Vec<u64> = pairs.iter().map(|pair| hash(&pair.0)).collect();
    hashes.sort_unstable();
    hashes.is_sorted_by(|a, b| a < b)
}

/// A quick hash, which input can be chosen against: `merged` then compares.
#[inline(always)]
fn hash(text: &str) -> u64 {
    let add = |hash: u64, word: u64| (hash.rotate_left(5) ^ word).wrapping_mul(0x9e37_79b9_7f4a_7c15);
    let (words, rest) = text.as_bytes().as_chunks::<8>();
    let hash = words.iter().fold(rest.len() as u64, |hash, word| add(hash, u64::from_le_bytes(*word)));
    add(hash, rest.iter().fold(0, |word, byte| word << 8 | u64::from(*byte)))
}

#[cold]
fn merged<V>(pairs: Vec<(String, V)>) -> Vec<(String, V)> {
    let (mut places, mut kept): (BTreeMap<String, usize>, Vec<(String, V)>) = Default::default();
    for (key, value) in pairs {
        match places.get(&key) {
            Some(at) => kept[*at].1 = value,
            None => {
                places.insert(key.clone(), kept.len());
                kept.push((key, value));
            }
        }
    }
    kept
}

/// The fields of a list.
struct Fields<'a> {
    body: Input<'a>,
    left: usize,
    depth: u32,
}

impl<'a> Fields<'a> {
    #[inline(always)]
    fn open(code: u8, input: &mut Input<'a>, depth: u32) -> Result<Fields<'a>> {
        let (left, body) = list(code, input)?;
        Ok(Fields { body, left, depth: inside(depth)? })
    }

    /// Those of a list after a descriptor.
    #[inline(always)]
    fn described(descriptor: u64, code: u8, input: &mut Input<'a>, depth: u32) -> Result<Fields<'a>> {
        if code != 0 || read::<u64>(input, 0)? != descriptor {
            return Err(Invalid);
        }
        let code = input.byte()?;
        Fields::open(code, input, inside(depth)?)
    }

    #[inline(always)]
    fn required<T: Typed>(&mut self) -> Result<T> {
        self.left = self.left.checked_sub(1).ok_or(Invalid)?;
        read(&mut self.body, self.depth)
    }

    /// A field that may be null, or missing at the end.
    #[inline(always)]
    fn optional<T: Typed>(&mut self) -> Result<Option<T>> {
        if self.left == 0 { Ok(None) } else { self.required() }
    }

    /// Further fields must be valid.
    #[inline(always)]
    fn end(self) -> Result<()> {
        if self.left > 0 { items::<Value>(self.left, self.body, self.depth).map(drop) } else { self.body.end() }
    }
}

pub struct Attach {
    name: String,
    handle: u32,
    role: bool,
    sender_settles: Option<u8>,
    receiver_settles: Option<u8>,
    source: Option<String>,
    target: Option<String>,
    unsettled: Option<u32>,
    incomplete: bool,
    delivery_count: u32,
    longest_message: u64,
    offered: Option<String>,
    desired: Option<String>,
    properties: Option<u32>,
}

impl Typed for Attach {
    #[inline(always)]
    fn read(code: u8, input: &mut Input, depth: u32) -> Result<Attach> {
        let mut fields = Fields::open(code, input, depth)?;
        let attach = Attach {
            name: fields.required()?,
            handle: fields.required()?,
            role: fields.required()?,
            sender_settles: fields.optional()?,
            receiver_settles: fields.optional()?,
            source: fields.optional()?,
            target: fields.optional()?,
            unsettled: fields.optional()?,
            incomplete: fields.required()?,
            delivery_count: fields.required()?,
            longest_message: fields.required()?,
            offered: fields.optional()?,
            desired: fields.optional()?,
            properties: fields.optional()?,
        };
        fields.end()?;
        Ok(attach)
    }
}

pub struct Header {
    pub durable: Option<bool>,
    pub priority: Option<u8>,
    pub ttl: Option<u32>,
    pub first_acquirer: Option<bool>,
    pub delivery_count: Option<u32>,
}

impl Typed for Header {
    #[inline(always)]
    fn read(code: u8, input: &mut Input, depth: u32) -> Result<Header> {
        let mut fields = Fields::described(0x70, code, input, depth)?;
        let header = Header {
            durable: fields.optional()?,
            priority: fields.optional()?,
            ttl: fields.optional()?,
            first_acquirer: fields.optional()?,
            delivery_count: fields.optional()?,
        };
        fields.end()?;
        Ok(header)
    }
}

pub struct Properties {
    pub message_id: Option<Value>,
    pub user_id: Option<Binary>,
    pub to: Option<String>,
    pub subject: Option<String>,
    pub reply_to: Option<String>,
    pub correlation_id: Option<Value>,
    pub content_type: Option<Symbol>,
    pub content_encoding: Option<Symbol>,
    pub absolute_expiry_time: Option<Timestamp>,
    pub creation_time: Option<Timestamp>,
    pub group_id: Option<String>,
    pub group_sequence: Option<u32>,
    pub reply_to_group_id: Option<String>,
}

impl Typed for Properties {
    #[inline(always)]
    fn read(code: u8, input: &mut Input, depth: u32) -> Result<Properties> {
        let mut fields = Fields::described(0x73, code, input, depth)?;
        let properties = Properties {
            message_id: fields.optional()?,
            user_id: fields.optional()?,
            to: fields.optional()?,
            subject: fields.optional()?,
            reply_to: fields.optional()?,
            correlation_id: fields.optional()?,
            content_type: fields.optional()?,
            content_encoding: fields.optional()?,
            absolute_expiry_time: fields.optional()?,
            creation_time: fields.optional()?,
            group_id: fields.optional()?,
            group_sequence: fields.optional()?,
            reply_to_group_id: fields.optional()?,
        };
        fields.end()?;
        Ok(properties)
    }
}
