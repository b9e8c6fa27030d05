//! Untyped values in plain Rust, for comparison: with only the kinds that the shapes need, and one recursion for each call.
//!
//! Decoding checks all of the bytes: lengths and counts, UTF-8, the depth, unknown codes, and what is left over. A map
//! that repeats a key keeps the place of the first and the value of the last, as in the project.

pub mod bytes;
mod text;
pub mod typed;

use std::mem::{forget, replace, take};

#[derive(Debug)]
pub struct Invalid;

pub type Result<T> = std::result::Result<T, Invalid>;

const DEPTH: u32 = 256;
/// What is reserved at most, in elements, because of a count in the bytes.
const ROOM: usize = 128;

#[derive(PartialEq, Eq, PartialOrd, Ord)]
pub enum Value {
    Null,
    Bool(bool),
    Ubyte(u8),
    Uint(u32),
    Ulong(u64),
    Int(i32),
    Uuid([u8; 16]),
    Binary(Vec<u8>),
    Text(String),
    Symbol(String),
    List(Parts<Value>),
    Map(Parts<(Value, Value)>),
    Array(Parts<Value>),
    Described(Box<(u64, Value)>),
}

use Value::*;

/// The parts of a compound, dropped without a call for those that own no memory.
#[derive(PartialEq, Eq, PartialOrd, Ord)]
pub struct Parts<T: Part>(pub Vec<T>);

pub trait Part {
    fn is_plain(&self) -> bool;
}

impl Part for Value {
    #[inline(always)]
    fn is_plain(&self) -> bool {
        matches!(self, Null | Bool(_) | Ubyte(_) | Uint(_) | Ulong(_) | Int(_) | Uuid(_))
    }
}

impl Part for (Value, Value) {
    #[inline(always)]
    fn is_plain(&self) -> bool {
        self.0.is_plain() && self.1.is_plain()
    }
}

impl<T: Part> Drop for Parts<T> {
    fn drop(&mut self) {
        for part in self.0.drain(..) {
            if part.is_plain() {
                forget(part);
            }
        }
    }
}

pub struct Input<'a>(&'a [u8]);

impl<'a> Input<'a> {
    #[inline(always)]
    fn array<const N: usize>(&mut self) -> Result<[u8; N]> {
        let (array, rest) = self.0.split_first_chunk().ok_or(Invalid)?;
        self.0 = rest;
        Ok(*array)
    }

    #[inline(always)]
    fn byte(&mut self) -> Result<u8> {
        Ok(self.array::<1>()?[0])
    }

    /// A length or a count, in four bytes if bit 4 of the code is set, and else in one.
    #[inline(always)]
    fn number(&mut self, code: u8) -> Result<usize> {
        Ok(if code & 0x10 != 0 { u32::from_be_bytes(self.array()?) as usize } else { self.byte()? as usize })
    }

    #[inline(always)]
    fn sized(&mut self, code: u8) -> Result<&'a [u8]> {
        let len = self.number(code)?;
        let (bytes, rest) = self.0.split_at_checked(len).ok_or(Invalid)?;
        self.0 = rest;
        Ok(bytes)
    }

    #[inline(always)]
    fn text(&mut self, code: u8) -> Result<String> {
        Ok(str::from_utf8(self.sized(code)?).map_err(|_| Invalid)?.to_owned())
    }

    fn end(self) -> Result<()> {
        if self.0.is_empty() { Ok(()) } else { Err(Invalid) }
    }
}

pub fn decode(bytes: &[u8]) -> Result<Value> {
    let (mut input, mut value) = (Input(bytes), Null);
    next(&mut input, DEPTH, |it| value = it)?;
    input.end()?;
    Ok(value)
}

/// Reads a value and hands it on.
#[inline(always)]
fn next(input: &mut Input, depth: u32, put: impl FnOnce(Value)) -> Result<()> {
    let code = input.byte()?;
    after_code(code, input, depth, put)
}

/// Reads what follows the code, each kind by itself, so that the value is made in its place.
#[inline(always)]
fn after_code(code: u8, input: &mut Input, depth: u32, put: impl FnOnce(Value)) -> Result<()> {
    match code {
        0x40 => put(Null),
        0x41 => put(Bool(true)),
        0x42 => put(Bool(false)),
        0x43 => put(Uint(0)),
        0x44 => put(Ulong(0)),
        0x50 => put(Ubyte(input.byte()?)),
        0x52 => put(Uint(input.byte()?.into())),
        0x53 => put(Ulong(input.byte()?.into())),
        0x54 => put(Int((input.byte()? as i8).into())),
        0x70 => put(Uint(u32::from_be_bytes(input.array()?))),
        0x71 => put(Int(i32::from_be_bytes(input.array()?))),
        0x80 => put(Ulong(u64::from_be_bytes(input.array()?))),
        0x98 => put(Uuid(input.array()?)),
        code @ (0xa0 | 0xb0) => put(Binary(input.sized(code)?.to_vec())),
        code @ (0xa1 | 0xb1) => put(Text(input.text(code)?)),
        code @ (0xa3 | 0xb3) => put(Symbol(input.text(code)?)),
        code => put(compound(code, input, depth)?),
    }
    Ok(())
}

#[inline(never)]
fn compound(code: u8, input: &mut Input, depth: u32) -> Result<Value> {
    if code == 0x45 {
        return Ok(List(Parts(Vec::new())));
    }
    let depth = depth.checked_sub(1).filter(|left| *left > 0).ok_or(Invalid)?;
    if code == 0x00 {
        let mut described = Box::new((0, Null));
        next(input, 1, |it| described.1 = it)?;
        let Ulong(descriptor) = described.1 else { return Err(Invalid) };
        described.0 = descriptor;
        next(input, depth, |it| described.1 = it)?;
        return Ok(Described(described));
    }
    if !matches!(code & !0x10, 0xc0 | 0xc1 | 0xe0) {
        return Err(Invalid);
    }
    let mut body = Input(input.sized(code)?);
    let count = body.number(code)?;
    let value = match code & !0x10 {
        0xc0 => List(list(count, &mut body, depth)?),
        0xc1 => Map(map(count, &mut body, depth)?),
        _ => Array(array(count, &mut body)?),
    };
    body.end()?;
    Ok(value)
}

fn list(count: usize, body: &mut Input, depth: u32) -> Result<Parts<Value>> {
    let mut items = Parts(Vec::with_capacity(count.min(ROOM)));
    for _ in 0..count {
        next(body, depth, |item| items.0.push(item))?;
    }
    Ok(items)
}

/// An array of uints; the others are not among the shapes.
fn array(count: usize, body: &mut Input) -> Result<Parts<Value>> {
    if body.byte()? != 0x70 || body.0.len() != count * 4 {
        return Err(Invalid);
    }
    let numbers = take(&mut body.0).as_chunks().0.iter();
    Ok(Parts(numbers.map(|number| Uint(u32::from_be_bytes(*number))).collect()))
}

fn map(count: usize, body: &mut Input, depth: u32) -> Result<Parts<(Value, Value)>> {
    if count % 2 != 0 {
        return Err(Invalid);
    }
    let mut pairs = Parts(Vec::with_capacity((count / 2).min(ROOM)));
    for _ in 0..count / 2 {
        let mut key = Null;
        next(body, depth, |it| key = it)?;
        next(body, depth, |item| pairs.0.push((key, item)))?;
    }
    if !pairs.0.is_sorted_by(|a, b| a.0 < b.0) {
        once_each(&mut pairs.0);
    }
    Ok(pairs)
}

/// Keeps each key once.
fn once_each(pairs: &mut Vec<(Value, Value)>) {
    let mut order: Vec<usize> = (0..pairs.len()).collect();
    order.sort_by(|a, b| pairs[*a].0.cmp(&pairs[*b].0));
    let mut kept = vec![true; pairs.len()];
    let mut last = vec![];
    for same in order.chunk_by(|a, b| pairs[*a].0 == pairs[*b].0).filter(|same| same.len() > 1) {
        same[1..].iter().for_each(|at| kept[*at] = false);
        last.push((same[0], same[same.len() - 1]));
    }
    for (first, last) in last {
        pairs[first].1 = replace(&mut pairs[last].1, Null);
    }
    let mut kept = kept.into_iter();
    pairs.retain(|_| kept.next() == Some(true));
}
