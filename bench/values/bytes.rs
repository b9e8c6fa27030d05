//! The size and the bytes of the untyped values.
//!
//! The length of each body is noted while the size is computed, from the last part to the first. The writer takes these
//! lengths from the end of the notes, and compares each with what it wrote. The bytes are reserved once.

use crate::values::Value::{self, *};
use crate::values::{Invalid, Result};

const LONGEST: usize = 4294967291;

/// What is noted while a size is computed: whether a value cannot be written, and the lengths of bodies if wanted.
#[derive(Default)]
struct Notes<const BODIES: bool> {
    failed: bool,
    bodies: Vec<usize>,
}

impl<const BODIES: bool> Notes<BODIES> {
    /// Notes the body of a list or a map, and returns its length with the header.
    #[inline(always)]
    fn body(&mut self, len: usize) -> usize {
        if BODIES {
            self.bodies.push(len);
        }
        if len <= 254 { len + 3 } else { self.long(len, 9) }
    }

    #[inline(always)]
    fn text(&mut self, len: usize) -> usize {
        if len <= 254 { len + 2 } else { self.long(len, 5) }
    }

    #[inline(never)]
    fn long(&mut self, len: usize, header: usize) -> usize {
        self.failed |= len > LONGEST;
        len + header
    }

    #[inline(always)]
    fn value(&mut self, value: &Value) -> usize {
        match value {
            Null | Bool(_) | Uint(0) | Ulong(0) => 1,
            Ubyte(_) | Uint(1..=255) | Ulong(1..=255) | Int(-128..=127) => 2,
            Uint(_) | Int(_) => 5,
            Ulong(_) => 9,
            Uuid(_) => 17,
            Binary(v) => self.text(v.len()),
            Text(v) | Symbol(v) => self.text(v.len()),
            List(v) => self.list(&v.0),
            Map(v) => self.map(&v.0),
            Array(v) => self.array(&v.0),
            Described(v) => self.described(v),
        }
    }

    #[inline(never)]
    fn list(&mut self, items: &[Value]) -> usize {
        let len = items.iter().rev().fold(0, |len, item| len + self.value(item));
        if items.is_empty() { 1 } else { self.body(len) }
    }

    #[inline(never)]
    fn map(&mut self, pairs: &[(Value, Value)]) -> usize {
        let len = pairs.iter().rev().fold(0, |len, (key, item)| len + self.value(item) + self.value(key));
        self.body(len)
    }

    /// An array of uints; the others are not among the shapes.
    fn array(&mut self, items: &[Value]) -> usize {
        self.failed |= !items.iter().all(|item| matches!(item, Uint(_)));
        let len = 1 + 4 * items.len();
        if len <= 254 { len + 3 } else { self.long(len, 9) }
    }

    #[inline(never)]
    fn described(&mut self, v: &(u64, Value)) -> usize {
        1 + self.value(&v.1) + self.value(&Ulong(v.0))
    }
}

pub fn size(value: &Value) -> Result<usize> {
    let mut notes = Notes::<false>::default();
    let len = notes.value(value);
    if notes.failed { Err(Invalid) } else { Ok(len) }
}

pub fn to_vec(value: &Value) -> Result<Vec<u8>> {
    let mut notes = Notes::<true>::default();
    let len = notes.value(value);
    if notes.failed {
        return Err(Invalid);
    }
    let mut writer = Writer { bodies: notes.bodies, out: Vec::with_capacity(len), failed: false };
    writer.value(value);
    if writer.failed { Err(Invalid) } else { Ok(writer.out) }
}

struct Writer {
    bodies: Vec<usize>,
    out: Vec<u8>,
    failed: bool,
}

impl Writer {
    #[inline(always)]
    fn put<const N: usize>(&mut self, bytes: [u8; N]) {
        self.out.extend_from_slice(&bytes);
    }

    #[inline(always)]
    fn wide<const N: usize>(&mut self, code: u8, payload: [u8; N]) {
        self.out.push(code);
        self.put(payload);
    }

    #[inline(always)]
    fn text(&mut self, short: u8, bytes: &[u8]) {
        match bytes.len() {
            len @ ..=254 => self.put([short, len as u8]),
            len => self.wide(short + 16, (len as u32).to_be_bytes()),
        }
        self.out.extend_from_slice(bytes);
    }

    #[inline(always)]
    fn start(&mut self, short: u8, len: usize, count: usize) {
        if len <= 254 {
            self.put([short, len as u8 + 1, count as u8]);
        } else {
            self.wide(short + 16, (len as u32 + 4).to_be_bytes());
            self.put((count as u32).to_be_bytes());
        }
    }

    #[inline(always)]
    fn value(&mut self, value: &Value) {
        match value {
            Null => self.put([0x40]),
            Bool(v) => self.put([if *v { 0x41 } else { 0x42 }]),
            Ubyte(v) => self.put([0x50, *v]),
            Uint(0) => self.put([0x43]),
            Uint(v @ 1..=255) => self.put([0x52, *v as u8]),
            Uint(v) => self.wide(0x70, v.to_be_bytes()),
            Ulong(0) => self.put([0x44]),
            Ulong(v @ 1..=255) => self.put([0x53, *v as u8]),
            Ulong(v) => self.wide(0x80, v.to_be_bytes()),
            Int(v @ -128..=127) => self.put([0x54, *v as u8]),
            Int(v) => self.wide(0x71, v.to_be_bytes()),
            Uuid(v) => self.wide(0x98, *v),
            Binary(v) => self.text(0xa0, v),
            Text(v) => self.text(0xa1, v.as_bytes()),
            Symbol(v) => self.text(0xa3, v.as_bytes()),
            List(v) => self.list(&v.0),
            Map(v) => self.map(&v.0),
            Array(v) => self.array(&v.0),
            Described(v) => self.described(v),
        }
    }

    #[inline(never)]
    fn list(&mut self, items: &[Value]) {
        if items.is_empty() {
            return self.put([0x45]);
        }
        let len = self.bodies.pop().unwrap_or_default();
        self.start(0xc0, len, items.len());
        let start = self.out.len();
        items.iter().for_each(|item| self.value(item));
        self.failed |= self.out.len() - start != len;
    }

    #[inline(never)]
    fn map(&mut self, pairs: &[(Value, Value)]) {
        let len = self.bodies.pop().unwrap_or_default();
        self.start(0xc1, len, 2 * pairs.len());
        let start = self.out.len();
        for (key, item) in pairs {
            self.value(key);
            self.value(item);
        }
        self.failed |= self.out.len() - start != len;
    }

    fn array(&mut self, items: &[Value]) {
        self.start(0xe0, 1 + 4 * items.len(), items.len());
        self.out.push(0x70);
        for item in items {
            match item {
                Uint(v) => self.put(v.to_be_bytes()),
                _ => self.failed = true,
            }
        }
    }

    #[inline(never)]
    fn described(&mut self, v: &(u64, Value)) {
        self.out.push(0x00);
        self.value(&Ulong(v.0));
        self.value(&v.1);
    }
}
