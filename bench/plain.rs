//! Encoders in plain Rust, for comparison: over traits like serde's, for the kinds that the bench has.
//!
//! `Sizer` counts; with a table it is the first walk of `table`, whose second walk is `Writer`: one reservation, and
//! each header written once.
//! Arrays are a newtype with a marker name, as in serde's AMQP crates, so each walk knows where a value stands.

#[derive(Debug)]
pub enum Error {
    TooLong,
    Invalid,
}

pub trait Serialize {
    fn serialize<S: Serializer>(&self, serializer: S) -> Result<S::Ok, Error>;
}

pub trait Serializer: Sized {
    type Ok;
    type Seq: SerializeSeq<Ok = Self::Ok>;
    fn serialize_bool(self, v: bool) -> Result<Self::Ok, Error>;
    fn serialize_u8(self, v: u8) -> Result<Self::Ok, Error>;
    fn serialize_u32(self, v: u32) -> Result<Self::Ok, Error>;
    fn serialize_u64(self, v: u64) -> Result<Self::Ok, Error>;
    fn serialize_i32(self, v: i32) -> Result<Self::Ok, Error>;
    fn serialize_none(self) -> Result<Self::Ok, Error>;
    fn serialize_some<T: Serialize>(self, v: &T) -> Result<Self::Ok, Error>;
    fn serialize_str(self, v: &str) -> Result<Self::Ok, Error>;
    fn serialize_bytes(self, v: &[u8]) -> Result<Self::Ok, Error>;
    fn serialize_symbol(self, v: &str) -> Result<Self::Ok, Error>;
    /// A scalar of a fixed width, with its only code.
    fn serialize_fixed<const N: usize>(self, code: u8, v: [u8; N]) -> Result<Self::Ok, Error>;
    fn serialize_seq(self, len: Option<usize>) -> Result<Self::Seq, Error>;
    /// A map, whose keys and values are elements by turns.
    fn serialize_map(self) -> Result<Self::Seq, Error>;
    fn serialize_struct(self, name: &'static str, len: usize) -> Result<Fields<Self::Seq>, Error> {
        let described = name == "__DESCRIBED_BASIC" || name == "__DESCRIBED_LIST" || name == "__DESCRIBED_MAP";
        Ok(Fields { seq: self.serialize_seq(Some(len))?, described })
    }
    fn serialize_newtype_struct<T: Serialize>(self, name: &'static str, v: &T) -> Result<Self::Ok, Error>;
    /// A value after a descriptor, a ulong.
    fn serialize_described<T: Serialize>(self, code: u64, v: &T) -> Result<Self::Ok, Error>;
}

pub trait SerializeSeq {
    type Ok;
    fn serialize_element<T: Serialize>(&mut self, v: &T) -> Result<(), Error>;
    fn end(self) -> Result<Self::Ok, Error>;
}

/// The fields of a struct: a list. The names are looked at, since a described value has a name of its own.
pub struct Fields<Q> {
    seq: Q,
    described: bool,
}

impl<Q: SerializeSeq> Fields<Q> {
    pub fn serialize_field<T: Serialize>(&mut self, key: &'static str, v: &T) -> Result<(), Error> {
        if self.described || key == "__DESCRIPTOR" {
            return Err(Error::Invalid);
        }
        self.seq.serialize_element(v)
    }

    pub fn end(self) -> Result<Q::Ok, Error> {
        self.seq.end()
    }
}

const LONGEST: usize = 4294967291;
const MOST: usize = 4294967295;
const ARRAY: &str = "__ARRAY";

/// Where a value stands: by itself, under the marker of arrays, or as an element of an array.
#[derive(Clone, Copy)]
enum Place {
    Ordinary,
    Marked,
    First,
    Element(u8),
}

impl Place {
    fn in_array(self) -> bool {
        matches!(self, Place::First | Place::Element(_))
    }
}

fn text_len(n: usize) -> usize {
    if n <= 254 { n + 2 } else { n + 5 }
}

fn map_len(n: usize) -> usize {
    if n <= 254 { n + 3 } else { n + 9 }
}

fn list_len(n: usize) -> usize {
    if n == 0 { 1 } else { map_len(n) }
}

fn array_len(n: usize, count: usize) -> usize {
    if n <= 254 && count <= 255 { n + 3 } else { n + 9 }
}

// ---------------------------------------------------------------- the first walk, and the size alone

#[derive(Clone, Copy)]
struct Header {
    len: u32,
    count: u32,
    code: u8,
}

pub struct Sizer<const TABLE: bool> {
    table: Vec<Header>,
    place: Place,
}

impl<const TABLE: bool> Sizer<TABLE> {
    fn new() -> Self {
        Sizer { table: Vec::new(), place: Place::Ordinary }
    }

    fn answer(&mut self, code: u8, whole: usize, payload: usize) -> Result<usize, Error> {
        match self.place {
            Place::Ordinary => Ok(whole),
            Place::First => {
                self.place = Place::Element(code);
                Ok(payload)
            }
            Place::Element(c) if c == code => Ok(payload),
            _ => Err(Error::Invalid),
        }
    }

    fn text(&mut self, code: u8, n: usize) -> Result<usize, Error> {
        if n > LONGEST {
            return Err(Error::TooLong);
        }
        self.answer(code, text_len(n), n + 4)
    }

    #[inline(always)]
    fn open(&mut self, is_map: bool) -> Sizing<'_, TABLE> {
        let outer = self.place;
        let slot = self.table.len();
        if TABLE {
            self.table.push(Header { len: 0, count: 0, code: 0 });
        }
        let inner = if matches!(outer, Place::Marked) { Place::First } else { Place::Ordinary };
        Sizing { sizer: self, outer, inner, is_map, slot, sum: 0, count: 0 }
    }
}

pub struct Sizing<'a, const TABLE: bool> {
    sizer: &'a mut Sizer<TABLE>,
    outer: Place,
    inner: Place,
    is_map: bool,
    slot: usize,
    sum: usize,
    count: usize,
}

impl<'a, const TABLE: bool> Serializer for &'a mut Sizer<TABLE> {
    type Ok = usize;
    type Seq = Sizing<'a, TABLE>;

    fn serialize_bool(self, _v: bool) -> Result<usize, Error> {
        self.answer(0x56, 1, 1)
    }
    fn serialize_u8(self, _v: u8) -> Result<usize, Error> {
        self.answer(0x50, 2, 1)
    }
    fn serialize_u32(self, v: u32) -> Result<usize, Error> {
        self.answer(0x70, if v == 0 { 1 } else if v < 256 { 2 } else { 5 }, 4)
    }
    fn serialize_u64(self, v: u64) -> Result<usize, Error> {
        self.answer(0x80, if v == 0 { 1 } else if v < 256 { 2 } else { 9 }, 8)
    }
    fn serialize_i32(self, v: i32) -> Result<usize, Error> {
        self.answer(0x71, if (-128..128).contains(&v) { 2 } else { 5 }, 4)
    }
    fn serialize_none(self) -> Result<usize, Error> {
        self.answer(0x40, 1, 0)
    }
    fn serialize_some<T: Serialize>(self, v: &T) -> Result<usize, Error> {
        v.serialize(self)
    }
    fn serialize_str(self, v: &str) -> Result<usize, Error> {
        self.text(0xb1, v.len())
    }
    fn serialize_bytes(self, v: &[u8]) -> Result<usize, Error> {
        self.text(0xb0, v.len())
    }
    fn serialize_symbol(self, v: &str) -> Result<usize, Error> {
        self.text(0xb3, v.len())
    }
    fn serialize_fixed<const N: usize>(self, code: u8, _v: [u8; N]) -> Result<usize, Error> {
        self.answer(code, N + 1, N)
    }
    fn serialize_seq(self, _len: Option<usize>) -> Result<Sizing<'a, TABLE>, Error> {
        Ok(self.open(false))
    }
    fn serialize_map(self) -> Result<Sizing<'a, TABLE>, Error> {
        Ok(self.open(true))
    }
    fn serialize_newtype_struct<T: Serialize>(self, name: &'static str, v: &T) -> Result<usize, Error> {
        if name == ARRAY {
            self.place = Place::Marked;
        }
        v.serialize(self)
    }
    fn serialize_described<T: Serialize>(self, code: u64, v: &T) -> Result<usize, Error> {
        if !matches!(self.place, Place::Ordinary) {
            return Err(Error::Invalid);
        }
        let before = 1 + self.serialize_u64(code)?;
        Ok(before + v.serialize(self)?)
    }
}

impl<const TABLE: bool> SerializeSeq for Sizing<'_, TABLE> {
    type Ok = usize;

    fn serialize_element<T: Serialize>(&mut self, v: &T) -> Result<(), Error> {
        self.sizer.place = self.inner;
        let n = v.serialize(&mut *self.sizer)?;
        self.inner = self.sizer.place;
        if n > LONGEST - 1 - self.sum || self.count == MOST {
            return Err(Error::TooLong);
        }
        self.sum += n;
        self.count += 1;
        Ok(())
    }

    fn end(self) -> Result<usize, Error> {
        let code = if let Place::Element(c) = self.inner { c } else { 0 };
        let content = self.sum + (code != 0) as usize;
        if TABLE {
            self.sizer.table[self.slot] = Header { len: content as u32, count: self.count as u32, code };
        }
        if matches!(self.outer, Place::Marked) {
            self.sizer.place = Place::Ordinary;
            self.sizer.answer(0xf0, array_len(content, self.count), content + 8)
        } else {
            self.sizer.place = self.outer;
            let (code, whole) = if self.is_map { (0xd1, map_len(content)) } else { (0xd0, list_len(content)) };
            self.sizer.answer(code, whole, content + 8)
        }
    }
}

// ---------------------------------------------------------------- the second walk

pub struct Writer {
    table: Vec<Header>,
    next: usize,
    out: Vec<u8>,
    place: Place,
}

impl Writer {
    fn put<const N: usize>(&mut self, whole: &[u8], code: u8, payload: [u8; N]) -> Result<(), Error> {
        if self.place.in_array() {
            self.out.extend_from_slice(&payload);
        } else if !whole.is_empty() {
            self.out.extend_from_slice(whole);
        } else {
            self.out.push(code);
            self.out.extend_from_slice(&payload);
        }
        Ok(())
    }

    #[inline(always)]
    fn open(&mut self, short: u8) -> Writing<'_> {
        let outer = self.place;
        let header = self.table[self.next];
        self.next += 1;
        let inner = if let Place::Marked = outer {
            head(&mut self.out, 0xe0, header.count <= 255, false, header);
            if header.code != 0 {
                self.out.push(header.code);
            }
            Place::Element(header.code)
        } else {
            head(&mut self.out, short, true, outer.in_array(), header);
            Place::Ordinary
        };
        Writing { writer: self, outer, inner }
    }

    fn text(&mut self, short: u8, v: &[u8]) -> Result<(), Error> {
        let n = v.len() as u32;
        if self.place.in_array() {
            self.out.extend_from_slice(&n.to_be_bytes());
        } else if n <= 254 {
            self.out.extend_from_slice(&[short, n as u8]);
        } else {
            let [a, b, c, d] = n.to_be_bytes();
            self.out.extend_from_slice(&[short + 16, a, b, c, d]);
        }
        self.out.extend_from_slice(v);
        Ok(())
    }
}

fn head(out: &mut Vec<u8>, short: u8, small: bool, in_array: bool, header: Header) {
    let [a, b, c, d] = (header.len + 4).to_be_bytes();
    let [e, f, g, h] = header.count.to_be_bytes();
    if in_array {
        out.extend_from_slice(&[a, b, c, d, e, f, g, h]);
    } else if short == 0xc0 && header.len == 0 {
        out.push(0x45);
    } else if header.len <= 254 && small {
        out.extend_from_slice(&[short, (header.len + 1) as u8, h]);
    } else {
        out.extend_from_slice(&[short + 16, a, b, c, d, e, f, g, h]);
    }
}

pub struct Writing<'a> {
    writer: &'a mut Writer,
    outer: Place,
    inner: Place,
}

impl<'a> Serializer for &'a mut Writer {
    type Ok = ();
    type Seq = Writing<'a>;

    fn serialize_bool(self, v: bool) -> Result<(), Error> {
        self.put(&[if v { 0x41 } else { 0x42 }], 0x56, [v as u8])
    }
    fn serialize_u8(self, v: u8) -> Result<(), Error> {
        self.put(&[0x50, v], 0x50, [v])
    }
    fn serialize_u32(self, v: u32) -> Result<(), Error> {
        match v {
            0 => self.put(&[0x43], 0x70, v.to_be_bytes()),
            1..=255 => self.put(&[0x52, v as u8], 0x70, v.to_be_bytes()),
            _ => self.put(&[], 0x70, v.to_be_bytes()),
        }
    }
    fn serialize_u64(self, v: u64) -> Result<(), Error> {
        match v {
            0 => self.put(&[0x44], 0x80, v.to_be_bytes()),
            1..=255 => self.put(&[0x53, v as u8], 0x80, v.to_be_bytes()),
            _ => self.put(&[], 0x80, v.to_be_bytes()),
        }
    }
    fn serialize_i32(self, v: i32) -> Result<(), Error> {
        match v {
            -128..=127 => self.put(&[0x54, v as u8], 0x71, v.to_be_bytes()),
            _ => self.put(&[], 0x71, v.to_be_bytes()),
        }
    }
    fn serialize_none(self) -> Result<(), Error> {
        self.put(&[0x40], 0x40, [])
    }
    fn serialize_some<T: Serialize>(self, v: &T) -> Result<(), Error> {
        v.serialize(self)
    }
    fn serialize_str(self, v: &str) -> Result<(), Error> {
        self.text(0xa1, v.as_bytes())
    }
    fn serialize_bytes(self, v: &[u8]) -> Result<(), Error> {
        self.text(0xa0, v)
    }
    fn serialize_symbol(self, v: &str) -> Result<(), Error> {
        self.text(0xa3, v.as_bytes())
    }
    fn serialize_fixed<const N: usize>(self, code: u8, v: [u8; N]) -> Result<(), Error> {
        self.put(&[], code, v)
    }
    fn serialize_seq(self, _len: Option<usize>) -> Result<Writing<'a>, Error> {
        Ok(self.open(0xc0))
    }
    fn serialize_map(self) -> Result<Writing<'a>, Error> {
        Ok(self.open(0xc1))
    }
    fn serialize_newtype_struct<T: Serialize>(self, name: &'static str, v: &T) -> Result<(), Error> {
        if name == ARRAY {
            self.place = Place::Marked;
        }
        v.serialize(self)
    }
    fn serialize_described<T: Serialize>(self, code: u64, v: &T) -> Result<(), Error> {
        self.out.push(0x00);
        self.serialize_u64(code)?;
        v.serialize(self)
    }
}

impl SerializeSeq for Writing<'_> {
    type Ok = ();

    fn serialize_element<T: Serialize>(&mut self, v: &T) -> Result<(), Error> {
        self.writer.place = self.inner;
        v.serialize(&mut *self.writer)
    }

    fn end(self) -> Result<(), Error> {
        self.writer.place = if let Place::Marked = self.outer { Place::Ordinary } else { self.outer };
        Ok(())
    }
}

pub fn size<T: Serialize>(v: &T) -> Result<usize, Error> {
    v.serialize(&mut Sizer::<false>::new())
}

/// Two walks, one reservation for the bytes, and the table's growths.
pub fn table<T: Serialize>(v: &T) -> Result<Vec<u8>, Error> {
    let mut sizer = Sizer::<true>::new();
    let n = v.serialize(&mut sizer)?;
    let mut writer = Writer { table: sizer.table, next: 0, out: Vec::with_capacity(n), place: Place::Ordinary };
    v.serialize(&mut writer)?;
    Ok(writer.out)
}

// ---------------------------------------------------------------- the values

impl Serialize for bool {
    fn serialize<S: Serializer>(&self, serializer: S) -> Result<S::Ok, Error> {
        serializer.serialize_bool(*self)
    }
}

impl Serialize for u8 {
    fn serialize<S: Serializer>(&self, serializer: S) -> Result<S::Ok, Error> {
        serializer.serialize_u8(*self)
    }
}

impl Serialize for u32 {
    fn serialize<S: Serializer>(&self, serializer: S) -> Result<S::Ok, Error> {
        serializer.serialize_u32(*self)
    }
}

impl Serialize for u64 {
    fn serialize<S: Serializer>(&self, serializer: S) -> Result<S::Ok, Error> {
        serializer.serialize_u64(*self)
    }
}

impl Serialize for i32 {
    fn serialize<S: Serializer>(&self, serializer: S) -> Result<S::Ok, Error> {
        serializer.serialize_i32(*self)
    }
}

impl Serialize for String {
    fn serialize<S: Serializer>(&self, serializer: S) -> Result<S::Ok, Error> {
        serializer.serialize_str(self)
    }
}

impl<T: Serialize> Serialize for Option<T> {
    fn serialize<S: Serializer>(&self, serializer: S) -> Result<S::Ok, Error> {
        match self {
            Some(v) => serializer.serialize_some(v),
            None => serializer.serialize_none(),
        }
    }
}

impl<T: Serialize> Serialize for Vec<T> {
    fn serialize<S: Serializer>(&self, serializer: S) -> Result<S::Ok, Error> {
        let mut seq = serializer.serialize_seq(Some(self.len()))?;
        for v in self {
            seq.serialize_element(v)?;
        }
        seq.end()
    }
}

/// A binary.
pub struct Blob(pub Vec<u8>);

impl Serialize for Blob {
    fn serialize<S: Serializer>(&self, serializer: S) -> Result<S::Ok, Error> {
        serializer.serialize_bytes(&self.0)
    }
}

/// An array.
pub struct Array<T>(pub Vec<T>);

impl<T: Serialize> Serialize for Array<T> {
    fn serialize<S: Serializer>(&self, serializer: S) -> Result<S::Ok, Error> {
        serializer.serialize_newtype_struct(ARRAY, &self.0)
    }
}
