//! Runs the encoders on the shapes: `plain.rs`, `values.rs` and the project, which is linked as one static library.
//!
//!     driver list                          each contender, shape and operation that answers, with the answer of one run
//!     driver run WHO SHAPE OP TIMES        one call, to be counted from outside
//!     driver maps KIND COUNT OP TIMES      maps read by the project, to be counted from outside
//!     driver reads                         each type that is read from bytes: WHO is `hand`, `project` or `walked`, and the bytes' length
//!     driver reads WHO INDEX TIMES         the type with this index, to be counted from outside
//!     driver frames                        each frame and message of the standard: the bytes' length
//!     driver frames WHO INDEX OP TIMES     it is written (0) or read (1), to be counted from outside
//!     driver keep SEED ROUNDS              the digest of the job `keep`, to be counted from outside
//!     driver count WHO SHAPE OP            allocations and bytes asked for by one run (where built with --cfg count)
//!     driver time [OP]                     the least ns of one run, of that operation alone
//!     driver time frames                   the least ns of writing and reading frames and messages by both
//!     driver time reads                    the least ns of reading each type by the project and by Qpid Proton
//!
//! Operations: 0 the size, 1 the bytes in a fresh vector, 2 the hash (FNV-1a) of the bytes, 3 an untyped value,
//! 4 the text of an untyped value that stands ready, in a fresh string, 5 an untyped value read from the bytes, 6 as 3,
//! and the value read out of it, 7 to 9 as 0 to 2 of an untyped value that stands ready, 10 the bytes by an encoder that is
//! kept. Where built with --cfg proton, Qpid Proton writes the bytes from its tree, which it builds, and reads them: `proton` into
//! its tree, `walked` visits that tree. Where built with --cfg peers, rmp-serde and prost write some shapes in their formats.

mod frames;
mod parts;
mod plain;
mod values;

use plain::{Array, Blob, Error, Serialize, Serializer};
use std::collections::BTreeMap;
use std::hint::black_box;
use values::typed::{self, Typed};
use values::{Parts, Value};

/// Where the library's value of a shape comes from: a rule of its own, data that it is handed, or bytes that it reads as a type,
/// or as a frame or a message. The last two are only written here.
#[derive(Clone, Copy)]
enum Source {
    Rule(u32),
    Data(u32),
    Type(u32),
    Frame(usize),
}

use Source::{Data, Frame, Rule, Type};

const SHAPES: [(&str, Source); 22] = [
    ("14 fields", Rule(0)),
    ("14 fields, described", Rule(7)),
    ("7 fields, one by one", Rule(8)),
    ("7 fields, described, one by one", Rule(9)),
    ("1,000 ints", Rule(1)),
    ("1,000 rows of 10", Rule(2)),
    ("chain of 256", Rule(3)),
    ("blob of 64 KiB", Rule(4)),
    ("1,000 strings", Data(0)),
    ("array of 10,000", Data(1)),
    ("map of 1,000 keys", Rule(5)),
    ("map of 10,000 keys", Rule(6)),
    ("message", Rule(10)),
    ("header", Type(0)),
    ("properties", Type(1)),
    ("12 application properties", Type(2)),
    ("map of 12 text keys", Type(3)),
    ("map of 1,000 keys, ordered", Type(4)),
    ("open", Frame(0)),
    ("transfer", Frame(1)),
    ("message of 6 sections", Frame(2)),
    ("the same, lazy", Frame(3)),
];

/// How many operations there are, and how many of them begin with a type.
const OPERATIONS: u32 = 11;
const TYPED: u32 = 7;

/// The work of the library whose value is the untyped one that the data encodes.
const UNTYPED: u32 = 2;

/// The operation that writes by an encoder that is kept.
const KEPT: u32 = 10;

/// The operations that answer with a hash: it is compared and not measured.
const HASHES: [u32; 2] = [2, 9];

/// The operation that writes bytes into a fresh vector, and the one that reads an untyped value from bytes.
const WRITTEN: u32 = 1;
const READ: u32 = 5;

#[derive(Clone, Copy, PartialEq)]
enum Who {
    Table,
    Values,
    Project,
    Proton,
    Walked,
    Rmp,
    Prost,
}

const WHO: [(&str, Who); 7] = [
    ("table", Who::Table),
    ("values", Who::Values),
    ("project", Who::Project),
    ("proton", Who::Proton),
    ("walked", Who::Walked),
    ("rmp-serde", Who::Rmp),
    ("prost", Who::Prost),
];

unsafe extern "C" {
    fn amqp_shape(shape: u32, op: u32, times: u64) -> u64;
    fn amqp_bench(work: u32, op: u32, data: *const u8, len: usize, times: u64) -> u64;
    fn amqp_maps(kind: u32, count: u32, op: u32, times: u64) -> u64;
    fn amqp_read(kind: u32, data: *const u8, len: usize, times: u64) -> u64;
    fn amqp_write(kind: u32, op: u32, data: *const u8, len: usize, times: u64) -> u64;
    fn amqp_keep(seed: u64, rounds: u64) -> u64;
}

/// What is read from bytes as a type: the number of the type in the library, and how many entries a map has.
const READS: [(&str, u32, u32); 16] = [
    ("14 fields", 0, 0),
    ("1,000 ints", 1, 0),
    ("1,000 rows of 10", 2, 0),
    ("1,000 strings", 3, 0),
    ("array of 10,000", 4, 0),
    ("map of 1,000 keys, `BTreeMap`", 5, 1000),
    ("header, 5 fields", 6, 0),
    ("properties, 13 fields", 7, 0),
    ("12 text keys, six kinds of values", 8, 0),
    ("1 text key", 9, 1),
    ("4 text keys", 9, 4),
    ("8 text keys", 9, 8),
    ("12 text keys", 9, 12),
    ("16 text keys", 9, 16),
    ("32 text keys", 9, 32),
    ("96 text keys", 9, 96),
];

struct Attach {
    name: String,
    handle: u32,
    role: bool,
    sender_settles: Option<u8>,
    receiver_settles: Option<u8>,
    source: Option<String>,
    target: Option<String>,
    unsettled: Option<u32>,
    incomplete: bool,
    delivery_count: u32,
    longest_message: u64,
    offered: Option<String>,
    desired: Option<String>,
    properties: Option<u32>,
}

impl Serialize for Attach {
    fn serialize<S: Serializer>(&self, serializer: S) -> Result<S::Ok, Error> {
        let mut fields = serializer.serialize_struct("Attach", 14)?;
        fields.serialize_field("name", &self.name)?;
        fields.serialize_field("handle", &self.handle)?;
        fields.serialize_field("role", &self.role)?;
        fields.serialize_field("snd-settle-mode", &self.sender_settles)?;
        fields.serialize_field("rcv-settle-mode", &self.receiver_settles)?;
        fields.serialize_field("source", &self.source)?;
        fields.serialize_field("target", &self.target)?;
        fields.serialize_field("unsettled", &self.unsettled)?;
        fields.serialize_field("incomplete-unsettled", &self.incomplete)?;
        fields.serialize_field("initial-delivery-count", &self.delivery_count)?;
        fields.serialize_field("max-message-size", &self.longest_message)?;
        fields.serialize_field("offered-capabilities", &self.offered)?;
        fields.serialize_field("desired-capabilities", &self.desired)?;
        fields.serialize_field("properties", &self.properties)?;
        fields.end()
    }
}

/// The first seven of the fields.
struct Front(Attach);

impl Serialize for Front {
    fn serialize<S: Serializer>(&self, serializer: S) -> Result<S::Ok, Error> {
        let mut fields = serializer.serialize_struct("Attach", 7)?;
        fields.serialize_field("name", &self.0.name)?;
        fields.serialize_field("handle", &self.0.handle)?;
        fields.serialize_field("role", &self.0.role)?;
        fields.serialize_field("snd-settle-mode", &self.0.sender_settles)?;
        fields.serialize_field("rcv-settle-mode", &self.0.receiver_settles)?;
        fields.serialize_field("source", &self.0.source)?;
        fields.serialize_field("target", &self.0.target)?;
        fields.end()
    }
}

/// A value under a descriptor.
struct Described<T>(u64, T);

impl<T: Serialize> Serialize for Described<T> {
    fn serialize<S: Serializer>(&self, serializer: S) -> Result<S::Ok, Error> {
        serializer.serialize_described(self.0, &self.1)
    }
}

enum Chain {
    End,
    Link(Box<Chain>),
}

impl Serialize for Chain {
    fn serialize<S: Serializer>(&self, serializer: S) -> Result<S::Ok, Error> {
        use plain::SerializeSeq;
        match self {
            Chain::End => serializer.serialize_seq(None)?.end(),
            Chain::Link(next) => {
                let mut seq = serializer.serialize_seq(None)?;
                seq.serialize_element(&**next)?;
                seq.end()
            }
        }
    }
}

fn attach() -> Attach {
    Attach {
        name: "sender-7f3a9c21-queue-orders".into(),
        handle: 3,
        role: false,
        sender_settles: Some(2),
        receiver_settles: None,
        source: Some("client/orders/outgoing".into()),
        target: Some("broker/queues/orders/incoming".into()),
        unsettled: None,
        incomplete: false,
        delivery_count: 70000,
        longest_message: 1048576,
        offered: Some("DELAYED_DELIVERY".into()),
        desired: None,
        properties: None,
    }
}

fn ints(first: i32, count: i32) -> Vec<i32> {
    (0..count).map(|i| (first + i) % 500 - 200).collect()
}

/// The lines of work 0 and the bytes of work 1.
fn data(work: u32) -> Vec<u8> {
    match work {
        0 => {
            let words: Vec<String> = (0..1000).map(|i| format!("{}{}", &"a short string"[..i * 7 % 15], i)).collect();
            words.join("\n").into_bytes()
        }
        _ => (0..10000u32).flat_map(|i| (i * 2654435 % 1000003).to_be_bytes()).collect(),
    }
}

fn lines() -> Vec<String> {
    String::from_utf8(data(0)).unwrap().split('\n').map(String::from).collect()
}

fn numbers() -> Vec<u32> {
    data(1).chunks(4).map(|four| u32::from_be_bytes(four.try_into().unwrap())).collect()
}

fn hash(bytes: &[u8]) -> u64 {
    bytes.iter().fold(0xcbf29ce484222325, |h, b| (h ^ *b as u64).wrapping_mul(0x100000001b3))
}

/// The message: its header, its properties and the properties of the application.
fn message() -> Value {
    use Value::*;
    let text = |text: &str| Text(text.into());
    let header = vec![Bool(true), Ubyte(4), Uint(30000), Null, Uint(2)];
    let properties = vec![
        Ulong(81985529216486895),
        Binary(vec![0x5a; 8]),
        text("orders/eu-west/incoming"),
        text("order.created"),
        text("replies/7f3a9c21"),
        Null,
        Symbol("application/json".into()),
    ];
    let section = |code, value| Described(Box::new((code, value)));
    List(Parts(vec![
        section(0x70, List(Parts(header))),
        section(0x73, List(Parts(properties))),
        section(0x74, application()),
    ]))
}

/// The properties of the application: values of six kinds.
fn application() -> Value {
    use Value::*;
    let entry = |index| {
        let value = match index % 6 {
            0 => Text("eu-west-1".into()),
            1 => Int(70000),
            2 => Bool(index == 2),
            3 => Ulong(1048576),
            4 => Symbol("priority-high".into()),
            _ => Uuid([0x5a; 16]),
        };
        (Text(format!("property-{index}")), value)
    };
    Map(Parts((0..12).map(entry).collect()))
}

/// The bytes of a list of fields after a descriptor.
fn section(descriptor: u8, fields: &[Vec<u8>]) -> Vec<u8> {
    let body = fields.concat();
    let head = [0, 0x53, descriptor, 0xc0, body.len() as u8 + 1, fields.len() as u8];
    [&head[..], &body].concat()
}

/// The bytes of a binary, a string or a symbol.
fn sized(code: u8, bytes: &[u8]) -> Vec<u8> {
    [&[code, bytes.len() as u8], bytes].concat()
}

/// The header (AMQP 1.0 part 3, section 3.2.1).
fn header() -> Vec<u8> {
    section(0x70, &[b"\x41".into(), b"\x50\x04".into(), b"\x70\x01\x00\x89\x79".into(), b"\x40".into(), b"\x52\x01".into()])
}

/// The properties (AMQP 1.0 part 3, section 3.2.4).
fn properties() -> Vec<u8> {
    let at = |milliseconds: i64| [&[0x83], &milliseconds.to_be_bytes()[..]].concat();
    let (string, symbol) = (|text: &str| sized(0xa1, text.as_bytes()), |text: &str| sized(0xa3, text.as_bytes()));
    section(
        0x73,
        &[
            [&[0x98], &[0x5a; 16][..]].concat(),
            sized(0xa0, &[0xa5; 8]),
            string("orders/eu-west/incoming"),
            string("order.created"),
            string("replies/7f3a9c21"),
            [&[0x80], &81985529216486895u64.to_be_bytes()[..]].concat(),
            symbol("application/json"),
            b"\x40".into(),
            at(1_800_000_000_000),
            at(1_700_000_000_123),
            string("orders-of-today"),
            b"\x70\x01\x00\x89\x79".into(),
        ],
    )
}

/// A map from texts, which do not ascend, to numbers.
fn texts(count: u32) -> Value {
    let entry = |number: u32| (Value::Text(format!("property-{}", number * 37 % 101)), Value::Uint(number));
    Value::Map(Parts((0..count).map(entry).collect()))
}

fn written(value: Value) -> Vec<u8> {
    values::bytes::to_vec(&value).unwrap()
}

/// The bytes that the library reads as the type that it writes.
fn type_bytes(kind: u32) -> Vec<u8> {
    match kind {
        0 => header(),
        1 => properties(),
        2 => written(Value::Described(Box::new((0x74, application())))),
        3 => written(texts(12)),
        _ => written(numbered(1000)),
    }
}

fn read_back<T: Typed>(bytes: &[u8]) -> T {
    typed::from_slice(bytes).unwrap()
}

/// The bytes that are read as the type with this index.
fn read_bytes(index: usize) -> Vec<u8> {
    let plain = match READS[index] {
        (_, 0, _) => plain::table(&attach()),
        (_, 1, _) => plain::table(&ints(0, 1000)),
        (_, 2, _) => plain::table(&(0..1000).map(|i| ints(i, 10)).collect::<Vec<_>>()),
        (_, 3, _) => plain::table(&lines()),
        (_, 4, _) => plain::table(&Array(numbers())),
        (_, 5, count) => return written(numbered(count)),
        (_, 6, _) => return header(),
        (_, 7, _) => return properties(),
        (_, 8, _) => return written(application()),
        (_, _, count) => return written(texts(count)),
    };
    plain.unwrap()
}

/// Reads a type by hand.
#[inline(never)]
fn read_by_hand<T: Typed>(bytes: &[u8]) -> u64 {
    u64::from(black_box(typed::from_slice::<T>(black_box(bytes))).is_ok())
}

/// How many values of a type are read.
fn reads(who: &str, index: usize, times: u64) -> u64 {
    let bytes = read_bytes(index);
    let kind = READS[index].1;
    if who == "project" {
        return unsafe { amqp_read(kind, bytes.as_ptr(), bytes.len(), times) };
    }
    if who == "walked" {
        return (0..times).map(|_| proton::read(black_box(&bytes), true)).sum();
    }
    let read = match kind {
        0 => read_by_hand::<typed::Attach>,
        1 => read_by_hand::<Vec<i32>>,
        2 => read_by_hand::<Vec<Vec<i32>>>,
        3 => read_by_hand::<Vec<String>>,
        4 => read_by_hand::<typed::Array<u32>>,
        5 => read_by_hand::<BTreeMap<u32, u32>>,
        6 => read_by_hand::<typed::Header>,
        7 => read_by_hand::<typed::Properties>,
        8 => read_by_hand::<typed::Texts<Value>>,
        _ => read_by_hand::<typed::Texts<u32>>,
    };
    (0..times).map(|_| read(&bytes)).sum()
}

/// The map from each number below `count` to itself.
fn numbered(count: u32) -> Value {
    Value::Map(Parts(pairs(count).map(|(key, value)| (Value::Uint(key), Value::Uint(value))).collect()))
}

fn pairs(count: u32) -> impl Iterator<Item = (u32, u32)> {
    (0..count).map(|number| (number, number))
}

#[cfg(proton)]
mod proton {
    //! Reading by Qpid Proton's codec, with a fresh tree each time.
    use std::ffi::{c_char, c_void};

    /// The first kind that has nodes inside.
    pub const DESCRIBED: i32 = 22;

    /// A scalar, or the length and the place of its bytes.
    #[derive(Clone, Copy)]
    #[repr(C)]
    pub struct Atom {
        kind: i32,
        value: [u64; 2],
    }

    unsafe extern "C" {
        fn pn_data(capacity: usize) -> *mut c_void;
        fn pn_data_decode(data: *mut c_void, bytes: *const c_char, size: usize) -> isize;
        fn pn_data_free(data: *mut c_void);
        fn pn_data_rewind(data: *mut c_void);
        pub fn pn_data_clear(data: *mut c_void);
        pub fn pn_data_next(data: *mut c_void) -> bool;
        pub fn pn_data_type(data: *mut c_void) -> i32;
        pub fn pn_data_enter(data: *mut c_void) -> bool;
        pub fn pn_data_exit(data: *mut c_void) -> bool;
        pub fn pn_data_get_atom(data: *mut c_void) -> Atom;
    }

    /// Visits each node once and takes its scalar. Texts are not copied.
    pub unsafe fn walk(data: *mut c_void) -> u64 {
        let mut sum = 0u64;
        unsafe {
            while pn_data_next(data) {
                if pn_data_type(data) < DESCRIBED {
                    sum = sum.wrapping_add(pn_data_get_atom(data).value[0]);
                } else {
                    pn_data_enter(data);
                    sum = sum.wrapping_add(walk(data));
                    pn_data_exit(data);
                }
            }
        }
        sum
    }

    /// A tree, and how many bytes of those that it was decoded from were taken.
    pub struct Tree(pub *mut c_void);

    impl Tree {
        pub fn new() -> Tree {
            Tree(unsafe { pn_data(16) })
        }

        pub fn decode(bytes: &[u8]) -> (Tree, usize) {
            unsafe {
                let tree = Tree::new();
                let taken = pn_data_decode(tree.0, bytes.as_ptr().cast(), bytes.len());
                pn_data_rewind(tree.0);
                (tree, taken.max(0) as usize)
            }
        }
    }

    impl Drop for Tree {
        fn drop(&mut self) {
            unsafe { pn_data_free(self.0) }
        }
    }

    pub fn read(bytes: &[u8], is_walked: bool) -> u64 {
        let (tree, taken) = Tree::decode(bytes);
        if is_walked {
            unsafe { std::hint::black_box(walk(tree.0)) };
        }
        u64::from(taken == bytes.len())
    }
}

#[cfg(not(proton))]
mod proton {
    pub fn read(_: &[u8], _: bool) -> u64 {
        0
    }
}

fn repeat<T: Serialize>(who: Who, v: &T, op: u32, times: u64) -> u64 {
    if who != Who::Table {
        return on_bytes(who, &plain::table(v).unwrap(), op, times);
    }
    match op {
        0 => (0..times).map(|_| plain::size(black_box(v)).unwrap() as u64).sum(),
        1 => (0..times).map(|_| black_box(plain::table(black_box(v)).unwrap()).len() as u64).sum(),
        2 => hash(&plain::table(v).unwrap()),
        _ => 0,
    }
}

/// What is done with bytes, and with the untyped value that they encode.
fn on_bytes(who: Who, bytes: &[u8], op: u32, times: u64) -> u64 {
    match who {
        Who::Project => unsafe { amqp_bench(UNTYPED, op - TYPED, bytes.as_ptr(), bytes.len(), times) },
        Who::Proton if op == WRITTEN => frames::write(bytes, times),
        Who::Proton | Who::Walked if op == READ => (0..times).map(|_| proton::read(black_box(bytes), who == Who::Walked)).sum(),
        Who::Values if op == READ => (0..times).map(|_| decoded(black_box(bytes))).sum(),
        Who::Values if op == 4 || op >= TYPED => values::decode(bytes).map_or(0, |value| on_value(&value, op, times)),
        _ => 0,
    }
}

fn decoded(bytes: &[u8]) -> u64 {
    u64::from(black_box(values::decode(bytes)).is_ok())
}

fn on_value(v: &Value, op: u32, times: u64) -> u64 {
    match op {
        4 => (0..times).map(|_| black_box(black_box(v).text()).len() as u64).sum(),
        7 => (0..times).map(|_| values::bytes::size(black_box(v)).unwrap() as u64).sum(),
        8 => (0..times).map(|_| black_box(values::bytes::to_vec(black_box(v)).unwrap()).len() as u64).sum(),
        _ => hash(&values::bytes::to_vec(v).unwrap()),
    }
}

#[cfg(peers)]
fn by_peer(is_prost: bool, source: Source, times: u64) -> u64 {
    use peers::*;
    match source {
        Rule(0) => {
            let v = attach();
            let (sender_settles, receiver_settles) = (v.sender_settles.map(u32::from), v.receiver_settles.map(u32::from));
            let crate::Attach { name, handle, role, source, target, unsettled, incomplete, .. } = v;
            let crate::Attach { delivery_count, longest_message, offered, desired, properties, .. } = v;
            let v = Attach {
                name, handle, role, sender_settles, receiver_settles, source, target, unsettled, incomplete, delivery_count, longest_message,
                offered, desired, properties,
            };
            run(is_prost, &v, times)
        }
        Rule(1) => run(is_prost, &Ints(ints(0, 1000)), times),
        Rule(2) => run(is_prost, &Rows((0..1000).map(|i| Ints(ints(i, 10))).collect()), times),
        Rule(5) => run(is_prost, &Numbered(pairs(1000).collect()), times),
        Data(0) => run(is_prost, &Strings(lines()), times),
        Data(1) => run(is_prost, &Numbers(numbers()), times),
        Type(0) => {
            let typed::Header { durable, priority, ttl, first_acquirer, delivery_count } = read_back(&header());
            run(is_prost, &Header { durable, priority: priority.map(u32::from), ttl, first_acquirer, delivery_count }, times)
        }
        _ => 0,
    }
}

#[cfg(not(peers))]
fn by_peer(_: bool, _: Source, _: u64) -> u64 {
    0
}

fn answer(who: Who, shape: usize, op: u32, times: u64) -> u64 {
    let source = SHAPES[shape].1;
    if matches!(source, Type(_) if (3..TYPED).contains(&op)) || op == KEPT && who != Who::Project {
        return 0;
    }
    if who == Who::Project && (op < TYPED || op == KEPT) {
        let op = op.min(TYPED);
        return match source {
            Rule(rule) => unsafe { amqp_shape(rule, op, times) },
            Data(work) => {
                let data = data(work);
                unsafe { amqp_bench(work, op, data.as_ptr(), data.len(), times) }
            }
            Type(kind) => {
                let data = type_bytes(kind);
                unsafe { amqp_write(kind, op, data.as_ptr(), data.len(), times) }
            }
            Frame(work) => if op == WRITTEN { frames::run("project", work, 0, times) } else { 0 },
        };
    }
    if matches!(who, Who::Rmp | Who::Prost) {
        return if op == WRITTEN { by_peer(who == Who::Prost, source, times) } else { 0 };
    }
    match source {
        Frame(work) if who == Who::Proton && op == WRITTEN => frames::run("proton", work, 0, times),
        Type(0) => repeat(who, &Described(0x70, read_back::<typed::Header>(&header())), op, times),
        Type(1) => repeat(who, &Described(0x73, read_back::<typed::Properties>(&properties())), op, times),
        Type(2) => repeat(who, &Described(0x74, read_back::<typed::Texts<Value>>(&written(application()))), op, times),
        Type(3) => repeat(who, &read_back::<typed::Texts<u32>>(&type_bytes(3)), op, times),
        Type(4) => repeat(who, &parts::Ordered(pairs(1000).collect()), op, times),
        Rule(0) => repeat(who, &attach(), op, times),
        Rule(7) => repeat(who, &Described(0x12, attach()), op, times),
        Rule(8) => repeat(who, &Front(attach()), op, times),
        Rule(9) => repeat(who, &Described(0x12, Front(attach())), op, times),
        Rule(1) => repeat(who, &ints(0, 1000), op, times),
        Rule(2) => repeat(who, &(0..1000).map(|i| ints(i, 10)).collect::<Vec<_>>(), op, times),
        Rule(3) => repeat(who, &(0..255).fold(Chain::End, |c, _| Chain::Link(Box::new(c))), op, times),
        Rule(4) => repeat(who, &Blob(vec![0x5a; 65536]), op, times),
        Data(0) => repeat(who, &lines(), op, times),
        Data(1) => repeat(who, &Array(numbers()), op, times),
        Rule(5) => repeat(who, &pairs(1000).collect::<BTreeMap<_, _>>(), op, times),
        Rule(6) => repeat(who, &pairs(10000).collect::<BTreeMap<_, _>>(), op, times),
        // The message has no type here, but the untyped value.
        Rule(10) => on_bytes(who, &written(message()), op, times),
        _ => 0,
    }
}

#[cfg(count)]
mod heap {
    //! Stands between every call of the C library's heap and the heap (the linker's --wrap).
    use std::sync::atomic::{AtomicU64, Ordering::Relaxed};

    pub static CALLS: AtomicU64 = AtomicU64::new(0);
    pub static BYTES: AtomicU64 = AtomicU64::new(0);

    unsafe extern "C" {
        fn __real_malloc(n: usize) -> *mut u8;
        fn __real_realloc(p: *mut u8, n: usize) -> *mut u8;
    }

    fn note(n: usize) {
        CALLS.fetch_add(1, Relaxed);
        BYTES.fetch_add(n as u64, Relaxed);
    }

    #[unsafe(no_mangle)]
    unsafe extern "C" fn __wrap_malloc(n: usize) -> *mut u8 {
        note(n);
        unsafe { __real_malloc(n) }
    }

    #[unsafe(no_mangle)]
    unsafe extern "C" fn __wrap_realloc(p: *mut u8, n: usize) -> *mut u8 {
        note(n);
        unsafe { __real_realloc(p, n) }
    }

    pub fn so_far() -> (u64, u64) {
        (CALLS.load(Relaxed), BYTES.load(Relaxed))
    }
}

#[cfg(not(count))]
mod heap {
    pub fn so_far() -> (u64, u64) {
        (0, 0)
    }
}

fn count(who: Who, shape: usize, op: u32) -> (u64, u64) {
    let runs = |times| {
        let before = heap::so_far();
        black_box(answer(who, shape, op, times));
        let after = heap::so_far();
        (after.0 - before.0, after.1 - before.1)
    };
    runs(1);
    let (one, three) = (runs(1), runs(3));
    ((three.0 - one.0) / 2, (three.1 - one.1) / 2)
}

#[repr(C)]
struct Timespec {
    seconds: i64,
    nanoseconds: i64,
}

unsafe extern "C" {
    fn clock_gettime(clock: i32, at: *mut Timespec) -> i32;
}

/// Seconds of this process, since others may work on the machine.
fn now() -> f64 {
    let mut at = Timespec { seconds: 0, nanoseconds: 0 };
    unsafe { clock_gettime(2, &mut at) };
    at.seconds as f64 + at.nanoseconds as f64 * 1e-9
}

/// What is timed: its name, and a call that does it a number of times.
type Timed = (String, Box<dyn Fn(u64) -> u64>);

fn burst(call: &dyn Fn(u64) -> u64, times: u64) -> f64 {
    let start = now();
    black_box(call(times));
    now() - start
}

/// The least of many short bursts in turn: what building the value takes is in a burst of n and in one of 2 n.
fn time(rows: &[Timed]) {
    let mut least = Vec::new();
    for (_, call) in rows {
        let mut n = 4;
        while burst(call, n) < 0.004 && n < 1 << 22 {
            n *= 2;
        }
        least.push((n, f64::MAX, f64::MAX));
    }
    for _ in 0..40 {
        for (at, (_, call)) in rows.iter().enumerate() {
            let (n, once, twice) = &mut least[at];
            *once = once.min(burst(call, *n));
            *twice = twice.min(burst(call, 2 * *n));
        }
    }
    for ((name, _), (n, once, twice)) in rows.iter().zip(least) {
        println!("{name} {:.2}", (twice - once) / n as f64 * 1e9);
    }
}

fn main() {
    let words: Vec<String> = std::env::args().collect();
    let number = |i: usize| words[i].parse::<u64>().unwrap();
    let who = |i: usize| WHO.iter().find(|w| w.0 == words[i]).unwrap().1;
    match words[1].as_str() {
        "run" => println!("{}", answer(who(2), number(3) as usize, number(4) as u32, number(5))),
        "maps" => {
            let read = unsafe { amqp_maps(number(2) as u32, number(3) as u32, number(4) as u32, number(5)) };
            assert_eq!(read, number(5), "the maps are not read");
        }
        "keep" => println!("{:016x}", unsafe { amqp_keep(number(2), number(3)) }),
        "frames" if words.len() < 4 => {
            for (index, (name, _)) in frames::WORKS.iter().enumerate() {
                let length = frames::bytes(index).len() as u64;
                assert_eq!(frames::run("project", index, 0, 1), length, "{name} is not written");
                assert_eq!(frames::run("project", index, 1, 1), 1, "{name} is not read");
                println!("{index} {length} {name}");
            }
        }
        "frames" => assert_ne!(frames::run(&words[2], number(3) as usize, number(4) as u32, number(5)), 0),
        "reads" if words.len() < 4 => {
            for (index, (name, ..)) in READS.iter().enumerate() {
                for who in ["hand", "project"] {
                    assert_eq!(reads(who, index, 1), 1, "{who} does not read {name}");
                }
                println!("{index} {} {name}", read_bytes(index).len());
            }
        }
        "reads" => assert_eq!(reads(&words[2], number(3) as usize, number(4)), number(4)),
        "time" if words.len() > 2 && words[2] == "frames" => {
            let all = (0..frames::WORKS.len() * 2).flat_map(|at| [(at / 2, at as u32 % 2, "project"), (at / 2, at as u32 % 2, "proton")]);
            let row = |(index, op, who)| -> Timed { (format!("{who} {index} {op}"), Box::new(move |times| frames::run(who, index, op, times))) };
            time(&all.map(row).collect::<Vec<_>>());
        }
        "time" if words.len() > 2 && words[2] == "reads" => {
            let pairs = (0..READS.len()).flat_map(|index| [(index, "project"), (index, "walked")]);
            let row = |(index, who)| -> Timed { (format!("{who} {index}"), Box::new(move |times| reads(who, index, times))) };
            time(&pairs.map(row).collect::<Vec<_>>());
        }
        "count" => {
            let (calls, bytes) = count(who(2), number(3) as usize, number(4) as u32);
            println!("{calls} {bytes}");
        }
        command => {
            let mut rows: Vec<Timed> = Vec::new();
            for shape in 0..SHAPES.len() {
                for (name, (_, who)) in WHO.iter().enumerate() {
                    for op in 0..OPERATIONS {
                        let found = answer(*who, shape, op, 1);
                        if found != 0 && command == "list" {
                            println!("{} {shape} {op} {found} {}", WHO[name].0, SHAPES[shape].0);
                        } else if found != 0 && !HASHES.contains(&op) && (words.len() < 3 || op as u64 == number(2)) {
                            let call = move |times| answer(*who, shape, op, times);
                            rows.push((format!("{} {shape} {op}", WHO[name].0), Box::new(call)));
                        }
                    }
                }
            }
            if command == "time" {
                time(&rows);
            }
        }
    }
}
