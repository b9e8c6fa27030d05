//! Frames and messages of the standard, written and read by the project, and by Qpid Proton where built with --cfg proton.
//!
//! Proton writes a frame by putting its fields into a tree, which it encodes, and a message that stands ready; both into a
//! buffer that stands ready. The project writes a type into a fresh vector.

pub use proton::write;
use std::hint::black_box;

/// The works: a name, and the kind in the library. The transfer has a payload of 1 KiB, the message six sections.
pub const WORKS: [(&str, u32); 4] = [("open", 0), ("transfer", 0), ("message", 1), ("lazy message", 2)];

unsafe extern "C" {
    fn amqp_frames(kind: u32, op: u32, data: *const u8, len: usize, times: u64) -> u64;
}

/// A compound or described list: its codes, a length and a count of one byte, and its parts.
fn compound(head: &[u8], parts: &[Vec<u8>]) -> Vec<u8> {
    let body = parts.concat();
    [head, &[body.len() as u8 + 1, parts.len() as u8], &body].concat()
}

fn sized(code: u8, text: &str) -> Vec<u8> {
    [&[code, text.len() as u8], text.as_bytes()].concat()
}

fn string(text: &str) -> Vec<u8> {
    sized(0xa1, text)
}

fn symbol(text: &str) -> Vec<u8> {
    sized(0xa3, text)
}

fn uint(number: u32) -> Vec<u8> {
    [&[0x70], &number.to_be_bytes()[..]].concat()
}

fn null() -> Vec<u8> {
    vec![0x40]
}

/// A frame on channel 0.
fn frame(body: &[u8]) -> Vec<u8> {
    [&(body.len() as u32 + 8).to_be_bytes()[..], &[2, 0, 0, 0], body].concat()
}

fn open() -> Vec<u8> {
    let capabilities = [&b"\xe0\x24\x02\xb3"[..], b"\0\0\0\x0fANONYMOUS-RELAY", b"\0\0\0\x0bSHARED-SUBS"].concat();
    let properties = [symbol("product"), string("fimoruke"), symbol("version"), string("1.0.0"), symbol("platform"), string("x86_64-linux")];
    frame(&compound(
        b"\0\x53\x10\xc0",
        &[
            string("4f1c9f0a-5f4e-4a3c-8f37-client"),
            string("broker.example.org"),
            uint(65536),
            vec![0x60, 0x00, 0xff],
            uint(30000),
            null(),
            null(),
            null(),
            capabilities,
            compound(b"\xc1", &properties),
        ],
    ))
}

fn transfer() -> Vec<u8> {
    let tag = [&[0xa0, 8][..], &[0x5a; 8]].concat();
    let fields = [vec![0x43], uint(70000), tag, vec![0x43], vec![0x42], vec![0x42], null(), null(), null(), null(), vec![0x41]];
    frame(&[compound(b"\0\x53\x14\xc0", &fields), vec![0xa5; 1024]].concat())
}

fn message() -> Vec<u8> {
    let at = |milliseconds: i64| [&[0x83], &milliseconds.to_be_bytes()[..]].concat();
    let properties = [
        string("1f7b2c3d-order-0000081985"),
        [&[0xa0, 8][..], &[0xa5; 8]].concat(),
        string("orders/eu-west/incoming"),
        string("order.created"),
        string("replies/7f3a9c21"),
        [&[0x80], &81985529216486895u64.to_be_bytes()[..]].concat(),
        symbol("application/json"),
        null(),
        at(1_800_000_000_000),
        at(1_700_000_000_123),
        string("orders-of-today"),
        vec![0x52, 17],
    ];
    let application = [
        [string("region"), string("eu-west-1")],
        [string("attempt"), vec![0x54, 3]],
        [string("urgent"), vec![0x41]],
        [string("amount"), [&[0x81], &70_000_000_000i64.to_be_bytes()[..]].concat()],
        [string("tenant"), string("acme-industries")],
        [string("trace"), [&[0x98], &[0x5a; 16][..]].concat()],
    ];
    [
        compound(b"\0\x53\x70\xc0", &[vec![0x41], vec![0x50, 0x07], uint(30000), vec![0x42], vec![0x52, 2]]),
        compound(b"\0\x53\x71\xc1", &[symbol("x-opt-hop"), string("router-3")]),
        compound(b"\0\x53\x72\xc1", &[symbol("x-opt-enqueued-time"), at(1_700_000_000_456), symbol("x-opt-partition"), vec![0x52, 4]]),
        compound(b"\0\x53\x73\xc0", &properties),
        compound(b"\0\x53\x74\xc1", &application.concat()),
        [&b"\0\x53\x75\xa0\xf0"[..], &[0x61; 240]].concat(),
    ]
    .concat()
}

/// The bytes of a work.
pub fn bytes(index: usize) -> Vec<u8> {
    match index {
        0 => open(),
        1 => transfer(),
        _ => message(),
    }
}

/// Writes (operation 0) or reads (operation 1) a work: the sum of the lengths, or how many were read.
pub fn run(who: &str, index: usize, op: u32, times: u64) -> u64 {
    let bytes = bytes(index);
    match (who, op) {
        ("project", _) => unsafe { amqp_frames(WORKS[index].1, op, bytes.as_ptr(), bytes.len(), times) },
        (_, 0) if index < 2 => proton::write_frames(black_box(&bytes[8..]), times),
        (_, _) if index < 2 => (0..times).map(|_| proton::read_frame(black_box(&bytes))).sum(),
        (_, 0) => proton::write_messages(&bytes, times),
        _ => (0..times).map(|_| proton::read_message(black_box(&bytes))).sum(),
    }
}

#[cfg(proton)]
mod proton {
    use crate::proton::{Atom, DESCRIBED, Tree, pn_data_clear, pn_data_enter, pn_data_exit, pn_data_get_atom, pn_data_next, pn_data_type, walk};
    use std::ffi::{c_char, c_void};

    /// The kinds that have nodes inside, beside DESCRIBED.
    const ARRAY: i32 = 23;
    const LIST: i32 = 24;

    unsafe extern "C" {
        fn pn_data_encode(data: *mut c_void, bytes: *mut c_char, size: usize) -> isize;
        fn pn_data_get_array_type(data: *mut c_void) -> i32;
        fn pn_data_put_atom(data: *mut c_void, atom: Atom) -> i32;
        fn pn_data_put_array(data: *mut c_void, is_described: bool, kind: i32) -> i32;
        fn pn_data_put_described(data: *mut c_void) -> i32;
        fn pn_data_put_list(data: *mut c_void) -> i32;
        fn pn_data_put_map(data: *mut c_void) -> i32;
        fn pn_message() -> *mut c_void;
        fn pn_message_free(message: *mut c_void);
        fn pn_message_decode(message: *mut c_void, bytes: *const c_char, size: usize) -> i32;
        fn pn_message_encode(message: *mut c_void, bytes: *mut c_char, size: *mut usize) -> i32;
    }

    /// A call that builds a tree.
    enum Put {
        Scalar(Atom),
        Open(i32, i32),
        Close,
    }

    /// The calls that build the tree again. Texts are not copied.
    unsafe fn puts(data: *mut c_void, calls: &mut Vec<Put>) {
        unsafe {
            while pn_data_next(data) {
                let kind = pn_data_type(data);
                if kind < DESCRIBED {
                    calls.push(Put::Scalar(pn_data_get_atom(data)));
                } else {
                    calls.push(Put::Open(kind, pn_data_get_array_type(data)));
                    pn_data_enter(data);
                    puts(data, calls);
                    pn_data_exit(data);
                    calls.push(Put::Close);
                }
            }
        }
    }

    unsafe fn put(data: *mut c_void, call: &Put) {
        unsafe {
            match call {
                Put::Scalar(atom) => _ = pn_data_put_atom(data, *atom),
                Put::Close => _ = pn_data_exit(data),
                Put::Open(kind, element) => {
                    match *kind {
                        DESCRIBED => pn_data_put_described(data),
                        ARRAY => pn_data_put_array(data, false, *element),
                        LIST => pn_data_put_list(data),
                        _ => pn_data_put_map(data),
                    };
                    pn_data_enter(data);
                }
            }
        }
    }

    /// Builds a tree and writes it into a buffer.
    #[inline(never)]
    fn encode(tree: &Tree, calls: &[Put], buffer: &mut [u8]) -> usize {
        unsafe {
            pn_data_clear(tree.0);
            calls.iter().for_each(|call| put(tree.0, call));
            pn_data_encode(tree.0, buffer.as_mut_ptr().cast(), buffer.len()) as usize
        }
    }

    /// Writes the value in the bytes.
    pub fn write(bytes: &[u8], times: u64) -> u64 {
        let (read, _) = Tree::decode(bytes);
        let (tree, mut calls, mut buffer) = (Tree::new(), Vec::new(), vec![0; 4 * bytes.len() + 4096]);
        unsafe { puts(read.0, &mut calls) };
        (0..times).map(|_| encode(&tree, &calls, &mut buffer) as u64).sum()
    }

    /// Writes the header, the performative and the payload of a frame into a buffer.
    fn write_frame(tree: &Tree, calls: &[Put], payload: &[u8], buffer: &mut [u8]) -> u64 {
        let (head, body) = buffer.split_at_mut(8);
        let len = encode(tree, calls, body);
        body[len..len + payload.len()].copy_from_slice(payload);
        let size = 8 + len + payload.len();
        head[..4].copy_from_slice(&(size as u32).to_be_bytes());
        head[4..].copy_from_slice(&[2, 0, 0, 0]);
        size as u64
    }

    pub fn write_frames(body: &[u8], times: u64) -> u64 {
        let (read, taken) = Tree::decode(body);
        let (tree, mut calls, mut buffer) = (Tree::new(), Vec::new(), vec![0; 4096]);
        unsafe { puts(read.0, &mut calls) };
        (0..times).map(|_| write_frame(&tree, &calls, &body[taken..], &mut buffer)).sum()
    }

    /// Reads a frame: its header, and the performative, whose tree is visited.
    pub fn read_frame(bytes: &[u8]) -> u64 {
        let size = u32::from_be_bytes(bytes[..4].try_into().unwrap()) as usize;
        let (tree, taken) = Tree::decode(&bytes[usize::from(bytes[4]) * 4..size]);
        unsafe { std::hint::black_box(walk(tree.0)) };
        u64::from(taken > 0)
    }

    pub fn write_messages(bytes: &[u8], times: u64) -> u64 {
        let message = unsafe { pn_message() };
        let mut buffer = vec![0u8; 4096];
        let mut sum = 0;
        unsafe {
            assert_eq!(pn_message_decode(message, bytes.as_ptr().cast(), bytes.len()), 0);
            for _ in 0..times {
                let mut len = buffer.len();
                assert_eq!(pn_message_encode(message, buffer.as_mut_ptr().cast(), &mut len), 0);
                sum += len as u64;
            }
            pn_message_free(message);
        }
        sum
    }

    pub fn read_message(bytes: &[u8]) -> u64 {
        unsafe {
            let message = pn_message();
            let read = pn_message_decode(message, bytes.as_ptr().cast(), bytes.len());
            pn_message_free(message);
            u64::from(read == 0)
        }
    }
}

#[cfg(not(proton))]
mod proton {
    pub fn write(_: &[u8], _: u64) -> u64 {
        0
    }

    pub fn write_frames(_: &[u8], _: u64) -> u64 {
        0
    }

    pub fn read_frame(_: &[u8]) -> u64 {
        0
    }

    pub fn write_messages(_: &[u8], _: u64) -> u64 {
        0
    }

    pub fn read_message(_: &[u8]) -> u64 {
        0
    }
}
