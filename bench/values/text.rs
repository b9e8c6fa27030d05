//! The text of the untyped values.

use crate::values::Value::{self, *};

impl Value {
    pub fn text(&self) -> String {
        let mut out = Vec::new();
        self.show(&mut out);
        String::from_utf8(out).unwrap_or_default()
    }

    fn show(&self, out: &mut Vec<u8>) {
        match self {
            Null => out.extend_from_slice(b"null"),
            Bool(true) => out.extend_from_slice(b"true"),
            Bool(false) => out.extend_from_slice(b"false"),
            Ubyte(v) => show_number((*v).into(), out),
            Uint(v) => show_number((*v).into(), out),
            Ulong(v) => show_number(*v, out),
            Int(v) => {
                if *v < 0 {
                    out.push(b'-');
                }
                show_number(v.unsigned_abs().into(), out);
            }
            Uuid(v) => {
                for (at, part) in [&v[..4], &v[4..6], &v[6..8], &v[8..10], &v[10..]].into_iter().enumerate() {
                    out.extend(if at == 0 { &b""[..] } else { b"-" });
                    show_bytes(part, out);
                }
            }
            Binary(v) => {
                out.extend_from_slice(b"0x[");
                show_bytes(v, out);
                out.push(b']');
            }
            Text(v) => show_text(v, out),
            Symbol(v) => {
                out.push(b':');
                out.extend_from_slice(v.as_bytes());
            }
            List(v) | Array(v) => {
                out.push(b'[');
                for (at, item) in v.0.iter().enumerate() {
                    separate(at, out);
                    item.show(out);
                }
                out.push(b']');
            }
            Map(v) => {
                out.push(b'{');
                for (at, (key, item)) in v.0.iter().enumerate() {
                    separate(at, out);
                    key.show(out);
                    out.extend_from_slice(b": ");
                    item.show(out);
                }
                out.push(b'}');
            }
            Described(v) => {
                out.extend(format!("0x{:x} -> ", v.0).as_bytes());
                v.1.show(out);
            }
        }
    }
}

fn separate(at: usize, out: &mut Vec<u8>) {
    if at > 0 {
        out.extend_from_slice(b", ");
    }
}

fn show_number(mut number: u64, out: &mut Vec<u8>) {
    let start = out.len();
    let end = start + 1 + number.checked_ilog10().unwrap_or(0) as usize;
    out.extend_from_slice(&[0; 20]);
    for digit in out[start..end].iter_mut().rev() {
        *digit = b'0' + (number % 10) as u8;
        number /= 10;
    }
    out.truncate(end);
}

fn show_bytes(bytes: &[u8], out: &mut Vec<u8>) {
    let digit = |half: u8| half + if half < 10 { b'0' } else { b'a' - 10 };
    let start = out.len();
    out.resize(start + 2 * bytes.len(), 0);
    for (digits, byte) in out[start..].as_chunks_mut().0.iter_mut().zip(bytes) {
        *digits = [digit(byte >> 4), digit(byte & 15)];
    }
}

fn show_text(text: &str, out: &mut Vec<u8>) {
    out.push(b'"');
    let mut rest = text.as_bytes();
    while let Some(at) = rest.iter().position(|byte| byte.is_ascii_control() || matches!(byte, b'"' | b'\\')) {
        out.extend_from_slice(&rest[..at]);
        match rest[at] {
            0 => out.extend_from_slice(b"\\0"),
            byte => out.extend(char::from(byte).escape_default().map(|c| c as u8)),
        }
        rest = &rest[at + 1..];
    }
    out.extend_from_slice(rest);
    out.push(b'"');
}
