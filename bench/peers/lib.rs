//! Some of the shapes as messages, which rmp-serde and prost write into a fresh vector.

use prost::Message;
use serde::Serialize;
use std::collections::BTreeMap;
use std::hint::black_box;

#[derive(Serialize, Message)]
pub struct Strings(#[prost(string, repeated, tag = "1")] pub Vec<String>);

#[derive(Serialize, Message)]
pub struct Ints(#[prost(sint32, repeated, tag = "1")] pub Vec<i32>);

#[derive(Serialize, Message)]
pub struct Rows(#[prost(message, repeated, tag = "1")] pub Vec<Ints>);

#[derive(Serialize, Message)]
pub struct Numbers(#[prost(fixed32, repeated, tag = "1")] pub Vec<u32>);

#[derive(Serialize, Message)]
pub struct Numbered(#[prost(btree_map = "uint32, uint32", tag = "1")] pub BTreeMap<u32, u32>);

#[derive(Serialize, Message)]
pub struct Header {
    #[prost(bool, optional, tag = "1")]
    pub durable: Option<bool>,
    #[prost(uint32, optional, tag = "2")]
    pub priority: Option<u32>,
    #[prost(uint32, optional, tag = "3")]
    pub ttl: Option<u32>,
    #[prost(bool, optional, tag = "4")]
    pub first_acquirer: Option<bool>,
    #[prost(uint32, optional, tag = "5")]
    pub delivery_count: Option<u32>,
}

#[derive(Serialize, Message)]
pub struct Attach {
    #[prost(string, tag = "1")]
    pub name: String,
    #[prost(uint32, tag = "2")]
    pub handle: u32,
    #[prost(bool, tag = "3")]
    pub role: bool,
    #[prost(uint32, optional, tag = "4")]
    pub sender_settles: Option<u32>,
    #[prost(uint32, optional, tag = "5")]
    pub receiver_settles: Option<u32>,
    #[prost(string, optional, tag = "6")]
    pub source: Option<String>,
    #[prost(string, optional, tag = "7")]
    pub target: Option<String>,
    #[prost(uint32, optional, tag = "8")]
    pub unsettled: Option<u32>,
    #[prost(bool, tag = "9")]
    pub incomplete: bool,
    #[prost(uint32, tag = "10")]
    pub delivery_count: u32,
    #[prost(uint64, tag = "11")]
    pub longest_message: u64,
    #[prost(string, optional, tag = "12")]
    pub offered: Option<String>,
    #[prost(string, optional, tag = "13")]
    pub desired: Option<String>,
    #[prost(uint32, optional, tag = "14")]
    pub properties: Option<u32>,
}

/// The sum of `times` lengths of the bytes, by prost or by rmp-serde.
pub fn run<T: Serialize + Message>(is_prost: bool, v: &T, times: u64) -> u64 {
    let write = |v: &T| if is_prost { v.encode_to_vec() } else { rmp_serde::to_vec(v).unwrap() };
    (0..times).map(|_| black_box(write(black_box(v))).len() as u64).sum()
}
