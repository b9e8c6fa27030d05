//! The types of `values/typed.rs`, and the untyped values, as `plain.rs` writes them.

use crate::plain::{Error, Serialize, SerializeSeq, Serializer};
use crate::values::Value;
use crate::values::typed::{Binary, Header, Properties, Symbol, Texts, Timestamp};
use std::collections::BTreeMap;

/// A list that ends with the last field that is present.
macro_rules! list {
    ($kind:ty: $($field:ident)*) => {
        impl Serialize for $kind {
            fn serialize<S: Serializer>(&self, serializer: S) -> Result<S::Ok, Error> {
                let present = [$(self.$field.is_some()),*];
                let mut left = 0..present.iter().rposition(|it| *it).map_or(0, |at| at + 1);
                let mut fields = serializer.serialize_struct(stringify!($kind), left.end)?;
                $(if left.next().is_some() {
                    fields.serialize_field(stringify!($field), &self.$field)?;
                })*
                fields.end()
            }
        }
    };
}

list!(Header: durable priority ttl first_acquirer delivery_count);
list!(Properties: message_id user_id to subject reply_to correlation_id content_type content_encoding absolute_expiry_time
    creation_time group_id group_sequence reply_to_group_id);

fn map<'a, S: Serializer, K: Serialize + 'a, V: Serialize + 'a>(serializer: S, pairs: impl Iterator<Item = (&'a K, &'a V)>) -> Result<S::Ok, Error> {
    let mut map = serializer.serialize_map()?;
    for (key, value) in pairs {
        map.serialize_element(key)?;
        map.serialize_element(value)?;
    }
    map.end()
}

impl<V: Serialize> Serialize for Texts<V> {
    fn serialize<S: Serializer>(&self, serializer: S) -> Result<S::Ok, Error> {
        map(serializer, self.0.iter().map(|(key, value)| (key, value)))
    }
}

impl<K: Serialize, V: Serialize> Serialize for BTreeMap<K, V> {
    fn serialize<S: Serializer>(&self, serializer: S) -> Result<S::Ok, Error> {
        map(serializer, self.iter())
    }
}

/// A map in its order.
pub struct Ordered(pub Vec<(u32, u32)>);

impl Serialize for Ordered {
    fn serialize<S: Serializer>(&self, serializer: S) -> Result<S::Ok, Error> {
        map(serializer, self.0.iter().map(|(key, value)| (key, value)))
    }
}

impl Serialize for Binary {
    fn serialize<S: Serializer>(&self, serializer: S) -> Result<S::Ok, Error> {
        serializer.serialize_bytes(&self.0)
    }
}

impl Serialize for Symbol {
    fn serialize<S: Serializer>(&self, serializer: S) -> Result<S::Ok, Error> {
        serializer.serialize_symbol(&self.0)
    }
}

impl Serialize for Timestamp {
    fn serialize<S: Serializer>(&self, serializer: S) -> Result<S::Ok, Error> {
        serializer.serialize_fixed(0x83, self.0.to_be_bytes())
    }
}

/// The scalars; the compounds are not inside the shapes' types.
impl Serialize for Value {
    fn serialize<S: Serializer>(&self, serializer: S) -> Result<S::Ok, Error> {
        match self {
            Value::Null => serializer.serialize_none(),
            Value::Bool(v) => v.serialize(serializer),
            Value::Ubyte(v) => v.serialize(serializer),
            Value::Uint(v) => v.serialize(serializer),
            Value::Ulong(v) => v.serialize(serializer),
            Value::Int(v) => v.serialize(serializer),
            Value::Uuid(v) => serializer.serialize_fixed(0x98, *v),
            Value::Binary(v) => serializer.serialize_bytes(v),
            Value::Text(v) => v.serialize(serializer),
            Value::Symbol(v) => serializer.serialize_symbol(v),
            Value::List(_) | Value::Map(_) | Value::Array(_) | Value::Described(_) => Err(Error::Invalid),
        }
    }
}
