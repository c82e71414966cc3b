//! The kinds of values that a request has.

use serde::de::{Error, MapAccess, SeqAccess, Unexpected, Visitor};
use serde::{Deserialize, Deserializer};
use std::borrow::Cow;
use std::fmt;

/// A text, borrowed from the request where it has no escapes.
#[derive(Deserialize)]
pub struct Text<'a>(#[serde(borrow)] pub Cow<'a, str>);

/// Bytes in base64.
pub struct Base64(pub Vec<u8>);

/// 32 bytes in hexadecimal digits.
pub struct Hex32(pub [u8; 32]);

/// An integer, as a number or as a text of digits.
pub struct Integer(i128);

/// A value that is only searched for floats.
pub struct Ignored;

/// The bytes of a base64 text of the standard alphabet, padded and canonical.
pub fn decode_base64(text: &str) -> Option<Vec<u8>> {
    // The crate takes a text without padding, too.
    let is_padded = text.len() % 4 == 0;
    is_padded.then(|| base64::decode(text).ok()).flatten()
}

impl Integer {
    /// The number, where it is in the range of a type.
    pub fn to<T: TryFrom<i128>, E: Error>(self) -> Result<T, E> {
        T::try_from(self.0).map_err(|_| E::custom("out of range"))
    }
}

impl<'de> Deserialize<'de> for Base64 {
    fn deserialize<D: Deserializer<'de>>(deserializer: D) -> Result<Self, D::Error> {
        let Text(text) = Text::deserialize(deserializer)?;
        let invalid = || D::Error::invalid_value(Unexpected::Str(&text), &"base64");
        decode_base64(&text).map(Base64).ok_or_else(invalid)
    }
}

impl<'de> Deserialize<'de> for Hex32 {
    fn deserialize<D: Deserializer<'de>>(deserializer: D) -> Result<Self, D::Error> {
        let Text(text) = Text::deserialize(deserializer)?;
        let mut bytes = [0; 32];
        hex::decode_to_slice(text.as_bytes(), &mut bytes).map_err(D::Error::custom)?;
        Ok(Hex32(bytes))
    }
}

impl<'de> Deserialize<'de> for Integer {
    fn deserialize<D: Deserializer<'de>>(deserializer: D) -> Result<Self, D::Error> {
        struct IntegerVisitor;

        impl Visitor<'_> for IntegerVisitor {
            type Value = Integer;

            fn expecting(&self, f: &mut fmt::Formatter) -> fmt::Result {
                f.write_str("an integer")
            }

            fn visit_u64<E>(self, value: u64) -> Result<Integer, E> {
                Ok(Integer(value.into()))
            }

            fn visit_i64<E>(self, value: i64) -> Result<Integer, E> {
                Ok(Integer(value.into()))
            }

            fn visit_str<E: Error>(self, text: &str) -> Result<Integer, E> {
                match text.parse() {
                    Ok(value) if !text.starts_with('+') => Ok(Integer(value)),
                    _ => Err(E::invalid_value(Unexpected::Str(text), &self)),
                }
            }
        }

        deserializer.deserialize_any(IntegerVisitor)
    }
}

impl<'de> Deserialize<'de> for Ignored {
    fn deserialize<D: Deserializer<'de>>(deserializer: D) -> Result<Self, D::Error> {
        struct IgnoredVisitor;

        impl<'de> Visitor<'de> for IgnoredVisitor {
            type Value = Ignored;

            fn expecting(&self, f: &mut fmt::Formatter) -> fmt::Result {
                f.write_str("a value without floats")
            }

            fn visit_unit<E>(self) -> Result<Ignored, E> {
                Ok(Ignored)
            }

            fn visit_bool<E>(self, _: bool) -> Result<Ignored, E> {
                Ok(Ignored)
            }

            fn visit_u64<E>(self, _: u64) -> Result<Ignored, E> {
                Ok(Ignored)
            }

            fn visit_i64<E>(self, _: i64) -> Result<Ignored, E> {
                Ok(Ignored)
            }

            fn visit_str<E>(self, _: &str) -> Result<Ignored, E> {
                Ok(Ignored)
            }

            fn visit_seq<A: SeqAccess<'de>>(self, mut items: A) -> Result<Ignored, A::Error> {
                while let Some(Ignored) = items.next_element()? {}
                Ok(Ignored)
            }

            fn visit_map<A: MapAccess<'de>>(self, mut members: A) -> Result<Ignored, A::Error> {
                while let Some((Ignored, Ignored)) = members.next_entry()? {}
                Ok(Ignored)
            }
        }

        deserializer.deserialize_any(IgnoredVisitor)
    }
}
