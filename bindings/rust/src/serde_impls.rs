//! Paths are read and written as strings.

use alloc::{boxed::Box, string::String};
use core::fmt;
use core::str;

use serde::de::{Deserialize, Deserializer, Error, Unexpected, Visitor};
use serde::ser::{Serialize, Serializer};

use crate::{RelativePath, RelativePathBuf};

impl Serialize for RelativePath {
    fn serialize<S: Serializer>(&self, serializer: S) -> Result<S::Ok, S::Error> {
        serializer.serialize_str(self.as_str())
    }
}

impl Serialize for RelativePathBuf {
    fn serialize<S: Serializer>(&self, serializer: S) -> Result<S::Ok, S::Error> {
        serializer.serialize_str(self.as_str())
    }
}

impl<'de> Deserialize<'de> for RelativePathBuf {
    fn deserialize<D: Deserializer<'de>>(deserializer: D) -> Result<Self, D::Error> {
        String::deserialize(deserializer).map(RelativePathBuf::from)
    }
}

impl<'de> Deserialize<'de> for Box<RelativePath> {
    fn deserialize<D: Deserializer<'de>>(deserializer: D) -> Result<Self, D::Error> {
        RelativePathBuf::deserialize(deserializer).map(Box::from)
    }
}

/// Reads a path that is a slice of the input.
struct Borrowed;

impl<'de> Visitor<'de> for Borrowed {
    type Value = &'de RelativePath;

    fn expecting(&self, f: &mut fmt::Formatter<'_>) -> fmt::Result {
        f.write_str("a borrowed relative path")
    }

    fn visit_borrowed_str<E: Error>(self, text: &'de str) -> Result<Self::Value, E> {
        Ok(RelativePath::new(text))
    }

    fn visit_borrowed_bytes<E: Error>(self, bytes: &'de [u8]) -> Result<Self::Value, E> {
        str::from_utf8(bytes)
            .map(RelativePath::new)
            .map_err(|_| E::invalid_value(Unexpected::Bytes(bytes), &self))
    }
}

impl<'de: 'a, 'a> Deserialize<'de> for &'a RelativePath {
    fn deserialize<D: Deserializer<'de>>(deserializer: D) -> Result<Self, D::Error> {
        deserializer.deserialize_str(Borrowed)
    }
}
