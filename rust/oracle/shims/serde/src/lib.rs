//! In place of serde: the two traits that the source implements, and of a format what they ask of it. The format itself, eight plain bytes, is in
//! `oracle/src/wire.rs`.

pub trait Serialize {
    fn serialize<S: Serializer>(&self, serializer: S) -> Result<S::Ok, S::Error>;
}

pub trait Serializer: Sized {
    type Ok;
    type Error;

    fn is_human_readable(&self) -> bool;
    fn serialize_u64(self, word: u64) -> Result<Self::Ok, Self::Error>;
    fn serialize_eight(self, bytes: [u8; 8]) -> Result<Self::Ok, Self::Error>;
}

impl Serialize for [u8; 8] {
    fn serialize<S: Serializer>(&self, serializer: S) -> Result<S::Ok, S::Error> {
        serializer.serialize_eight(*self)
    }
}

pub trait Deserialize<'de>: Sized {
    fn deserialize<D: Deserializer<'de>>(deserializer: D) -> Result<Self, D::Error>;
}

pub trait Deserializer<'de>: Sized {
    type Error: de::Error;

    fn is_human_readable(&self) -> bool;
    fn deserialize_u64(self) -> Result<u64, Self::Error>;
    fn deserialize_eight(self) -> Result<[u8; 8], Self::Error>;
}

impl<'de> Deserialize<'de> for u64 {
    fn deserialize<D: Deserializer<'de>>(deserializer: D) -> Result<Self, D::Error> {
        deserializer.deserialize_u64()
    }
}

impl<'de> Deserialize<'de> for [u8; 8] {
    fn deserialize<D: Deserializer<'de>>(deserializer: D) -> Result<Self, D::Error> {
        deserializer.deserialize_eight()
    }
}

pub mod de {
    pub trait Error {
        fn custom<T: core::fmt::Display>(message: T) -> Self;
    }
}
