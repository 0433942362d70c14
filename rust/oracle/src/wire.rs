//! Eight plain bytes as a serde format, so that the source's own `Serialize` and `Deserialize` write and read them.

use serde::{de, Deserializer, Serializer};
use std::fmt::Display;

pub(crate) struct Bytes(pub [u8; 8]);

/// That the source refused.
#[derive(Debug)]
pub(crate) struct OutOfRange;

impl de::Error for OutOfRange {
    fn custom<T: Display>(_: T) -> Self {
        OutOfRange
    }
}

impl Serializer for &mut Bytes {
    type Ok = ();
    type Error = OutOfRange;

    fn is_human_readable(&self) -> bool {
        false
    }

    fn serialize_u64(self, _: u64) -> Result<(), OutOfRange> {
        unreachable!("it is not for humans")
    }

    fn serialize_eight(self, bytes: [u8; 8]) -> Result<(), OutOfRange> {
        self.0 = bytes;
        Ok(())
    }
}

impl Deserializer<'_> for Bytes {
    type Error = OutOfRange;

    fn is_human_readable(&self) -> bool {
        false
    }

    fn deserialize_u64(self) -> Result<u64, OutOfRange> {
        unreachable!("it is not for humans")
    }

    fn deserialize_eight(self) -> Result<[u8; 8], OutOfRange> {
        Ok(self.0)
    }
}
