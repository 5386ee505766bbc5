//! Stands in for the crate `serde`: only the names that the original's files mention.
//! Nothing here is ever called.

pub trait Serialize {
    fn serialize<S: Serializer>(&self, serializer: S) -> Result<S::Ok, S::Error>;
}

pub trait Serializer: Sized {
    type Ok;
    type Error;

    fn serialize_str(self, text: &str) -> Result<Self::Ok, Self::Error>;
}

pub trait Deserialize<'de>: Sized {
    fn deserialize<D: Deserializer<'de>>(deserializer: D) -> Result<Self, D::Error>;
}

pub trait Deserializer<'de>: Sized {
    type Error: de::Error;

    fn deserialize_any<V: de::Visitor<'de>>(self, visitor: V) -> Result<V::Value, Self::Error>;
}

pub mod de {
    use std::fmt;

    pub trait Error: Sized {
        fn custom<T: fmt::Display>(message: T) -> Self;
    }

    pub trait Visitor<'de>: Sized {
        type Value;

        fn expecting(&self, formatter: &mut fmt::Formatter) -> fmt::Result;
        fn visit_i32<E: Error>(self, value: i32) -> Result<Self::Value, E>;
        fn visit_str<E: Error>(self, value: &str) -> Result<Self::Value, E>;
        fn visit_string<E: Error>(self, value: String) -> Result<Self::Value, E>;
    }
}
