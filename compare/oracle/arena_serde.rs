//! Stands in for the crate `arena_serde`: only the names that the original's files mention.
//! Nothing here is ever called.

pub struct Arena;

pub trait ArenaDeserialize<'bump>: Sized {
    fn deserialize_in_arena<'de, D: serde::Deserializer<'de>>(
        deserializer: D,
        allocator: &'bump Arena,
    ) -> Result<Self, D::Error>;
}
