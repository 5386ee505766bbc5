//! Crate root for the original's `eu5save`: its date file, unchanged, and a door to the stored
//! hour, of which the original shows only the in-game hour.

mod date {
    include!(concat!(env!("JOMINI_SRC"), "/crates/eu5save/src/date.rs"));

    impl Eu5Date {
        pub fn stored_hour(&self) -> u8 {
            self.raw.hour()
        }
    }
}

pub use date::Eu5Date;
