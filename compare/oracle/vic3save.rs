//! Crate root for the original's `vic3save`: its date file, unchanged.

mod vic3date {
    include!(concat!(
        env!("JOMINI_SRC"),
        "/crates/vic3save/src/vic3date.rs"
    ));
}

pub use vic3date::Vic3Date;
