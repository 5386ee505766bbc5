//! The dates of strategy-game saves: safe Rust over the proved library, under the names that they have in jomini.
//!
//! Six kinds of campaign date, in years without leap days: [`RawDate`], [`Date`], [`DateHour`], [`UniformDate`],
//! [`Eu5Date`], [`Vic3Date`]. What they share is in [`PdsDate`]; [`listing()`] reads and writes many dates in one call, as
//! the program `datelist` does; [`book`] keeps dates of all kinds in a buffer, [`book2`] also the field that each came
//! from, and [`any_book`] reads both; [`gaps`] reports how far the dates of a book lie apart; [`field_table`] keeps which
//! fields of a save are dates, and [`league_table`] keeps that for two leagues, each of which sees its own. What they
//! answer comes from the library, whose functions are proved to meet their contracts, but for what only takes a date's
//! bits apart: the year, month, day and hour as they are stored, [`PdsDate::is_guessed`], the hash, and
//! [`Eu5Date::hour`] are worked out here.
//!
//! An operation that can be refused gives a [`Result`] with a [`Refusal`], which has a number and a sentence: also where
//! jomini gives an `Option` (`.ok()` gives that one), and where it panics (`add_days`, and `from_ymd_opt` of
//! [`Eu5Date`]). jomini's constructors that unwrap are not here.
//!
//! ```
//! use pennyquill::{Date, PdsDate, Refusal};
//!
//! let start = Date::parse("1444.11.11")?;
//! let end = Date::from_binary(59_611_848)?;
//! assert_eq!(end.game_fmt(), "1805.1.3");
//! assert_eq!(start.days_until(&end), 131_453);
//! assert_eq!(start.add_days(131_453)?, end);
//!
//! // A number that nobody declared as a date is only taken for one where that is likely.
//! assert_eq!(Date::from_binary_heuristic(1444), Err(Refusal::NotNumber));
//!
//! // Where it is, the date is marked. It is the same date.
//! let guessed = Date::from_binary_heuristic(59_611_848)?;
//! assert!(guessed.is_guessed() && !end.is_guessed());
//! assert_eq!(guessed, end);
//!
//! // Where only the ISO text was kept, it is read back. `parse` reads no ISO text.
//! let kept = start.iso_8601();
//! assert_eq!(kept, "1444-11-11");
//! assert_eq!(Date::from_iso_8601(kept.as_bytes()), Ok(start));
//! assert_eq!(Date::parse(kept.as_bytes()), Err(Refusal::NotText));
//! # Ok::<(), Refusal>(())
//! ```
//!
//! # Building
//!
//! The library is a static one, `libpennyquill.a`: `./library` in the repository proves it and writes it to
//! `target/native`, where `build.rs` finds it. Elsewhere the environment variable `PENNYQUILL_LIB` names its folder. No
//! other crate is needed.
#![warn(missing_docs)]

pub mod any_book;
mod bits;
pub mod book;
pub mod book2;
mod date;
mod date_hour;
mod eu5_date;
pub mod ffi;
pub mod field_table;
pub mod gaps;
mod league;
pub mod league_table;
mod listing;
mod pds_date;
mod raw_date;
mod refusal;
mod text;
mod uniform_date;
mod vic3_date;

pub use date::Date;
pub use date_hour::DateHour;
pub use eu5_date::Eu5Date;
pub use listing::{listing, listing_room, write_listing};
pub use pds_date::PdsDate;
pub use raw_date::RawDate;
pub use refusal::Refusal;
pub use text::Text;
pub use uniform_date::UniformDate;
pub use vic3_date::Vic3Date;
