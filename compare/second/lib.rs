//! The second reading as a library, for `beside/`, which asks the boundary and it the same.

pub mod book;
pub mod both_books;
pub mod exchange;
pub mod gaps;
pub mod iso;
pub mod kinds;
pub mod league_table;
pub mod listing;
pub mod marks;
pub mod moves;
pub mod room;
pub mod second_book;
pub mod table;
pub mod text;
