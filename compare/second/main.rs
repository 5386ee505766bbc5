//! A second reading of document 01 and of requests on it, for what the original lacks. It shares nothing with the port.
//!
//!     second exchanges < spellings.txt     the same dates with their exchange texts
//!     second constants                     the least and the greatest date of each kind
//!     second example                       the input of the page's example, after trying all that
//!                                          the page or the original says of the same
//!     second listing < input               what `datelist` writes for the input
//!     second book < script                 the answers of book operations and table operations
//!     second leagues < script              the answers of operations on tables of two leagues
//!     second rooms < script                the answers of listings into lent room
//!     second gaps < book                   what `gaps` writes for the book
//!     second isos < questions              the ISO texts of the questions with what is read
//!     second unmarked < questions          the dates of the questions without their marks

mod agreement;
mod book;
mod both_books;
mod exchange;
mod gap_trials;
mod gaps;
mod iso;
mod kinds;
mod league_script;
mod league_table;
mod league_trials;
mod listing;
mod mark_trials;
mod marks;
mod moves;
mod page;
mod room;
mod room_script;
mod room_trials;
mod script;
mod second_book;
mod table;
mod table_script;
mod text;
mod version_script;
mod version_trials;

use std::io::{self, Read, Write};

fn main() {
    let command = std::env::args().nth(1).unwrap_or_default();
    let output = match command.as_str() {
        "exchanges" => exchange::rows(&input_text()).into_bytes(),
        "constants" => kinds::constants().into_bytes(),
        "example" => {
            agreement::try_kinds();
            agreement::try_days();
            mark_trials::try_all();
            version_trials::try_all();
            gap_trials::try_all();
            league_trials::try_all();
            room_trials::try_all();
            page::example().as_bytes().to_vec()
        }
        "listing" => listing::output(&input()),
        "book" => script::run(&input_text()).into_bytes(),
        "leagues" => league_script::run(&input_text()).into_bytes(),
        "rooms" => room_script::run(&input()),
        "gaps" => gaps::printed(&input()).into_bytes(),
        "isos" => iso::rows(&input_text()).into_bytes(),
        "unmarked" => marks::rows(&input_text()).into_bytes(),
        _ => panic!(
            "usage: second exchanges | constants | example | listing | book | leagues | rooms | gaps | isos | unmarked"
        ),
    };
    io::stdout()
        .write_all(&output)
        .expect("the output can be written");
}

fn input() -> Vec<u8> {
    let mut bytes = Vec::new();
    io::stdin()
        .read_to_end(&mut bytes)
        .expect("the input can be read");
    bytes
}

fn input_text() -> String {
    String::from_utf8(input()).expect("the input is text")
}
