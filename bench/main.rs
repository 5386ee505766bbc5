//! The port's times beside those of the original, in one run, a line for each task; and the table of docs/SPEED.md over several runs.

mod books;
mod bounded;
mod gaps;
mod inputs;
mod leagues;
mod listings;
mod measure;
mod plain_book;
mod plain_gaps;
mod plain_listing;
mod plain_table;
#[allow(dead_code)] // the generator uses more of it
#[path = "../compare/generator/random.rs"]
mod random;
mod table;
mod tasks;

fn main() {
    let files: Vec<String> = std::env::args().skip(1).collect();
    if files.is_empty() {
        tasks::all(&mut |name, times| println!("{}", table::row(name, times)));
    } else {
        table::print(&files);
    }
}
