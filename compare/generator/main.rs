//! Asks the original and writes its answers: `generate FOLDER` writes every file of the folder.
//! Only inputs are made here; every answer comes from the original, but for a text over our limit, which
//! is refused unread. For what the original lacks there are inputs alone, which the second reading answers.

#[macro_use]
mod kinds;
mod additions;
mod answers;
mod book_damage;
mod book_marks;
mod book_scenes;
mod book_script;
mod dates;
mod differences;
mod digits;
mod fields;
mod gap_damage;
mod gap_scenes;
mod iso_texts;
mod julian;
mod leading;
mod league_apart;
mod league_damage;
mod league_moves;
mod league_scenes;
mod league_script;
mod listing_lines;
mod listings;
mod marks;
mod move_scenes;
mod numbers;
mod orders;
mod padded;
mod panics;
mod random;
mod room_lines;
mod room_scenes;
mod room_script;
mod spellings;
mod table_damage;
mod table_lookups;
mod table_scenes;
mod table_script;
mod text_edges;
mod texts;
mod version_damage;
mod version_scenes;
mod version_script;
mod walk_scenes;

use answers::Answers;
use std::fs;
use std::path::Path;

/// The files, each with what fills it. A file's place in this list picks its random numbers.
const FILES: [(&str, fn(&mut Answers)); 12] = [
    ("texts", texts::ask),
    ("numbers", numbers::ask),
    ("fields", fields::ask),
    ("additions", additions::ask),
    ("differences", differences::ask),
    ("binaries", spellings::ask_binaries),
    ("spellings", spellings::ask),
    ("orders", orders::ask),
    ("leading", leading::ask),
    ("leading-long", leading::ask_long),
    ("digits", digits::ask),
    ("julian", julian::ask),
];

/// The places after those of the list.
const LISTINGS_STREAM: u64 = FILES.len() as u64;
const BOOK_STREAM: u64 = LISTINGS_STREAM + 1;
const TABLE_STREAM: u64 = BOOK_STREAM + 1;
const ISO_STREAM: u64 = TABLE_STREAM + 1;
const UNMARKED_STREAM: u64 = ISO_STREAM + 1;
const VERSION_STREAM: u64 = UNMARKED_STREAM + 1;
const GAP_STREAM: u64 = VERSION_STREAM + 1;
const LEAGUE_STREAM: u64 = GAP_STREAM + 1;
const ROOM_STREAM: u64 = LEAGUE_STREAM + 1;

fn main() {
    let folder = std::env::args_os().nth(1).expect("usage: generate FOLDER");
    let folder = Path::new(&folder);
    for (stream, (name, ask)) in (0..).zip(FILES) {
        let mut answers = Answers::new(stream);
        ask(&mut answers);
        let (edges, samples) = answers.write(folder, name);
        println!("{name}.txt: {edges} edges, {samples} samples");
    }
    for (name, bytes) in listings::write(&folder.join("listing"), LISTINGS_STREAM) {
        println!("listing/{name}: {bytes} bytes");
    }
    let script = book_scenes::all(BOOK_STREAM)
        + &table_scenes::all(TABLE_STREAM)
        + &version_scenes::all(VERSION_STREAM)
        + &gap_scenes::all(GAP_STREAM);
    write_script(folder, "book.script", script.as_bytes());
    let script = league_scenes::all(LEAGUE_STREAM);
    write_script(folder, "leagues.script", script.as_bytes());
    write_script(folder, "rooms.script", &room_scenes::all(ROOM_STREAM));
    write_questions(folder, "isos", ISO_STREAM, iso_texts::ask);
    write_questions(folder, "unmarked", UNMARKED_STREAM, marks::ask);
}

fn write_script(folder: &Path, name: &str, script: &[u8]) {
    fs::write(folder.join(name), script).expect("the file can be written");
    let lines = script.iter().filter(|&&byte| byte == b'\n').count();
    println!("{name}: {lines} lines");
}

/// Those that the second reading answers.
fn write_questions(folder: &Path, name: &str, stream: u64, ask: fn(&mut Answers)) {
    let mut questions = Answers::new(stream);
    ask(&mut questions);
    let (edges, samples) = questions.write_questions(folder, name);
    println!("{name}.questions: {edges} edges, {samples} samples");
}
