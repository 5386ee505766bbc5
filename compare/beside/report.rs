//! The rows of the table, printed as they are done, and what follows them.

use crate::tally::{LISTED, Tally};
use std::io::{self, Write};
use std::time::Instant;

/// Whether a run takes about a minute or as long as it needs.
#[derive(Clone, Copy, PartialEq, Eq)]
pub enum Extent {
    Quick,
    Full,
}

impl Extent {
    pub fn is_full(self) -> bool {
        self == Extent::Full
    }

    /// One of two, by the extent.
    pub fn pick<T>(self, quick: T, full: T) -> T {
        match self {
            Extent::Quick => quick,
            Extent::Full => full,
        }
    }

    /// What is exhaustive in the full form alone.
    pub fn covers_all(self) -> Covers {
        self.pick(Covers::Sample, Covers::All)
    }
}

#[derive(Clone, Copy)]
pub enum Covers {
    All,
    Sample,
}

pub struct Report {
    all: Tally,
    last: Instant,
    /// Tables that follow the rows.
    after: String,
}

impl Report {
    pub fn new() -> Self {
        println!("| compared | how | comparisons | differences | seconds |");
        println!("|---|---|---:|---:|---:|");
        Report {
            all: Tally::default(),
            last: Instant::now(),
            after: String::new(),
        }
    }

    pub fn row(&mut self, name: &str, covers: Covers, tally: Tally) {
        let how = match covers {
            Covers::All => "exhaustive",
            Covers::Sample => "sample",
        };
        let seconds = self.last.elapsed().as_secs();
        let (compared, differed) = (grouped(tally.compared), grouped(tally.differed));
        println!("| {name} | {how} | {compared} | {differed} | {seconds} |");
        for difference in &tally.first {
            eprintln!("{name}: {difference}");
        }
        io::stdout().flush().expect("the table can be printed");
        self.last = Instant::now();
        let all = std::mem::take(&mut self.all);
        self.all = all.and(tally);
    }

    pub fn later(&mut self, table: &str) {
        self.after.push_str(table);
    }

    /// The sums and the listed differences. Whether nothing differed that is not listed.
    pub fn end(self) -> bool {
        let Tally {
            compared, differed, ..
        } = self.all;
        println!(
            "| all | | {} | {} | |",
            grouped(compared),
            grouped(differed)
        );
        println!("\n| listed difference | met |\n|---|---:|");
        for (listed, name) in LISTED {
            println!("| {name} | {} |", grouped(self.all.listed[listed as usize]));
        }
        print!("{}", self.after);
        println!("\n{} differences that are not listed", grouped(differed));
        differed == 0
    }
}

/// 1234567 as 1,234,567.
pub fn grouped(number: u64) -> String {
    let digits = number.to_string();
    let mut text = String::new();
    for (place, digit) in digits.chars().enumerate() {
        if place > 0 && (digits.len() - place) % 3 == 0 {
            text.push(',');
        }
        text.push(digit);
    }
    text
}
