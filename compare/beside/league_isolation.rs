//! Of the subject `leagues`: both on one buffer with room for all entries, beside two buffers on which each is
//! alone. "a league's lookups, additions, removals and their refusals depend only on its own entries and its
//! call": so every answer is the same there, and so are a league's own entries after every call.

use crate::league_questions::{Call, ask, new};
use crate::leagues::{ENTRY, HEAD, SHARE, shares, some_call, table_of};
use crate::port;
use crate::random::Random;
use crate::report::{Covers, Extent, Report};
use crate::table_questions::told_entry;
use crate::tally::{Tally, share};
use second_reading::league_table;

/// The bytes of a buffer with room for all entries of both.
const WHOLE: usize = HEAD + 2 * SHARE * ENTRY;

const PARTS: u64 = 64;

pub fn run(extent: Extent, report: &mut Report) {
    let name = "two leagues interleaved on one table, beside each alone: few fields";
    report.row(name, Covers::Sample, few_fields(extent.pick(2, 40)));
    let name = "the same, near full shares";
    report.row(name, Covers::Sample, near_full(extent.pick(2, 36)));
    let name = "the same, one share filled and emptied while the other is used";
    report.row(name, Covers::Sample, filled(extent.pick(16, 1)));
}

struct Leagues {
    shared: Vec<u8>,
    /// Each league's own table.
    apart: [Vec<u8>; 2],
}

impl Leagues {
    /// So many entries of each. The shared buffer is so many bytes longer than all entries need, the others
    /// are not.
    fn with(counts: [usize; 2], more: usize) -> Leagues {
        let table = |counts: [usize; 2], length: usize| {
            let entries = shares(counts);
            let after = length - HEAD - entries.len() * ENTRY;
            table_of(&entries, after)
        };
        Leagues {
            shared: table(counts, WHOLE + more),
            apart: [table([counts[0], 0], WHOLE), table([0, counts[1]], WHOLE)],
        }
    }

    /// The same call on both tables; then what both leagues have is the same in the shared table as apart.
    fn call(&mut self, tally: &mut Tally, league: u32, call: Call) {
        let apart = &mut self.apart[league as usize - 1];
        let alone = ask(tally, apart, league, call);
        let shared = ask(tally, &mut self.shared, league, call);
        let asked = || format!("{call:?} of league {league}, apart and shared");
        tally.hold(alone, shared, asked);
        for league in [1, 2] {
            let apart = league_table::own(&self.apart[league as usize - 1], league);
            let shared = league_table::own(&self.shared, league);
            let asked = || format!("the entries of league {league} after {call:?}");
            tally.hold(true, apart.is_ok() && apart == shared, asked);
        }
    }

    /// Each entry that the boundary shows a league, one past the last too, in the shared table and apart.
    fn hold_entries(&mut self, tally: &mut Tally) {
        for league in [1, 2] {
            let apart = &mut self.apart[league as usize - 1];
            let count = port::leagues_check(apart, league).value as usize;
            for place in 0..=count {
                let alone = port::leagues_entry(apart, league, place);
                let shared = port::leagues_entry(&mut self.shared, league, place);
                let asked = || format!("entry {place} of league {league}, apart and shared");
                tally.hold(alone, shared, asked);
            }
            let past = told_entry(Err(13));
            let shared = port::leagues_entry(&mut self.shared, league, count);
            tally.hold(past, shared, || {
                format!("past the {count} of league {league}")
            });
        }
    }
}

fn few_fields(runs: u64) -> Tally {
    const STEPS: usize = 250;
    share(PARTS * runs, |part, tally| {
        let mut random = Random::new(part);
        let mut leagues = Leagues::with([0, 0], random.index(6));
        new(tally, &mut leagues.shared);
        for _ in 0..STEPS {
            let league = random.between(1, 2) as u32;
            let call = some_call(&mut random, 14);
            leagues.call(tally, league, call);
            leagues.hold_entries(tally);
        }
    })
}

/// Both shares are full or nearly so, and most calls would pass 1,024 or come back to it.
fn near_full(runs: u64) -> Tally {
    const STEPS: usize = 60;
    share(PARTS * runs, |part, tally| {
        let mut random = Random::new(part);
        let mut count = || SHARE - random.index(4);
        let counts = [count(), count()];
        let mut leagues = Leagues::with(counts, 0);
        for _ in 0..STEPS {
            let league = random.between(1, 2) as u32;
            let call = some_call(&mut random, SHARE + 2);
            leagues.call(tally, league, call);
        }
        if part % 32 == 0 {
            leagues.hold_entries(tally);
        }
    })
}

/// One league declares up to its share and past it, then removes all, and the other makes a call after each.
fn filled(step: usize) -> Tally {
    share(2, |part, tally| {
        let mut random = Random::new(part);
        let (filling, other) = (1 + part as u32, 2 - part as u32);
        let mut leagues = Leagues::with([0, 0], 0);
        // these are all different, and in no order
        let fields = (1..=SHARE as u32 + 2).map(|number| number * 40_503 % 65_536);
        let declarations = fields.clone().map(|field| Call::Declare { field, code: 5 });
        let removals = fields.map(|field| Call::Remove { field });
        for (turn, call) in declarations.chain(removals).enumerate() {
            leagues.call(tally, filling, call);
            if turn % step == 0 {
                let call = some_call(&mut random, 14);
                leagues.call(tally, other, call);
            }
        }
        leagues.hold_entries(tally);
    })
}
