//! Two leagues on one table, and beside it a table of one of them alone, in the other buffer: each call of
//! that league is made on both, and the answers stand one after the other. Isolation says that they are
//! the same.

use crate::book_script::Script;
use crate::league_scenes::some_call;
use crate::league_script::{RUN, Run, SHARE, WHOLE, start};
use crate::random::Random;
use crate::table_script::NUMBER;

const RANDOM_CALLS: usize = 90;

pub fn all(script: &mut Script, random: &mut Random) {
    for league in [1, 2] {
        random_calls(script, random, league);
        full_shares(script, league);
    }
}

/// A table of these runs, in a buffer with room for all entries of both.
fn table(script: &mut Script, runs: &[Run]) {
    let count: usize = runs.iter().map(|run| run.2).sum();
    script.leagues(runs, WHOLE - start(count));
}

/// On both buffers, which have the same entries of the call's league.
fn on_both(script: &mut Script, call: &str) {
    script.line(call);
    script.line("swap");
    script.line(call);
    script.line("swap");
}

fn random_calls(script: &mut Script, random: &mut Random, league: u32) {
    script.remark(&format!(
        "random calls, those of league {league} on its own table too"
    ));
    table(script, &[]);
    script.line("swap");
    table(script, &[]);
    for _ in 0..RANDOM_CALLS {
        let caller = random.between(1, 2) as u32;
        let call = some_call(random, caller, 7);
        if caller == league {
            on_both(script, &call);
        } else {
            script.line(call);
        }
    }
}

/// The other league fills its share, or has it full: at 1,022 of one's own two more are declared, and a
/// third is refused.
fn full_shares(script: &mut Script, league: u32) {
    let run = |of: u32, count: usize| (of as u8, RUN, count, 2);
    let (own, other) = (run(league, SHARE - 2), run(3 - league, SHARE));
    script.remark(&format!(
        "a full share beside one of league {league} that gets full"
    ));
    table(script, &[own]);
    script.line("swap");
    let mut runs = [own, other];
    runs.sort_by_key(|&(league, ..)| league);
    table(script, &runs);
    for call in [
        format!("check {league}"),
        format!("declare {league} 7 6"),
        format!("declare {league} 65535 1"),
        format!("declare {league} 8 6"),
        format!("declare {league} 7 5"),
        format!("entry {league} {}", SHARE - 1),
        format!("entry {league} {SHARE}"),
        format!("lookup {league} 7 3 {NUMBER}"),
        format!("lookup {league} 8 3 {NUMBER}"),
        format!("remove {league} 8"),
        format!("remove {league} {RUN}"),
        format!("declare {league} 8 6"),
        format!("declare {league} {RUN} 6"),
    ] {
        on_both(script, &call);
    }
    script.check_both();
}
