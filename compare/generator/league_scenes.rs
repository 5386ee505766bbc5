//! The script of tables of two leagues. The second reading answers it.

use crate::book_script::{HEAD, Script};
use crate::league_script::{FIVE, RUN, SHARE, SIZE, start};
use crate::numbers::some_number;
use crate::random::Random;
use crate::table_script::{DECLARED, GAMES, NO_DATE, NUMBER};
use crate::{league_apart, league_damage, league_moves};

/// Both sides of the bounds on leagues, and those that a cut to 8 or 16 bits would make good.
const LEAGUES: [u32; 8] = [0, 1, 2, 3, 257, 258, 65_537, u32::MAX];

/// Both sides of the bounds on fields, and of what a cut or a league beside the field would make of them.
const FIELDS: [u32; 9] = [
    0,
    1,
    500,
    65_535,
    65_536,
    65_537,
    65_536 + 500,
    2 * 65_536 + 500,
    u32::MAX,
];

/// Every code, and those that a cut to 8 bits would make good.
const CODES: [u32; 10] = [0, 1, 2, 3, 4, 5, 6, 7, 258, u32::MAX];

const RANDOM_STEPS: usize = 120;

pub fn all(stream: u64) -> String {
    let mut script = Script::default();
    let mut random = Random::new(stream);
    small_buffers(&mut script);
    shown_bytes(&mut script);
    leagues(&mut script);
    fields(&mut script);
    codes(&mut script);
    places(&mut script);
    ends_of_buffers(&mut script);
    full_shares(&mut script);
    removals(&mut script);
    league_damage::all(&mut script);
    league_moves::all(&mut script);
    random_steps(&mut script, &mut random);
    league_apart::all(&mut script, &mut random);
    script.text
}

fn small_buffers(script: &mut Script) {
    script.remark("buffers of 0 to 13 bytes");
    for length in 0..=HEAD + 2 * SIZE {
        script.buffer(length);
        script.check_own(1);
        script.line("new");
        script.declare_own(2, 500, 2);
        script.declare_own(1, 500, 3);
        script.check_both();
        script.entry_own(1, 0);
        script.lookup_own(2, 500, 3, NUMBER);
        script.remove_own(2, 500);
    }
}

/// Both declare the same fields, and each removes its own.
fn shown_bytes(script: &mut Script) {
    script.remark("500 as D and 3 as V by both, one of them as another kind, then removed");
    script.buffer(start(4) + 1);
    script.line("new");
    for (league, field, code) in [(2, 500, 2), (1, 500, 2), (2, 3, 6), (1, 3, 6), (1, 500, 5)] {
        script.declare_own(league, field, code);
        script.check_both();
    }
    for league in [1, 2] {
        (0..=2).for_each(|place| script.entry_own(league, place));
        script.lookup_own(league, 500, 3, NUMBER + 6);
        script.lookup_own(league, 501, 3, NUMBER + 6);
    }
    for (league, field) in [(1, 500), (1, 500), (2, 3), (2, 500), (1, 3), (1, 3)] {
        script.remove_own(league, field);
        script.check_both();
    }
    script.line("new");
}

fn leagues(script: &mut Script) {
    script.remark("leagues at both sides of each bound");
    for league in LEAGUES {
        script.leagues(&FIVE, SIZE);
        script.check_own(league);
        script.entry_own(league, 0);
        script.entry_own(league, 9);
        script.lookup_own(league, 20, 2, NUMBER);
        script.lookup_own(league, 20, 2, NO_DATE);
        script.declare_own(league, 20, 3);
        script.declare_own(league, 25, 2);
        script.declare_own(league, 26, 2);
        script.remove_own(league, 5);
        script.remove_own(league, 10);
    }
}

fn fields(script: &mut Script) {
    script.remark("fields at both sides of each bound");
    for field in FIELDS {
        for league in [1, 2] {
            script.leagues(&[(1, 500, 1, 2), (2, 500, 1, 5)], SIZE);
            script.lookup_own(league, field, 5, NUMBER);
            script.declare_own(league, field, 6);
            script.entry_own(league, 1);
            script.lookup_own(league, field, 5, NUMBER);
            script.lookup_own(3 - league, field, 5, NUMBER);
            script.remove_own(league, field);
            script.remove_own(league, field);
        }
    }
}

fn codes(script: &mut Script) {
    script.remark("codes and game kinds, of a field that is there and of one that is not");
    for code in CODES {
        script.leagues(&[(1, 500, 1, 2), (2, 501, 1, 1)], SIZE);
        for field in [500, 501] {
            script.declare_own(1, field, code);
            script.lookup_own(1, field, 2, NUMBER + 1);
            script.lookup_own(1, field, code, NUMBER);
            script.lookup_own(2, field, code, NO_DATE);
        }
    }
}

/// Among one's own, and past the last of them, where the other's stand.
fn places(script: &mut Script) {
    script.remark("places among one's own");
    script.leagues(&FIVE, 0);
    for league in [1, 2] {
        (0..=5).for_each(|place| script.entry_own(league, place));
    }
    script.entry_own(1, 1 << 30);
    script.entry_own(2, 1 << 59);
    script.full_leagues([SHARE, SHARE], 0);
    for league in [1, 2] {
        for place in [0, SHARE - 1, SHARE, 2 * SHARE] {
            script.entry_own(league, place);
        }
    }
}

fn ends_of_buffers(script: &mut Script) {
    script.remark("a table that ends 0 to 5 bytes before its buffer");
    for runs in [0, 1, 3, 5] {
        for after in 0..=5 {
            script.leagues(&FIVE[..runs], after);
            script.declare_own(1, 10, 6);
            script.declare_own(2, 5, 3);
            script.declare_own(1, 15, 5);
            script.remove_own(1, 10);
            script.declare_own(2, 25, 1);
            script.declare_own(2, 26, 1);
        }
    }
}

/// A league at 1,023, at 1,024 and at 1,025, with none, some and all of the other's: a new field before all
/// and after all, and one that is there.
fn full_shares(script: &mut Script) {
    for other in [0, 1, SHARE] {
        for own in [SHARE - 1, SHARE, SHARE + 1] {
            for league in [1, 2] {
                let counts = if league == 1 {
                    [own, other]
                } else {
                    [other, own]
                };
                script.remark(&format!("{} entries and {}", counts[0], counts[1]));
                script.full_leagues(counts, SIZE);
                script.check_both();
                script.declare_own(league, 7, 6);
                script.declare_own(league, 65_535, 6);
                script.declare_own(league, 65_535, 4);
                script.declare_own(league, RUN, 5);
                script.lookup_own(league, RUN, 3, NUMBER + 6);
                script.lookup_own(league, 8, 3, NUMBER + 6);
                script.remove_own(league, 8);
                script.remove_own(league, RUN + 500);
                script.declare_own(league, 8, 2);
                script.declare_own(league, RUN + 500, 2);
                script.declare_own(3 - league, 8, 3);
                script.check_both();
            }
        }
    }
    script.remark("2,047 entries and no four bytes after");
    for after in 0..SIZE {
        script.full_leagues([SHARE - 1, SHARE], after);
        script.declare_own(1, 7, 2);
        script.declare_own(1, RUN, 3);
        script.declare_own(2, RUN, 3);
    }
}

/// Each of five: the others close up, and the four bytes freed are 0; then the room is used again.
fn removals(script: &mut Script) {
    for (league, field, _, _) in FIVE {
        script.remark(&format!("{field} of league {league} removed"));
        script.leagues(&FIVE, 2);
        script.remove_own(league.into(), field);
        script.check_both();
        script.remove_own(league.into(), field);
        script.lookup_own(1, 20, 2, NUMBER);
        script.lookup_own(2, 20, 2, NUMBER);
        script.declare_own(1, 15, 2);
        script.declare_own(2, 15, 5);
    }
    script.remark("all entries removed, and some declared again");
    script.leagues(&FIVE, 1);
    for (league, field, _, _) in FIVE {
        script.remove_own(league.into(), field);
    }
    script.declare_own(2, 1, 2);
    script.declare_own(1, 65_535, 3);
    script.check_both();
}

/// Calls of both leagues on few fields, most of them allowed.
fn random_steps(script: &mut Script, random: &mut Random) {
    for room in [3, 7, 12] {
        script.remark(&format!("random steps on a table of at most {room}"));
        script.buffer(start(room) + 2);
        script.line("new");
        for _ in 0..RANDOM_STEPS / 3 {
            let league = some_league(random);
            let call = some_call(random, league, 9);
            script.line(call);
        }
    }
}

fn some_league(random: &mut Random) -> u32 {
    if random.chance(4) {
        random.pick(&LEAGUES)
    } else {
        random.between(1, 2) as u32
    }
}

/// A call of a league, on a field up to the last one or, now and then, on one at a bound.
pub fn some_call(random: &mut Random, league: u32, last: i64) -> String {
    let field = if random.chance(5) {
        random.pick(&FIELDS)
    } else {
        random.between(1, last) as u32
    };
    match random.index(10) {
        0..=3 => {
            let codes: &[u32] = if random.chance(8) { &CODES } else { &DECLARED };
            format!("declare {league} {field} {}", random.pick(codes))
        }
        4..=5 => format!("remove {league} {field}"),
        6 => format!("entry {league} {}", random.index(6)),
        7 => format!("check {league}"),
        _ => {
            let (game, number) = (random.pick(&GAMES), some_number(random));
            format!("lookup {league} {field} {game} {number}")
        }
    }
}
