//! One question about a table of two leagues, asked of the boundary and of the second reading: the answer,
//! and every byte of the buffer afterwards.

use crate::port;
use crate::table_questions::{entries, shown, told, told_entry, told_looked};
use crate::tally::Tally;
use pennyquill::ffi::{Answer, Lookup, Record};
use second_reading::league_table;

/// What stands after a target of a move, and has to stay.
const GUARD: usize = 8;

/// What a league asks.
#[derive(Clone, Copy, Debug)]
pub enum Call {
    Check,
    Entry { place: usize },
    Declare { field: u32, code: u32 },
    Remove { field: u32 },
    Lookup { field: u32, game: u32, number: i32 },
}

/// What it is told, by what the call gives.
#[derive(Clone, Copy, Debug, PartialEq, Eq)]
pub enum Told {
    Answer(Answer),
    Record(Record),
    Lookup(Lookup),
}

fn second(buffer: &mut [u8], league: u32, call: Call) -> Told {
    match call {
        Call::Check => Told::Answer(told(league_table::check(buffer, league), entries)),
        Call::Entry { place } => {
            Told::Record(told_entry(league_table::entry(buffer, league, place)))
        }
        Call::Declare { field, code } => {
            let declared = league_table::declare(buffer, league, field, code);
            Told::Answer(told(declared, entries))
        }
        Call::Remove { field } => {
            Told::Answer(told(league_table::remove(buffer, league, field), entries))
        }
        Call::Lookup {
            field,
            game,
            number,
        } => {
            let looked = league_table::lookup(buffer, league, field, game, number);
            Told::Lookup(told_looked(looked))
        }
    }
}

fn boundary(buffer: &mut [u8], league: u32, call: Call) -> Told {
    match call {
        Call::Check => Told::Answer(port::leagues_check(buffer, league)),
        Call::Entry { place } => Told::Record(port::leagues_entry(buffer, league, place)),
        Call::Declare { field, code } => {
            Told::Answer(port::leagues_declare(buffer, league, field, code))
        }
        Call::Remove { field } => Told::Answer(port::leagues_remove(buffer, league, field)),
        Call::Lookup {
            field,
            game,
            number,
        } => Told::Lookup(port::leagues_lookup(buffer, league, field, game, number)),
    }
}

/// Of both, and gives what the boundary answers; the buffer is then as the boundary leaves it.
pub fn ask(tally: &mut Tally, buffer: &mut [u8], league: u32, call: Call) -> Told {
    let before = buffer.to_vec();
    let mut right_buffer = before.clone();
    let right = second(&mut right_buffer, league, call);
    let port = boundary(buffer, league, call);
    let asked = || format!("{call:?} of league {league} in {}", shown(&before));
    tally.hold(right, port, asked);
    tally.hold(&right_buffer[..], &*buffer, asked);
    port
}

/// The same, and the buffer is as it was.
pub fn try_on(tally: &mut Tally, buffer: &[u8], league: u32, call: Call) {
    ask(tally, &mut buffer.to_vec(), league, call);
}

pub fn new(tally: &mut Tally, buffer: &mut [u8]) {
    let mut port_buffer = buffer.to_vec();
    let length = buffer.len();
    let right = told(league_table::new(buffer), |()| 0);
    let port = port::leagues_new(&mut port_buffer);
    let asked = || format!("new table of leagues over {length} bytes");
    tally.hold(right, port, asked);
    tally.hold(&*buffer, &port_buffer[..], asked);
}

/// A version 1 table moved into so many bytes: what is answered, every byte of the target, those after it, and
/// those of the table that is moved. Gives the target where the move is done.
pub fn moved(tally: &mut Tally, from: &[u8], room: usize) -> Option<Vec<u8>> {
    let target: Vec<u8> = (0..room + GUARD).map(|place| place as u8 ^ 0xA5).collect();
    let (mut right_target, mut port_target) = (target.clone(), target);
    let mut port_from = from.to_vec();
    let right = league_table::from_table(from, &mut right_target[..room]);
    let port = port::leagues_from_table(&mut port_from, &mut port_target[..room]);
    let asked = || format!("move into {room} bytes of {}", shown(from));
    tally.hold(told(right, entries), port, asked);
    tally.hold(&right_target[..], &port_target[..], asked);
    tally.hold(from, &port_from[..], asked);
    port_target.truncate(room);
    (port.refusal == 0).then_some(port_target)
}
