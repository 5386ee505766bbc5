//! Of the tasks: the calls of one of two leagues on a table that both fill. The original has none.

use crate::inputs::{declared, questions};
use crate::measure::compare;
use crate::plain_table::{self, Kind};
use crate::tasks::Show;
use pennyquill::ffi::{self, Answer};
use std::cell::RefCell;

const D: u32 = 2;

/// The one that asks.
const LEAGUE: u32 = 1;

/// One league's fields, each with its kind, in ascending order.
type Own = Vec<(u16, Kind)>;

pub fn all(show: Show) {
    look_up(show);
    declare_and_remove(show);
}

/// 1,024 fields of each league: every second one of the 2,048.
fn shares() -> [Own; 2] {
    let declared = declared();
    let every_second = |from: usize| declared.iter().copied().skip(from).step_by(2).collect();
    [every_second(0), every_second(1)]
}

/// The table of both, and room for one entry more.
fn table(shares: &[Own; 2]) -> Vec<u8> {
    let count = shares[0].len() + shares[1].len();
    let mut table = (1 + 4 * count as u32).to_be_bytes().to_vec();
    table.push(2);
    for (league, own) in (1..).zip(shares) {
        for &(field, kind) in own {
            table.push(league);
            table.extend(field.to_be_bytes());
            table.push(kind as u8);
        }
    }
    table.extend([0; 4]);
    table
}

/// Here a plain search over the league's own fields and the original's readers stand for it.
fn look_up(show: Show) {
    let shares = shares();
    let (own, table) = (&shares[0], table(&shares));
    let plain = |&(field, number): &(u32, i32)| plain_table::lookup(own, field, Kind::D, number);
    let bounded = |&(field, number): &(u32, i32)| {
        plain_table::lookup_one(own.as_ptr(), own.len(), field, D, number)
    };
    let port = |&(field, number): &(u32, i32)| {
        let (bytes, length) = (table.as_ptr(), table.len());
        // SAFETY: the pointer and the length are those of a slice.
        unsafe { ffi::pq_leagues_lookup(bytes, length, LEAGUE, field, D, number) }
    };
    let questions = questions(own);
    for question in &questions {
        assert_eq!(port(question), bounded(question));
    }
    show(
        "look up among a league's 1,024 fields of 2,048, one by one, beside a plain search †",
        compare(&questions, plain, bounded, port),
    );
}

/// A field that is not there, so that the entries after it make room, and close up again. A list of the league's
/// own fields, which checks nothing, stands for the original.
fn declare_and_remove(show: Show) {
    let mut shares = shares();
    let fields: Vec<u16> = shares[0].iter().map(|&(field, _)| field).collect();
    let last = shares[0].pop().expect("a league has fields");
    let table = RefCell::new(table(&shares));
    let own = RefCell::new(shares[0].clone());
    let is_new = |field: &u16| *field < last.0 && fields.binary_search(field).is_err();
    let new: Vec<u16> = (1..).step_by(127).take(512).filter(is_new).collect();
    let plain = |&field: &u16| {
        let mut own = own.borrow_mut();
        (declare(&mut own, field, Kind::D), remove(&mut own, field))
    };
    let bounded = |&field: &u16| {
        let mut own = own.borrow_mut();
        let declared = declare_at(&mut own, field.into());
        (declared, remove_at(&mut own, field.into()))
    };
    let port = |&field: &u16| {
        let mut table = table.borrow_mut();
        let (bytes, length) = (table.as_mut_ptr(), table.len());
        // SAFETY: the pointer and the length are those of a slice that is ours alone.
        unsafe {
            let declared = ffi::pq_leagues_declare(bytes, length, LEAGUE, field.into(), D);
            (
                declared,
                ffi::pq_leagues_remove(bytes, length, LEAGUE, field.into()),
            )
        }
    };
    for field in &new {
        assert_eq!(port(field), bounded(field));
    }
    show(
        "declare and remove a field of a league among 2,047, beside a plain list †",
        compare(&new, plain, bounded, port),
    );
}

fn declare(own: &mut Own, field: u16, kind: Kind) -> usize {
    match own.binary_search_by_key(&field, |&(field, _)| field) {
        Ok(place) => own[place].1 = kind,
        Err(place) => own.insert(place, (field, kind)),
    }
    own.len()
}

fn remove(own: &mut Own, field: u16) -> usize {
    if let Ok(place) = own.binary_search_by_key(&field, |&(field, _)| field) {
        own.remove(place);
    }
    own.len()
}

fn gives(count: usize) -> Answer {
    Answer {
        refusal: 0,
        value: count as u32,
    }
}

/// The same behind functions of the boundary's shape.
#[inline(never)]
extern "C" fn declare_at(own: &mut Own, field: u32) -> Answer {
    gives(declare(own, field as u16, Kind::D))
}

#[inline(never)]
extern "C" fn remove_at(own: &mut Own, field: u32) -> Answer {
    gives(remove(own, field as u16))
}
