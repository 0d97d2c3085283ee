//! Table texts made from a number, right and damaged, for the programs to be compared on.
//!
//! The same number always makes the same text. Sixteen kinds take turns: accepted tables, texts at
//! the bounds, tables for the density test, damaged bytes, changed values, and each refusal that a
//! text can meet, alone and in company.

use crate::edges;
use crate::faults::{lengthen, make_room, put_in_rows, put_in_text};
use crate::plans::{plan, NEAR_THE_LIMIT};
use crate::random::Random;
use crate::rows::{accepted, any_accepted, Rows};
use crate::table::{Table, LARGEST_COST, LARGEST_INSTANT};
use crate::writer::written;

/// The kinds of texts that take turns.
pub const KINDS: u64 = 16;

/// The kinds of which every text is an accepted table's: those of [`crate::rows`].
pub const ACCEPTED_KINDS: u64 = crate::rows::KINDS as u64;

/// Numbers in a row that meet everything that there is to meet.
pub const TEXTS: u64 = 2_048;

/// Kinds of texts with one fault, before those with two.
const ALONE: std::ops::Range<u64> = 10..13;

/// Largest refusal that a text can meet.
const FAULTS: u64 = 10;

/// Makes the text of this number.
pub fn text(number: u64) -> Vec<u8> {
    let mut random = Random(!number);
    let (kind, turn) = (number % KINDS, (number / KINDS) as u32);
    match kind {
        0..ACCEPTED_KINDS => written(&accepted(&mut random, kind as u32, turn).table()),
        6 => edges::text(&mut random, turn),
        7 => for_density(&mut random, turn),
        8 => damaged(&mut random, turn),
        9 => changed(&mut random),
        _ => faulty(&mut random, &faults(number)),
    }
}

/// Gives the faults that the text of this number was made with, none where nobody chose them.
///
/// Faults from 5 on are refused in the order of their numbers, after those up to 4; of these, the
/// one at the earlier line.
pub fn faults(number: u64) -> Vec<u32> {
    let (kind, turn) = (number % KINDS, number / KINDS);
    if kind < ALONE.start {
        return vec![];
    }
    let row = turn * 3 + (kind - ALONE.start) % 3;
    if ALONE.contains(&kind) {
        return vec![1 + (row % FAULTS) as u32];
    }
    let mut pairs = (1..=FAULTS as u32).flat_map(|low| (low..=10).map(move |high| [low, high]));
    let pair = pairs.nth(row as usize % 55);
    pair.unwrap_or_default().to_vec()
}

/// Makes a text with these faults, the higher ones first, since they ask for a right table.
fn faulty(random: &mut Random, faults: &[u32]) -> Vec<u8> {
    let mut rows = any_accepted(random);
    make_room(&mut rows);
    let falling = || faults.iter().rev().copied();
    for fault in falling().filter(|&fault| fault > 4) {
        put_in_rows(random, &mut rows, fault);
    }
    let mut text = written(&rows.table());
    for fault in falling().filter(|&fault| fault <= 4) {
        put_in_text(random, &rows, &mut text, fault);
    }
    text
}

/// Makes a table for the density test: with few jobs, with a common multiple near the largest one,
/// or with costs that fill the relative deadlines; sections may clash.
fn for_density(random: &mut Random, turn: u32) -> Vec<u8> {
    let row = u64::from(turn / 4);
    let table = match turn % 4 {
        0 => near_the_limit(random, turn / 4).table(),
        1 => plan(8 * row + 2).table,
        2 => plan(8 * row + 7).table,
        _ => filled(random).table(),
    };
    written(&table)
}

/// Makes a table of small costs whose common multiple is near the largest one.
fn near_the_limit(random: &mut Random, turn: u32) -> Rows {
    let relatives = NEAR_THE_LIMIT[turn as usize % NEAR_THE_LIMIT.len()];
    let mut rows = Rows::default();
    for place in 0..2 + random.place(4) {
        let relative = relatives[place % relatives.len()];
        let release = random.below(2).min(LARGEST_INSTANT - relative);
        let cost = 1 + random.below(relative.min(30));
        rows.jobs.push([release, cost, release + relative]);
    }
    rows
}

/// Makes a table whose costs about fill its relative deadlines, with nested sections.
fn filled(random: &mut Random) -> Rows {
    let mut rows = any_accepted(random);
    let jobs = rows.job_count();
    for job in &mut rows.jobs {
        let relative = 12 * (1 + random.below(jobs));
        job[2] = job[0] + relative.max(job[1]);
    }
    rows
}

/// Makes a right text and damages up to three of its bytes, by turns very many.
fn damaged(random: &mut Random, turn: u32) -> Vec<u8> {
    let mut text = written(&any_accepted(random).table());
    if turn % 8 == 7 {
        lengthen(random, &mut text);
        return text;
    }
    for _ in 0..1 + turn % 3 {
        damage(random, &mut text);
    }
    text
}

/// Changes, puts in, doubles or drops one byte; every other time a digit by a digit.
fn damage(random: &mut Random, text: &mut Vec<u8>) {
    let mut at = random.place(text.len());
    let mut byte = random.one_of(b"0123456789=\n\r jobstarc-");
    match random.below(4) {
        0 => byte = random.word() as u8,
        1 => (),
        _ => {
            let digit = text[at..].iter().position(u8::is_ascii_digit);
            at += digit.unwrap_or(0);
            byte = random.one_of(b"0123456789");
        }
    }
    match random.below(4) {
        0 => text[at] = byte,
        1 => text.insert(at, byte),
        2 => text.insert(at, text[at]),
        _ => drop(text.remove(at)),
    }
}

/// Makes a right table and changes up to two of its values, by one or to some bound.
fn changed(random: &mut Random) -> Vec<u8> {
    let rows = any_accepted(random);
    let mut table = rows.table();
    for _ in 0..1 + random.below(2) {
        change(random, &mut table, rows.job_count());
    }
    written(&table)
}

/// Changes one value of a table.
fn change(random: &mut Random, table: &mut Table, jobs: u32) {
    let list = match random.below(3) {
        0 if !table.arcs.is_empty() => &mut table.arcs,
        1 if !table.sections.is_empty() => &mut table.sections,
        _ => &mut table.jobs,
    };
    let place = random.place(list.len());
    let value = list[place];
    let near = [
        value.saturating_add(1),
        value.saturating_sub(1),
        value / 2,
        jobs,
        jobs - 1,
    ];
    let bound = [0, 1, 15, 16, LARGEST_COST, LARGEST_INSTANT, u32::MAX];
    list[place] = match random.percent(60) {
        true => random.one_of(&near),
        false => random.one_of(&bound),
    };
}
