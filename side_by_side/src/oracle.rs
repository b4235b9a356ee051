//! A fixed sample of the crate's answers: requests for the record program, and the lines that it
//! has to print for them. Nothing in it comes from our own code, so a repository without Rust at
//! hand can hold its record program against the crate.

use crate::calls::{number, Answer, Call, Mapping, Protection, Search};
use crate::crate_side::CrateSet;
use crate::ground_runs::GroundCalls;
use crate::tables::{Tables, MOST_AREAS, PAGE, WORDS};
use std::fmt::Write;
use std::fs;

/// The tables of the record program.
const PAGES: usize = 4096;
const REQUESTS: usize = 2_000;
/// Random calls hardly ever clear, so one request is made to.
const CLEAR_AT: usize = 600;
const SEED: u64 = 41;

type Record = [u8; 32];

/// Writes the requests to one file and the lines to another.
pub fn write(records_path: &str, lines_path: &str) -> Result<(), String> {
    let (records, lines) = sample();
    write_file(records_path, records.as_flattened())?;
    write_file(lines_path, lines.as_bytes())
}

fn write_file(path: &str, bytes: &[u8]) -> Result<(), String> {
    fs::write(path, bytes).map_err(|error| format!("{path}: {error}"))
}

fn sample() -> (Vec<Record>, String) {
    let mut crate_set = CrateSet::fresh(PAGES);
    let mut tables = Tables::fresh(MOST_AREAS * WORDS, PAGES);
    let mut calls = GroundCalls::new(SEED);
    let mut records = Vec::new();
    let mut lines = String::new();
    while records.len() < REQUESTS {
        let mut call = if records.len() == CLEAR_AT { Call::Clear } else { calls.next(&tables) };
        if let Call::FindFreeArea(search) = &mut call {
            // A request has no field for it.
            search.limit_start = 0;
        }
        let Some(record) = record(&call) else {
            continue;
        };
        records.push(record);
        let answer = crate_set.perform(&call);
        crate_set.write_into(&mut tables);
        lines += &line(&call, &answer);
    }
    for area in crate_set.list() {
        writeln!(lines, "area {:016x} {:016x} {:x}", area.start, area.end, area.flags)
            .expect("writing to a string");
    }
    (records, lines)
}

/// The request for a call, if the record program has one.
fn record(call: &Call) -> Option<Record> {
    let request = match *call {
        Call::Map(mapping) => map_request(mapping),
        Call::Unmap { start, size } => request([3, 0, 0, 0], 0, [start, size, 0]),
        Call::Protect(Protection { start, size, set, clear }) => {
            request([4, set as u8, clear as u8, 0], 0, [start, size, 0])
        }
        Call::Find { address } => request([5, 0, 0, 0], 0, [address, 0, 0]),
        Call::Overlaps { start, size } => request([6, 0, 0, 0], 0, [start, size, 0]),
        Call::FindFreeArea(Search { hint, size, limit_end, .. }) => {
            request([7, 0, PAGE.ilog2() as u8, 0], 0, [hint, size, limit_end])
        }
        Call::Clear => request([8, 0, 0, 0], 0, [0, 0, 0]),
        Call::Len | Call::IsEmpty | Call::Entries { .. } => return None,
    };
    Some(request)
}

fn map_request(mapping: Mapping) -> Record {
    let op = if mapping.replaces() { 2 } else { 1 };
    let bytes = [op, mapping.flags as u8, 0, mapping.linear as u8];
    request(bytes, mapping.delta, [mapping.start, mapping.size, 0])
}

fn request(bytes: [u8; 4], delta: u32, numbers: [u64; 3]) -> Record {
    let mut record = [0; 32];
    record[0..4].copy_from_slice(&bytes);
    record[4..8].copy_from_slice(&delta.to_le_bytes());
    for (place, number) in record[8..].chunks_exact_mut(8).zip(numbers) {
        place.copy_from_slice(&number.to_le_bytes());
    }
    record
}

/// The line for an answer.
fn line(call: &Call, answer: &Answer) -> String {
    let [first, second, ..] = answer.values;
    match call {
        _ if answer.number != number::ACCEPTED => format!("no {}\n", answer.number),
        Call::Find { .. } => format!("in {first:016x} {second:016x}\n"),
        Call::FindFreeArea(_) => format!("at {first:016x}\n"),
        Call::Overlaps { .. } if first == 0 => "free\n".into(),
        Call::Overlaps { .. } => "over\n".into(),
        _ => "ok\n".into(),
    }
}
