//! Records of a stream (RFC 5531, section 11), as the plain programs read and answer them.

use crate::items::put;
use std::fs::File;
use std::io::{self, BufRead, BufReader, Read, Write};
use std::os::fd::AsFd;
use std::process::ExitCode;

const MAX_RECORD: usize = 12288;
const MAX_FRAGMENTS: u32 = 16384;

/// The bit of a fragment's mark that says that it is the last of its record.
pub const LAST: u32 = 0x8000_0000;

enum Fault {
    RecordTooLong,
    EndInRecord,
    Device,
}

impl From<io::Error> for Fault {
    fn from(error: io::Error) -> Fault {
        match error.kind() {
            io::ErrorKind::UnexpectedEof => Fault::EndInRecord,
            _ => Fault::Device,
        }
    }
}

/// Reads a record, and says whether there was one.
fn next(input: &mut impl Read, record: &mut Vec<u8>) -> Result<bool, Fault> {
    record.clear();
    for count in 0.. {
        let mut mark = [0; 4];
        if count == 0 && input.read(&mut mark[..1])? == 0 {
            return Ok(false);
        }
        input.read_exact(&mut mark[usize::from(count == 0)..])?;
        let mark = u32::from_be_bytes(mark);
        let (start, len) = (record.len(), (mark & !LAST) as usize);
        if count == MAX_FRAGMENTS || len > MAX_RECORD - start {
            return Err(Fault::RecordTooLong);
        }
        record.resize(start + len, 0);
        input.read_exact(&mut record[start..])?;
        if mark & LAST != 0 {
            return Ok(true);
        }
    }
    unreachable!()
}

/// Writes the mark before a record that has room for it.
pub fn mark(record: &mut [u8]) {
    let mark = LAST | (record.len() - 4) as u32;
    record[..4].copy_from_slice(&mark.to_be_bytes());
}

/// When replies are written.
#[derive(Clone, Copy, PartialEq)]
pub enum Writes {
    /// Each by itself.
    Each,
    /// Together, as long as a whole record is at hand and they are few.
    Held,
    /// The same, and a whole record that is at hand is read where it lies.
    InPlace,
}

/// Replies of more bytes aren't held.
const MOST_HELD: usize = 57344;

/// The whole record of one fragment that stands in front, if one does.
fn record_in_front(bytes: &[u8]) -> Option<&[u8]> {
    let (mark, rest) = bytes.split_first_chunk()?;
    let mark = u32::from_be_bytes(*mark);
    let len = (mark & !LAST) as usize;
    if mark & LAST == 0 || len > MAX_RECORD {
        return None;
    }
    rest.get(..len)
}

/// Appends the reply to a record, after its mark, if it gets one.
fn append_reply(held: &mut Vec<u8>, record: &[u8], reply: &mut impl FnMut(&[u8], &mut Vec<u8>) -> Option<()>) {
    let start = held.len();
    put(held, &[0]);
    match reply(record, held) {
        Some(()) => mark(&mut held[start..]),
        None => held.truncate(start),
    }
}

/// Answers the records of standard input by what appends the reply to one, if it gets one.
fn answer_records(writes: Writes, mut reply: impl FnMut(&[u8], &mut Vec<u8>) -> Option<()>) -> Result<(), Fault> {
    let read_ahead = if writes == Writes::Each { 8192 } else { 65536 };
    let mut input = BufReader::with_capacity(read_ahead, io::stdin().lock());
    let mut output = File::from(io::stdout().as_fd().try_clone_to_owned()?);
    let mut record = Vec::with_capacity(MAX_RECORD);
    let mut held = Vec::with_capacity(MOST_HELD + 4 + MAX_RECORD);
    loop {
        let at_hand = record_in_front(input.buffer());
        if writes == Writes::Each || held.len() > MOST_HELD || at_hand.is_none() {
            output.write_all(&held)?;
            held.clear();
        }
        if let (Writes::InPlace, Some(whole)) = (writes, at_hand) {
            let len = whole.len();
            append_reply(&mut held, whole, &mut reply);
            input.consume(4 + len);
            continue;
        }
        if !next(&mut input, &mut record)? {
            return Ok(());
        }
        append_reply(&mut held, &record, &mut reply);
    }
}

/// The status of a program that answers the records of standard input.
pub fn answer(writes: Writes, reply: impl FnMut(&[u8], &mut Vec<u8>) -> Option<()>) -> ExitCode {
    match answer_records(writes, reply) {
        Ok(()) => ExitCode::SUCCESS,
        Err(Fault::RecordTooLong | Fault::EndInRecord) => ExitCode::from(1),
        Err(Fault::Device) => ExitCode::from(4),
    }
}
