//! A plain program that `nfsacc rpc` is measured against: it answers the same records with the same bytes, and proves
//! nothing. One record buffer is used again for each record, and the input is buffered.
//!
//!     rpc answer          answers the records of standard input, each reply by a write of its own
//!     rpc hold            the same, and holds replies as long as a whole record is at hand
//!     rpc place           the same, and reads such a record where it lies
//!     rpc stream COUNT    writes so many records, GETATTR of the root and LOOKUP of hello by turns

mod items;
mod records;

use items::{Items, put};
use records::{LAST, Writes, answer};
use std::collections::{BTreeMap, HashMap};
use std::io::{self, BufWriter, Write};
use std::process::ExitCode;

const NODE: u32 = 1;

/// Why a call gets no results.
enum Refusal {
    RpcMismatch,
    AuthError(u32),
    Accepted(u32),
    ProgramMismatch,
}

#[derive(Clone, Copy)]
enum Stat {
    NoEnt = 2,
    Acces = 13,
    NotDir = 20,
    Stale = 70,
}

struct Header {
    program: u32,
    version: u32,
    procedure: u32,
    flavor: u32,
}

fn header(items: &mut Items) -> Option<Header> {
    let program = items.word()?;
    let version = items.word()?;
    let procedure = items.word()?;
    let flavor = items.word()?;
    items.opaque(400)?;
    items.word()?;
    items.opaque(400)?;
    Some(Header { program, version, procedure, flavor })
}

enum Body {
    Regular(Vec<u8>),
    Directory { above: u32, entries: HashMap<Vec<u8>, u32> },
}

struct Node {
    mode: u32,
    nlink: u32,
    uid: u32,
    gid: u32,
    body: Body,
}

impl Node {
    fn attributes(&self, number: u32) -> [u32; 17] {
        let (kind, bits, size) = match &self.body {
            Body::Regular(bytes) => (1, 0o100000, bytes.len() as u32),
            Body::Directory { .. } => (2, 0o040000, 512),
        };
        let blocks = size.div_ceil(512);
        let mode = bits | self.mode;
        [
            kind, mode, self.nlink, self.uid, self.gid, size, 512, 0, blocks, NODE, number, 0, 0, 0, 0, 0, 0,
        ]
    }

    fn may_search(&self, uid: u32, gid: u32) -> bool {
        let class = match () {
            () if uid == self.uid => 0o100,
            () if gid == self.gid => 0o010,
            () => 0o001,
        };
        uid == 0 || self.mode & class != 0
    }
}

struct Tree {
    nodes: BTreeMap<u32, Node>,
}

impl Tree {
    fn opening() -> Tree {
        let entries = HashMap::from([(b"hello".to_vec(), 2)]);
        let root = Body::Directory { above: 1, entries };
        let hello = Body::Regular(b"hello\n".to_vec());
        let node = |mode, nlink, body| Node { mode, nlink, uid: 0, gid: 0, body };
        Tree { nodes: BTreeMap::from([(1, node(0o777, 2, root)), (2, node(0o644, 1, hello))]) }
    }

    fn node(&self, handle: &[u8; 32]) -> Result<(u32, &Node), Stat> {
        let mut items = Items(handle);
        let (fsid, number) = (items.word(), items.word());
        match number {
            Some(number) if fsid == Some(NODE) && items.0.iter().all(|byte| *byte == 0) => {
                Ok((number, self.nodes.get(&number).ok_or(Stat::Stale)?))
            }
            _ => Err(Stat::Stale),
        }
    }

    fn lookup(&self, dir: &[u8; 32], name: &[u8]) -> Result<(u32, &Node), Stat> {
        let (own, node) = self.node(dir)?;
        let Body::Directory { above, entries } = &node.body else {
            return Err(Stat::NotDir);
        };
        if !node.may_search(65534, 65534) {
            return Err(Stat::Acces);
        }
        let number = match name {
            b"." => own,
            b".." => *above,
            name => *entries.get(name).ok_or(Stat::NoEnt)?,
        };
        Ok((number, self.nodes.get(&number).ok_or(Stat::Stale)?))
    }
}

fn check(header: &Header) -> Result<(), Refusal> {
    match header {
        Header { flavor, .. } if *flavor != 0 => Err(Refusal::AuthError(2)),
        Header { program, .. } if *program != 100003 => Err(Refusal::Accepted(1)),
        Header { version, .. } if *version != 2 => Err(Refusal::ProgramMismatch),
        _ => Ok(()),
    }
}

/// Appends the results of a procedure.
fn perform(tree: &Tree, procedure: u32, items: &mut Items, out: &mut Vec<u8>) -> Result<(), Refusal> {
    const GARBAGE: Refusal = Refusal::Accepted(4);
    match procedure {
        0 => put(out, &[1, 0, 0, 0, 0]),
        1 => {
            let file = items.fixed::<32>().ok_or(GARBAGE)?;
            put(out, &[1, 0, 0, 0, 0]);
            match tree.node(file) {
                Ok((number, node)) => {
                    put(out, &[0]);
                    put(out, &node.attributes(number));
                }
                Err(stat) => put(out, &[stat as u32]),
            }
        }
        4 => {
            let dir = items.fixed::<32>().ok_or(GARBAGE)?;
            let name = items.opaque(255).ok_or(GARBAGE)?;
            put(out, &[1, 0, 0, 0, 0]);
            match tree.lookup(dir, name) {
                Ok((number, node)) => {
                    put(out, &[0, NODE, number, 0, 0, 0, 0, 0, 0]);
                    put(out, &node.attributes(number));
                }
                Err(stat) => put(out, &[stat as u32]),
            }
        }
        _ => return Err(Refusal::Accepted(3)),
    }
    Ok(())
}

/// Appends the reply to a record, if it gets one.
fn reply(tree: &Tree, record: &[u8], out: &mut Vec<u8>) -> Option<()> {
    let mut items = Items(record);
    let start = out.len();
    let xid = items.word()?;
    if items.word()? != 0 {
        return None;
    }
    let refusal = if items.word()? != 2 {
        Err(Refusal::RpcMismatch)
    } else {
        let header = header(&mut items)?;
        put(out, &[xid]);
        check(&header).and_then(|()| perform(tree, header.procedure, &mut items, out))
    };
    if let Err(refusal) = refusal {
        out.truncate(start);
        put(out, &[xid]);
        match refusal {
            Refusal::RpcMismatch => put(out, &[1, 1, 0, 2, 2]),
            Refusal::AuthError(stat) => put(out, &[1, 1, 1, stat]),
            Refusal::Accepted(stat) => put(out, &[1, 0, 0, 0, stat]),
            Refusal::ProgramMismatch => put(out, &[1, 0, 0, 0, 2, 2, 2]),
        }
    }
    Some(())
}

fn stream(count: u32) -> io::Result<()> {
    let mut output = BufWriter::new(io::stdout().lock());
    let mut record = Vec::new();
    for xid in 0..count {
        record.clear();
        if xid % 2 == 0 {
            put(&mut record, &[LAST + 72, xid, 0, 2, 100003, 2, 1, 0, 0, 0, 0, 1, 1, 0, 0, 0, 0, 0, 0]);
        } else {
            put(&mut record, &[LAST + 84, xid, 0, 2, 100003, 2, 4, 0, 0, 0, 0, 1, 1, 0, 0, 0, 0, 0, 0, 5]);
            record.extend_from_slice(b"hello\0\0\0");
        }
        output.write_all(&record)?;
    }
    output.flush()
}

fn main() -> ExitCode {
    let words: Vec<String> = std::env::args().collect();
    match words.iter().map(String::as_str).collect::<Vec<_>>()[..] {
        [_, "answer"] => {
            let tree = Tree::opening();
            answer(Writes::Each, |record, out| reply(&tree, record, out))
        }
        [_, "hold"] => {
            let tree = Tree::opening();
            answer(Writes::Held, |record, out| reply(&tree, record, out))
        }
        [_, "place"] => {
            let tree = Tree::opening();
            answer(Writes::InPlace, |record, out| reply(&tree, record, out))
        }
        [_, "stream", count] => match count.parse().map(stream) {
            Ok(Ok(())) => ExitCode::SUCCESS,
            _ => ExitCode::FAILURE,
        },
        _ => ExitCode::from(2),
    }
}
