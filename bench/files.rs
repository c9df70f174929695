//! A plain program that `nfsacc rpc` is measured against: it answers calls of all procedures of NFS version 2 with the
//! same bytes, and proves nothing. Files, names and cookies are in std's maps, one record buffer is used again for each
//! record, the input is buffered, and a reply is one write.
//!
//!     files answer                    answers the records of standard input, each reply by a write of its own
//!     files hold                      the same, and holds replies as long as a whole record is at hand
//!     files place                     the same, and reads such a record where it lies
//!     files alone PROCEDURE COUNT     writes so many calls of one procedure, or of it and of the one that undoes it by
//!                                     turns, after those that make a file of 8,192 bytes and a symbolic link
//!     files stream DIRECTORIES FILES ROUNDS    writes records that make so many directories, of so many files each, or
//!                                     so many files in the root, and then so many rounds of 32 mixed calls

mod items;
mod records;

use items::{Items, put};
use records::{Writes, answer, mark};
use std::collections::{BTreeMap, HashMap};
use std::io::{self, BufWriter, Write};
use std::process::ExitCode;

const NODE: u32 = 1;
const ROOT: u32 = 1;
const MAX_DATA: u32 = 8192;
const MAX_FILE_SIZE: u64 = 1_048_576;
const MAX_FILES: usize = 8192;
const MAX_ENTRIES: usize = 16384;
const MAX_BLOCKS: usize = 32768;
const IGNORED: u32 = u32::MAX;

/// Why a call gets no results.
enum Refusal {
    RpcMismatch,
    AuthError(u32),
    Accepted(u32),
    ProgramMismatch,
}

const GARBAGE: Refusal = Refusal::Accepted(4);

#[derive(Clone, Copy)]
enum Stat {
    Perm = 1,
    NoEnt = 2,
    NxIo = 6,
    Acces = 13,
    Exist = 17,
    NotDir = 20,
    IsDir = 21,
    FBig = 27,
    NoSpc = 28,
    NotEmpty = 66,
    Stale = 70,
}

fn check(holds: bool, stat: Stat) -> Result<(), Stat> {
    if holds { Ok(()) } else { Err(stat) }
}

type Time = (u32, u32);

impl<'a> Items<'a> {
    /// The number of a file here; 0, which no file has, for a handle that names none.
    fn handle(&mut self) -> Option<u32> {
        let (handle, rest) = self.0.split_first_chunk::<32>()?;
        self.0 = rest;
        let mut items = Items(handle);
        let (fsid, number) = (items.word()?, items.word()?);
        let is_here = fsid == NODE && items.0.iter().all(|byte| *byte == 0);
        Some(if is_here { number } else { 0 })
    }

    fn name(&mut self) -> Option<&'a [u8]> {
        self.opaque(255)
    }

    fn given(&mut self, now: Time) -> Option<Given> {
        let (mode, uid, gid, size) = (self.word()?, self.word()?, self.word()?, self.word()?);
        let (atime, mtime) = ((self.word()?, self.word()?), (self.word()?, self.word()?));
        let word = |word| (word != IGNORED).then_some(word);
        let time = |time: Time| {
            let given = if time.1 > 999_999 { now } else { time };
            (time.0 != IGNORED).then_some(given)
        };
        Some(Given {
            mode: word(mode).filter(|mode| *mode != 0xffff).map(|mode| mode & 0o7777),
            uid: word(uid),
            gid: word(gid),
            size: word(size),
            atime: time(atime),
            mtime: time(mtime),
        })
    }
}

/// What a caller asks of attributes.
struct Given {
    mode: Option<u32>,
    uid: Option<u32>,
    gid: Option<u32>,
    size: Option<u32>,
    atime: Option<Time>,
    mtime: Option<Time>,
}

impl Given {
    const NOTHING: Given = Given { mode: None, uid: None, gid: None, size: None, atime: None, mtime: None };

    fn is_any(&self) -> bool {
        let words = [self.mode, self.uid, self.gid, self.size];
        words.iter().any(Option::is_some) || self.atime.is_some() || self.mtime.is_some()
    }
}

struct Caller {
    uid: u32,
    gid: u32,
    gids: [u32; 16],
    count: usize,
}

impl Caller {
    const NOBODY: Caller = Caller { uid: 65534, gid: 65534, gids: [0; 16], count: 0 };

    fn of_body(body: &[u8]) -> Option<Caller> {
        let mut items = Items(body);
        items.word()?;
        items.opaque(255)?;
        let (uid, gid, count) = (items.word()?, items.word()?, items.word()? as usize);
        let mut gids = [0; 16];
        for place in gids.get_mut(..count)? {
            *place = items.word()?;
        }
        items.0.is_empty().then_some(Caller { uid, gid, gids, count })
    }

    fn is_in(&self, gid: u32) -> bool {
        self.gid == gid || self.gids[..self.count].contains(&gid)
    }

    fn permits(&self, node: &Node, access: u32) -> bool {
        let class = match () {
            () if self.uid == node.uid => 0o100,
            () if self.is_in(node.gid) => 0o010,
            () => 0o001,
        };
        self.uid == 0 || node.mode & (class * access) != 0
    }

    fn owns(&self, node: &Node) -> bool {
        self.uid == node.uid
    }

    fn may_search(&self, node: &Node) -> bool {
        self.permits(node, 1)
    }

    fn may_read(&self, node: &Node) -> bool {
        self.owns(node) || self.permits(node, 4)
    }

    fn may_write(&self, node: &Node) -> bool {
        self.owns(node) || self.permits(node, 2)
    }

    fn check_edit(&self, node: &Node, name: &[u8]) -> Result<(), Stat> {
        check(is_name(name), Stat::Acces)?;
        check(self.may_search(node) && self.may_write(node), Stat::Acces)
    }

    fn check_owner(&self, node: &Node, given: &Given) -> Result<(), Stat> {
        let (owns, is_root) = (self.owns(node), self.uid == 0);
        let is_free = given.mode.is_none() && given.atime.is_none() && given.mtime.is_none();
        check(owns || is_root || is_free, Stat::Perm)?;
        let takes_uid = |uid| is_root || owns && uid == node.uid;
        check(given.uid.is_none_or(takes_uid), Stat::Perm)?;
        let takes_gid = |gid| is_root || owns && (gid == node.gid || self.is_in(gid));
        check(given.gid.is_none_or(takes_gid), Stat::Perm)
    }
}

fn is_name(name: &[u8]) -> bool {
    !matches!(name, b"" | b"." | b"..") && name.iter().all(|byte| *byte != 0 && *byte != b'/')
}

/// The names of a directory, and its entries by their cookies.
struct Directory {
    above: u32,
    next: u32,
    cookies: HashMap<Vec<u8>, u32>,
    entries: BTreeMap<u32, (Vec<u8>, u32)>,
}

impl Directory {
    fn new(above: u32) -> Directory {
        Directory { above, next: 3, cookies: HashMap::new(), entries: BTreeMap::new() }
    }

    fn number_at(&self, name: &[u8]) -> Option<u32> {
        self.cookies.get(name).map(|cookie| self.entries[cookie].1)
    }

    fn add(&mut self, name: &[u8], number: u32) {
        self.cookies.insert(name.to_vec(), self.next);
        self.entries.insert(self.next, (name.to_vec(), number));
        self.next += 1;
    }

    fn take_out(&mut self, name: &[u8]) {
        if let Some(cookie) = self.cookies.remove(name) {
            self.entries.remove(&cookie);
        }
    }
}

enum Body {
    Regular(Vec<u8>),
    Symlink(Vec<u8>),
    Directory(Directory),
}

impl Body {
    fn is_directory(&self) -> bool {
        matches!(self, Body::Directory(_))
    }

    fn blocks(&self) -> usize {
        match self {
            Body::Regular(bytes) => bytes.len().div_ceil(512),
            _ => 0,
        }
    }
}

struct Node {
    mode: u32,
    nlink: u32,
    uid: u32,
    gid: u32,
    atime: Time,
    mtime: Time,
    ctime: Time,
    body: Body,
}

impl Node {
    fn new(who: &Caller, now: Time, given: &Given, mode: u32, body: Body) -> Node {
        let is_root = who.uid == 0;
        Node {
            mode: given.mode.unwrap_or(mode),
            nlink: if body.is_directory() { 2 } else { 1 },
            uid: given.uid.filter(|_| is_root).unwrap_or(who.uid),
            gid: given.gid.filter(|_| is_root).unwrap_or(who.gid),
            atime: given.atime.unwrap_or(now),
            mtime: given.mtime.unwrap_or(now),
            ctime: now,
            body,
        }
    }

    fn attributes(&self, number: u32) -> [u32; 17] {
        let (kind, bits, size) = match &self.body {
            Body::Regular(bytes) => (1, 0o100000, bytes.len() as u32),
            Body::Directory(_) => (2, 0o040000, 512),
            Body::Symlink(target) => (5, 0o120000, target.len() as u32),
        };
        let mode = bits | self.mode;
        let blocks = size.div_ceil(512);
        let ((atime, atime_us), (mtime, mtime_us), (ctime, ctime_us)) = (self.atime, self.mtime, self.ctime);
        [
            kind, mode, self.nlink, self.uid, self.gid, size, 512, 0, blocks, NODE, number, atime, atime_us, mtime,
            mtime_us, ctime, ctime_us,
        ]
    }

    fn bytes(&self) -> Result<&Vec<u8>, Stat> {
        match &self.body {
            Body::Regular(bytes) => Ok(bytes),
            Body::Symlink(_) => Err(Stat::NxIo),
            Body::Directory(_) => Err(Stat::IsDir),
        }
    }

    fn directory(&self) -> Result<&Directory, Stat> {
        match &self.body {
            Body::Directory(directory) => Ok(directory),
            _ => Err(Stat::NotDir),
        }
    }

    fn touch(&mut self, now: Time) {
        self.mtime = now;
        self.ctime = now;
    }
}

struct Tree {
    nodes: HashMap<u32, Node>,
    next: u32,
    entries: usize,
    blocks: usize,
}

impl Tree {
    fn opening() -> Tree {
        let who = Caller { uid: 0, gid: 0, ..Caller::NOBODY };
        let mut root = Directory::new(ROOT);
        root.add(b"hello", 2);
        let root = Node::new(&who, (0, 0), &Given::NOTHING, 0o777, Body::Directory(root));
        let hello = Node::new(&who, (0, 0), &Given::NOTHING, 0o644, Body::Regular(b"hello\n".to_vec()));
        Tree { nodes: HashMap::from([(ROOT, root), (2, hello)]), next: 3, entries: 1, blocks: 1 }
    }

    fn node(&self, number: u32) -> Result<&Node, Stat> {
        self.nodes.get(&number).ok_or(Stat::Stale)
    }

    fn node_mut(&mut self, number: u32) -> &mut Node {
        self.nodes.get_mut(&number).expect("a number of a file")
    }

    fn listing_mut(&mut self, number: u32) -> &mut Directory {
        match &mut self.node_mut(number).body {
            Body::Directory(directory) => directory,
            _ => unreachable!("a number of a directory"),
        }
    }

    fn dir(&self, number: u32) -> Result<(&Node, &Directory), Stat> {
        let node = self.node(number)?;
        Ok((node, node.directory()?))
    }

    fn lookup(&self, who: &Caller, dir: u32, name: &[u8]) -> Result<u32, Stat> {
        let (node, directory) = self.dir(dir)?;
        check(who.may_search(node), Stat::Acces)?;
        match name {
            b"." => Ok(dir),
            b".." => Ok(directory.above),
            name => directory.number_at(name).ok_or(Stat::NoEnt),
        }
    }

    fn set_attributes(&mut self, who: &Caller, now: Time, number: u32, given: &Given) -> Result<(), Stat> {
        let node = self.node(number)?;
        who.check_owner(node, given)?;
        let mut blocks = self.blocks;
        if let Some(size) = given.size {
            let old = node.bytes()?.len();
            check(who.may_write(node), Stat::Acces)?;
            check(u64::from(size) <= MAX_FILE_SIZE, Stat::FBig)?;
            blocks = blocks - old.div_ceil(512) + (size as usize).div_ceil(512);
            check(blocks <= MAX_BLOCKS, Stat::NoSpc)?;
        }
        self.blocks = blocks;
        let node = self.node_mut(number);
        if let (Some(size), Body::Regular(bytes)) = (given.size, &mut node.body) {
            bytes.resize(size as usize, 0);
            node.mtime = now;
        }
        node.mode = given.mode.unwrap_or(node.mode);
        node.uid = given.uid.unwrap_or(node.uid);
        node.gid = given.gid.unwrap_or(node.gid);
        node.atime = given.atime.unwrap_or(node.atime);
        node.mtime = given.mtime.unwrap_or(node.mtime);
        if given.is_any() {
            node.ctime = now;
        }
        Ok(())
    }

    fn write(&mut self, who: &Caller, now: Time, number: u32, offset: u32, new: &[u8]) -> Result<(), Stat> {
        let node = self.node(number)?;
        let old = node.bytes()?.len();
        check(who.may_write(node), Stat::Acces)?;
        if new.is_empty() {
            return Ok(());
        }
        let end = u64::from(offset) + new.len() as u64;
        check(end <= MAX_FILE_SIZE, Stat::FBig)?;
        let (offset, end) = (offset as usize, end as usize);
        let blocks = self.blocks - old.div_ceil(512) + old.max(end).div_ceil(512);
        check(blocks <= MAX_BLOCKS, Stat::NoSpc)?;
        self.blocks = blocks;
        let node = self.node_mut(number);
        if let Body::Regular(bytes) = &mut node.body {
            bytes.resize(old.max(end), 0);
            bytes[offset..end].copy_from_slice(new);
        }
        node.touch(now);
        Ok(())
    }

    /// Whether a new file of so many blocks has room in a directory.
    fn check_room(&self, directory: &Directory, blocks: usize) -> Result<(), Stat> {
        let has_room = self.nodes.len() < MAX_FILES && self.blocks + blocks <= MAX_BLOCKS && self.next < u32::MAX;
        check(has_room, Stat::NoSpc)?;
        self.check_entry(directory)
    }

    fn check_entry(&self, directory: &Directory) -> Result<(), Stat> {
        check(self.entries < MAX_ENTRIES && directory.next < u32::MAX, Stat::NoSpc)
    }

    fn add(&mut self, now: Time, dir: u32, name: &[u8], node: Node) -> u32 {
        let number = self.next;
        let is_directory = node.body.is_directory();
        self.next += 1;
        self.entries += 1;
        self.blocks += node.body.blocks();
        self.nodes.insert(number, node);
        self.listing_mut(dir).add(name, number);
        let above = self.node_mut(dir);
        above.touch(now);
        above.nlink += u32::from(is_directory);
        number
    }

    fn create(&mut self, who: &Caller, now: Time, dir: u32, name: &[u8], given: &Given) -> Result<u32, Stat> {
        let (node, directory) = self.dir(dir)?;
        check(is_name(name), Stat::Acces)?;
        check(who.may_search(node), Stat::Acces)?;
        if let Some(number) = directory.number_at(name) {
            check(matches!(self.node(number)?.body, Body::Regular(_)), Stat::Exist)?;
            self.set_attributes(who, now, number, given)?;
            return Ok(number);
        }
        check(who.may_write(node), Stat::Acces)?;
        let size = given.size.unwrap_or(0);
        check(u64::from(size) <= MAX_FILE_SIZE, Stat::FBig)?;
        self.check_room(directory, (size as usize).div_ceil(512))?;
        let body = Body::Regular(vec![0; size as usize]);
        Ok(self.add(now, dir, name, Node::new(who, now, given, 0o644, body)))
    }

    fn make(&mut self, who: &Caller, now: Time, dir: u32, name: &[u8], new: Node) -> Result<u32, Stat> {
        let (node, directory) = self.dir(dir)?;
        who.check_edit(node, name)?;
        check(directory.number_at(name).is_none(), Stat::Exist)?;
        self.check_room(directory, 0)?;
        Ok(self.add(now, dir, name, new))
    }

    fn link(&mut self, who: &Caller, now: Time, from: u32, dir: u32, name: &[u8]) -> Result<(), Stat> {
        check(!self.node(from)?.body.is_directory(), Stat::IsDir)?;
        let (node, directory) = self.dir(dir)?;
        who.check_edit(node, name)?;
        check(directory.number_at(name).is_none(), Stat::Exist)?;
        self.check_entry(directory)?;
        let file = self.node_mut(from);
        file.nlink += 1;
        file.ctime = now;
        self.entries += 1;
        self.listing_mut(dir).add(name, from);
        self.node_mut(dir).touch(now);
        Ok(())
    }

    /// A name of a number goes, and with the last name the file.
    fn unlink(&mut self, now: Time, dir: u32, name: &[u8], number: u32) {
        self.listing_mut(dir).take_out(name);
        self.entries -= 1;
        let node = self.node_mut(number);
        if node.body.is_directory() || node.nlink == 1 {
            let (is_directory, blocks) = (node.body.is_directory(), node.body.blocks());
            self.blocks -= blocks;
            self.nodes.remove(&number);
            self.node_mut(dir).nlink -= u32::from(is_directory);
        } else {
            node.nlink -= 1;
            node.ctime = now;
        }
    }

    fn remove(&mut self, who: &Caller, now: Time, dir: u32, name: &[u8], is_rmdir: bool) -> Result<(), Stat> {
        let (node, directory) = self.dir(dir)?;
        who.check_edit(node, name)?;
        let number = directory.number_at(name).ok_or(Stat::NoEnt)?;
        let file = self.node(number)?;
        if is_rmdir {
            check(file.directory()?.entries.is_empty(), Stat::NotEmpty)?;
        } else {
            check(!file.body.is_directory(), Stat::IsDir)?;
        }
        self.unlink(now, dir, name, number);
        self.node_mut(dir).touch(now);
        Ok(())
    }

    fn is_above(&self, upper: u32, mut lower: u32) -> bool {
        while lower != upper && lower != ROOT {
            match self.dir(lower) {
                Ok((_, directory)) => lower = directory.above,
                Err(_) => return false,
            }
        }
        lower == upper
    }

    fn check_target(&self, file: &Node, target: Option<u32>) -> Result<(), Stat> {
        let Some(target) = target else { return Ok(()) };
        let target = self.node(target)?;
        check(!file.body.is_directory() || target.body.is_directory(), Stat::NotDir)?;
        check(file.body.is_directory() || !target.body.is_directory(), Stat::IsDir)?;
        check(target.directory().is_ok_and(|d| d.entries.is_empty()) || target.directory().is_err(), Stat::NotEmpty)
    }

    fn rename(
        &mut self,
        who: &Caller,
        now: Time,
        (from, from_name): (u32, &[u8]),
        (to, to_name): (u32, &[u8]),
    ) -> Result<(), Stat> {
        let (from_node, from_directory) = self.dir(from)?;
        let (to_node, to_directory) = self.dir(to)?;
        who.check_edit(from_node, from_name)?;
        who.check_edit(to_node, to_name)?;
        let number = from_directory.number_at(from_name).ok_or(Stat::NoEnt)?;
        let file = self.node(number)?;
        let target = to_directory.number_at(to_name);
        if target == Some(number) {
            return Ok(());
        }
        let is_directory = file.body.is_directory();
        check(!(is_directory && self.is_above(number, to)), Stat::Acces)?;
        self.check_target(file, target)?;
        check(to_directory.next < u32::MAX, Stat::NoSpc)?;
        if let Some(target) = target {
            self.unlink(now, to, to_name, target);
        }
        self.listing_mut(from).take_out(from_name);
        self.listing_mut(to).add(to_name, number);
        let node = self.node_mut(number);
        node.ctime = now;
        if let Body::Directory(directory) = &mut node.body {
            directory.above = to;
        }
        let from_node = self.node_mut(from);
        from_node.touch(now);
        from_node.nlink -= u32::from(is_directory);
        let to_node = self.node_mut(to);
        to_node.touch(now);
        to_node.nlink += u32::from(is_directory);
        Ok(())
    }

    fn free(&self) -> u32 {
        (MAX_BLOCKS - self.blocks) as u32
    }
}

fn put_opaque(out: &mut Vec<u8>, bytes: &[u8]) {
    put(out, &[bytes.len() as u32]);
    out.extend_from_slice(bytes);
    out.resize(out.len().next_multiple_of(4), 0);
}

fn handle_of(number: u32) -> [u32; 8] {
    [NODE, number, 0, 0, 0, 0, 0, 0]
}

/// Appends OK and the attributes of a file, or the stat.
fn put_attributes(out: &mut Vec<u8>, tree: &Tree, number: Result<u32, Stat>) {
    match number.and_then(|number| Ok(tree.node(number)?.attributes(number))) {
        Ok(attributes) => {
            put(out, &[0]);
            put(out, &attributes);
        }
        Err(stat) => put(out, &[stat as u32]),
    }
}

/// Appends OK, the file handle and the attributes of a file, or the stat.
fn put_file(out: &mut Vec<u8>, tree: &Tree, number: Result<u32, Stat>) {
    match number.and_then(|number| Ok((number, tree.node(number)?.attributes(number)))) {
        Ok((number, attributes)) => {
            put(out, &[0]);
            put(out, &handle_of(number));
            put(out, &attributes);
        }
        Err(stat) => put(out, &[stat as u32]),
    }
}

fn put_stat(out: &mut Vec<u8>, done: Result<(), Stat>) {
    put(out, &[done.map_or_else(|stat| stat as u32, |()| 0)]);
}

fn put_read(out: &mut Vec<u8>, tree: &Tree, who: &Caller, number: u32, offset: u32, count: u32) -> Result<(), Stat> {
    let node = tree.node(number)?;
    let bytes = node.bytes()?;
    check(who.may_read(node) || who.permits(node, 1), Stat::Acces)?;
    let bytes = bytes.get(offset as usize..).unwrap_or_default();
    let len = bytes.len().min(count.min(MAX_DATA) as usize);
    put(out, &[0]);
    put(out, &node.attributes(number));
    put_opaque(out, &bytes[..len]);
    Ok(())
}

fn put_target(out: &mut Vec<u8>, tree: &Tree, number: u32) -> Result<(), Stat> {
    match &tree.node(number)?.body {
        Body::Symlink(target) => {
            put(out, &[0]);
            put_opaque(out, target);
            Ok(())
        }
        _ => Err(Stat::NxIo),
    }
}

fn put_page(out: &mut Vec<u8>, tree: &Tree, who: &Caller, dir: u32, cookie: u32, count: u32) -> Result<(), Stat> {
    let (node, directory) = tree.dir(dir)?;
    check(who.may_read(node), Stat::Acces)?;
    let dots = [(1, dir, b".".as_slice()), (2, directory.above, b"..".as_slice())];
    let dots = dots.into_iter().filter(|entry| entry.0 > cookie);
    let first = cookie.saturating_add(1);
    let others = directory.entries.range(first..).map(|(cookie, (name, number))| (*cookie, *number, name.as_slice()));
    let mut left = count.min(MAX_DATA) as usize;
    let mut eof = 1;
    put(out, &[0]);
    for (cookie, number, name) in dots.chain(others) {
        let cost = 16 + name.len().next_multiple_of(4);
        if cost > left {
            eof = 0;
            break;
        }
        left -= cost;
        put(out, &[1, number]);
        put_opaque(out, name);
        put(out, &[cookie]);
    }
    put(out, &[0, eof]);
    Ok(())
}

/// Appends what is written, or where there is a stat only that.
fn put_or_stat(out: &mut Vec<u8>, write: impl FnOnce(&mut Vec<u8>) -> Result<(), Stat>) {
    if let Err(stat) = write(out) {
        put(out, &[stat as u32]);
    }
}

struct Header {
    program: u32,
    version: u32,
    procedure: u32,
}

/// The header, and the caller where the credential is taken.
fn header(items: &mut Items) -> Option<(Header, Result<Caller, Refusal>)> {
    let header = Header { program: items.word()?, version: items.word()?, procedure: items.word()? };
    let (flavor, body) = (items.word()?, items.opaque(400)?);
    items.word()?;
    items.opaque(400)?;
    let who = match flavor {
        0 => Ok(Caller::NOBODY),
        1 => Caller::of_body(body).ok_or(Refusal::AuthError(1)),
        _ => Err(Refusal::AuthError(2)),
    };
    Some((header, who))
}

/// The arguments of a procedure.
enum Call<'a> {
    Nothing,
    Getattr(u32),
    Setattr(u32, Given),
    Lookup(u32, &'a [u8]),
    Readlink(u32),
    Read(u32, u32, u32),
    Write(u32, u32, &'a [u8]),
    Create(u32, &'a [u8], Given),
    Remove(u32, &'a [u8], bool),
    Rename((u32, &'a [u8]), (u32, &'a [u8])),
    Link(u32, u32, &'a [u8]),
    Symlink(u32, &'a [u8], &'a [u8]),
    Mkdir(u32, &'a [u8], Given),
    Readdir(u32, u32, u32),
    Statfs(u32),
}

fn arguments<'a>(procedure: u32, items: &mut Items<'a>, now: Time) -> Option<Call<'a>> {
    Some(match procedure {
        1 => Call::Getattr(items.handle()?),
        2 => Call::Setattr(items.handle()?, items.given(now)?),
        4 => Call::Lookup(items.handle()?, items.name()?),
        5 => Call::Readlink(items.handle()?),
        6 => {
            let call = Call::Read(items.handle()?, items.word()?, items.word()?);
            items.word()?;
            call
        }
        8 => {
            let file = items.handle()?;
            items.word()?;
            let offset = items.word()?;
            items.word()?;
            Call::Write(file, offset, items.opaque(MAX_DATA as usize)?)
        }
        9 => Call::Create(items.handle()?, items.name()?, items.given(now)?),
        10 | 15 => Call::Remove(items.handle()?, items.name()?, procedure == 15),
        11 => Call::Rename((items.handle()?, items.name()?), (items.handle()?, items.name()?)),
        12 => Call::Link(items.handle()?, items.handle()?, items.name()?),
        13 => {
            let call = Call::Symlink(items.handle()?, items.name()?, items.opaque(1024)?);
            items.given(now)?;
            call
        }
        14 => Call::Mkdir(items.handle()?, items.name()?, items.given(now)?),
        16 => Call::Readdir(items.handle()?, items.word()?, items.word()?),
        17 => Call::Statfs(items.handle()?),
        _ => Call::Nothing,
    })
}

/// Does what a call asks for, and appends the results.
fn perform(tree: &mut Tree, who: &Caller, now: Time, call: Call, out: &mut Vec<u8>) {
    match call {
        Call::Nothing => {}
        Call::Getattr(file) => put_attributes(out, tree, Ok(file)),
        Call::Setattr(file, given) => {
            let done = tree.set_attributes(who, now, file, &given);
            put_attributes(out, tree, done.map(|()| file));
        }
        Call::Lookup(dir, name) => put_file(out, tree, tree.lookup(who, dir, name)),
        Call::Readlink(file) => put_or_stat(out, |out| put_target(out, tree, file)),
        Call::Read(file, offset, count) => put_or_stat(out, |out| put_read(out, tree, who, file, offset, count)),
        Call::Write(file, offset, data) => {
            let done = tree.write(who, now, file, offset, data);
            put_attributes(out, tree, done.map(|()| file));
        }
        Call::Create(dir, name, given) => {
            let made = tree.create(who, now, dir, name, &given);
            put_file(out, tree, made);
        }
        Call::Remove(dir, name, is_rmdir) => put_stat(out, tree.remove(who, now, dir, name, is_rmdir)),
        Call::Rename(from, to) => put_stat(out, tree.rename(who, now, from, to)),
        Call::Link(from, dir, name) => put_stat(out, tree.link(who, now, from, dir, name)),
        Call::Symlink(dir, name, target) => {
            let link = Node::new(who, now, &Given::NOTHING, 0o777, Body::Symlink(target.to_vec()));
            put_stat(out, tree.make(who, now, dir, name, link).map(|_| ()));
        }
        Call::Mkdir(dir, name, given) => {
            let new = Node::new(who, now, &given, 0o755, Body::Directory(Directory::new(dir)));
            let made = tree.make(who, now, dir, name, new);
            put_file(out, tree, made);
        }
        Call::Readdir(dir, cookie, count) => put_or_stat(out, |out| put_page(out, tree, who, dir, cookie, count)),
        Call::Statfs(file) => match tree.node(file) {
            Ok(_) => put(out, &[0, MAX_DATA, 512, MAX_BLOCKS as u32, tree.free(), tree.free()]),
            Err(stat) => put(out, &[stat as u32]),
        },
    }
}

/// The caller, and the call, or the reply by the first check that fails.
fn check_call<'a>(
    header: Header,
    who: Result<Caller, Refusal>,
    items: &mut Items<'a>,
    now: Time,
) -> Result<(Caller, Call<'a>), Refusal> {
    let who = who?;
    match header {
        Header { program, .. } if program != 100003 => Err(Refusal::Accepted(1)),
        Header { version, .. } if version != 2 => Err(Refusal::ProgramMismatch),
        Header { procedure, .. } if procedure > 17 => Err(Refusal::Accepted(3)),
        Header { procedure, .. } => Ok((who, arguments(procedure, items, now).ok_or(GARBAGE)?)),
    }
}

/// Appends the reply to a record, if it gets one.
fn reply(tree: &mut Tree, now: Time, record: &[u8], out: &mut Vec<u8>) -> Option<()> {
    let mut items = Items(record);
    let xid = items.word()?;
    if items.word()? != 0 {
        return None;
    }
    let checked = if items.word()? != 2 {
        Err(Refusal::RpcMismatch)
    } else {
        let (header, who) = header(&mut items)?;
        check_call(header, who, &mut items, now)
    };
    put(out, &[xid, 1]);
    match checked {
        Ok((who, call)) => {
            put(out, &[0, 0, 0, 0]);
            perform(tree, &who, now, call, out);
        }
        Err(Refusal::RpcMismatch) => put(out, &[1, 0, 2, 2]),
        Err(Refusal::AuthError(stat)) => put(out, &[1, 1, stat]),
        Err(Refusal::Accepted(stat)) => put(out, &[0, 0, 0, stat]),
        Err(Refusal::ProgramMismatch) => put(out, &[0, 0, 0, 2, 2, 2]),
    }
    Some(())
}

/// Writes calls by user 0, and counts the numbers that their files get.
struct Calls<W> {
    output: W,
    xid: u32,
    next: u32,
    record: Vec<u8>,
}

const NOTHING_GIVEN: [u32; 8] = [IGNORED; 8];

impl<W: Write> Calls<W> {
    fn begin(&mut self, procedure: u32) -> &mut Vec<u8> {
        self.xid += 1;
        self.record.clear();
        put(&mut self.record, &[0, self.xid, 0, 2, 100003, 2, procedure]);
        put(&mut self.record, &[1, 24, 0, 1, 0x6d000000, 0, 0, 0, 0, 0]);
        &mut self.record
    }

    fn end(&mut self) -> io::Result<()> {
        mark(&mut self.record);
        self.output.write_all(&self.record)
    }

    /// A call whose arguments are words alone.
    fn words(&mut self, procedure: u32, pieces: &[&[u32]]) -> io::Result<()> {
        let record = self.begin(procedure);
        for piece in pieces {
            put(record, piece);
        }
        self.end()
    }

    /// A call of a name in a directory, and what follows it.
    fn named(&mut self, procedure: u32, dir: u32, name: &str, more: &[u32]) -> io::Result<()> {
        let record = self.begin(procedure);
        put(record, &handle_of(dir));
        put_opaque(record, name.as_bytes());
        put(record, more);
        self.end()
    }

    /// A call that makes a file, with its number.
    fn make(&mut self, procedure: u32, dir: u32, name: &str, more: &[u32]) -> io::Result<u32> {
        self.named(procedure, dir, name, more)?;
        self.next += 1;
        Ok(self.next - 1)
    }

    fn link(&mut self, file: u32, dir: u32, name: &str) -> io::Result<()> {
        let record = self.begin(12);
        put(record, &handle_of(file));
        put(record, &handle_of(dir));
        put_opaque(record, name.as_bytes());
        self.end()
    }

    fn rename(&mut self, dir: u32, from: &str, to: &str) -> io::Result<()> {
        let record = self.begin(11);
        for name in [from, to] {
            put(record, &handle_of(dir));
            put_opaque(record, name.as_bytes());
        }
        self.end()
    }

    fn symlink(&mut self, dir: u32, name: &str) -> io::Result<()> {
        let record = self.begin(13);
        put(record, &handle_of(dir));
        put_opaque(record, name.as_bytes());
        put_opaque(record, b"file");
        put(record, &NOTHING_GIVEN);
        self.end()
    }

    fn write(&mut self, file: u32, offset: u32, data: &[u8]) -> io::Result<()> {
        let record = self.begin(8);
        put(record, &handle_of(file));
        put(record, &[0, offset, 0]);
        put_opaque(record, data);
        self.end()
    }

    fn read(&mut self, file: u32, offset: u32, count: u32) -> io::Result<()> {
        self.words(6, &[&handle_of(file), &[offset, count, 0]])
    }
}

/// The directories and files that a stream is about.
struct Made {
    directories: Vec<u32>,
    /// The files by their directory.
    files: Vec<Vec<u32>>,
}

/// Makes so many directories in the root, each with so many files; without one, the files are in the root.
fn make<W: Write>(calls: &mut Calls<W>, directories: u32, files: u32) -> io::Result<Made> {
    let mut made = Made { directories: Vec::new(), files: Vec::new() };
    for d in 0..directories {
        made.directories.push(calls.make(14, ROOT, &format!("directory{d}"), &NOTHING_GIVEN)?);
    }
    if directories == 0 {
        made.directories.push(ROOT);
    }
    for dir in &made.directories {
        let mut numbers = Vec::new();
        for f in 0..files {
            numbers.push(calls.make(9, *dir, &format!("file{f}"), &NOTHING_GIVEN)?);
        }
        made.files.push(numbers);
    }
    Ok(made)
}

/// How many of the files get bytes: all of them have no room for 8,192 each.
const WRITTEN: usize = 1000;

/// A round of 32 calls: 16 of READ and WRITE, the others of all other procedures. After it the files have the names that
/// they had.
fn round<W: Write>(calls: &mut Calls<W>, made: &Made, k: usize, data: &[u8]) -> io::Result<()> {
    let place = k.wrapping_mul(7919);
    let d = place % made.directories.len();
    let dir = made.directories[d];
    let files = &made.files[d];
    let step = made.files.iter().map(Vec::len).sum::<usize>().div_ceil(WRITTEN).max(1);
    let written = |k: usize| match files.len() {
        0 => 2,
        len => files[(place / 64 + k) % len / step * step],
    };
    let (name, old) = match files.len() {
        0 => ("hello".to_string(), 2),
        len => (format!("file{}", place % len), files[place % len]),
    };
    let file = calls.make(9, dir, "made", &NOTHING_GIVEN)?;
    calls.link(file, dir, "linked")?;
    calls.rename(dir, "linked", "renamed")?;
    calls.named(4, dir, &name, &[])?;
    for i in 0..4 {
        calls.write(written(i), 0, &data[..4096])?;
        calls.read(written(i), 0, 4096)?;
        if i == 1 {
            calls.words(1, &[&handle_of(old)])?;
            calls.words(2, &[&handle_of(old), &[0o640], &NOTHING_GIVEN[1..]])?;
            calls.named(10, dir, "made", &[])?;
            calls.named(10, dir, "renamed", &[])?;
        }
    }
    let link = calls.next;
    calls.next += 1;
    let record = calls.begin(13);
    put(record, &handle_of(dir));
    put_opaque(record, b"symbolic");
    put_opaque(record, name.as_bytes());
    put(record, &NOTHING_GIVEN);
    calls.end()?;
    calls.words(5, &[&handle_of(link)])?;
    calls.named(10, dir, "symbolic", &[])?;
    calls.words(0, &[])?;
    for i in 0..4 {
        calls.write(written(i), 0, data)?;
        calls.read(written(i), 0, 8192)?;
        if i == 1 {
            calls.make(14, dir, "below", &NOTHING_GIVEN)?;
            calls.words(16, &[&handle_of(dir), &[(place % (files.len() + 3)) as u32, 96]])?;
            calls.named(15, dir, "below", &[])?;
            calls.words(17, &[&handle_of(dir)])?;
        }
    }
    Ok(())
}

/// Calls of one procedure, or of it and of the one that undoes it by turns.
fn alone(procedure: u32, count: usize) -> io::Result<()> {
    let output = BufWriter::new(io::stdout().lock());
    let mut calls = Calls { output, xid: 0, next: 3, record: Vec::new() };
    let data: Vec<u8> = (0..8192u32).map(|i| (i * 31 % 251) as u8).collect();
    let file = calls.make(9, ROOT, "file", &NOTHING_GIVEN)?;
    calls.write(file, 0, &data)?;
    let link = calls.next;
    calls.symlink(ROOT, "symbolic")?;
    for k in 0..count {
        let is_first = k % 2 == 0;
        match procedure {
            1 | 17 => calls.words(procedure, &[&handle_of(file)])?,
            2 => calls.words(2, &[&handle_of(file), &[0o640], &NOTHING_GIVEN[1..]])?,
            4 => calls.named(4, ROOT, "file", &[])?,
            5 => calls.words(5, &[&handle_of(link)])?,
            6 => calls.read(file, 0, 8192)?,
            8 => calls.write(file, 0, &data)?,
            9 | 10 if is_first => calls.named(9, ROOT, "made", &NOTHING_GIVEN)?,
            11 if is_first => calls.rename(ROOT, "file", "renamed")?,
            11 => calls.rename(ROOT, "renamed", "file")?,
            12 if is_first => calls.link(file, ROOT, "made")?,
            13 if is_first => calls.symlink(ROOT, "made")?,
            9 | 10 | 12 | 13 => calls.named(10, ROOT, "made", &[])?,
            14 | 15 if is_first => calls.named(14, ROOT, "made", &NOTHING_GIVEN)?,
            14 | 15 => calls.named(15, ROOT, "made", &[])?,
            16 => calls.words(16, &[&handle_of(ROOT), &[0, 4096]])?,
            _ => calls.words(procedure, &[])?,
        }
    }
    calls.output.flush()
}

fn stream(directories: u32, files: u32, rounds: usize) -> io::Result<()> {
    let output = BufWriter::new(io::stdout().lock());
    let mut calls = Calls { output, xid: 0, next: 3, record: Vec::new() };
    let made = make(&mut calls, directories, files)?;
    let data: Vec<u8> = (0..8192u32).map(|i| (i * 31 % 251) as u8).collect();
    for k in 0..rounds {
        round(&mut calls, &made, k, &data)?;
    }
    calls.output.flush()
}

fn main() -> ExitCode {
    let words: Vec<String> = std::env::args().collect();
    match words.iter().map(String::as_str).collect::<Vec<_>>()[..] {
        [_, writes @ ("answer" | "hold" | "place")] => {
            let mut tree = Tree::opening();
            let mut count = 0u32;
            let writes = match writes {
                "hold" => Writes::Held,
                "place" => Writes::InPlace,
                _ => Writes::Each,
            };
            answer(writes, |record, out| {
                count = count.saturating_add(1);
                reply(&mut tree, (count, 0), record, out)
            })
        }
        [_, "alone", procedure, count] => match (procedure.parse(), count.parse()) {
            (Ok(procedure), Ok(count)) => match alone(procedure, count) {
                Ok(()) => ExitCode::SUCCESS,
                Err(_) => ExitCode::FAILURE,
            },
            _ => ExitCode::from(2),
        },
        [_, "stream", directories, files, rounds] => match (directories.parse(), files.parse(), rounds.parse()) {
            (Ok(directories), Ok(files), Ok(rounds)) => match stream(directories, files, rounds) {
                Ok(()) => ExitCode::SUCCESS,
                Err(_) => ExitCode::FAILURE,
            },
            _ => ExitCode::from(2),
        },
        _ => ExitCode::from(2),
    }
}
