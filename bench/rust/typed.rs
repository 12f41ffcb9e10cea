//! The yardstick of `bench/beside`: what a Rust programmer writes by hand when one query has to be quick.
//!
//! - The file is mapped, and each line is read by `serde_json` into a struct of the five columns. A text
//!   borrows from the mapped file unless it has an escape, so most lines allocate nothing.
//! - A key is hashed once, by `FxHasher`, and looked up as it is borrowed. Only a new group copies its
//!   texts, one behind the other into an arena, which the sort reads far quicker than the file.
//! - Each thread takes windows of 1 MiB by a counter, and has a table for each shard of the keys. Behind
//!   the last window each thread merges and sorts one shard of all threads.
//! - ROLLUP is one pass over the sorted rows, in which the subtotals add up.
//!
//! It is made for this one query, its columns and its order of rows, and `panic = "abort"`. Its report
//! is the one of `jlreport`, to the byte. It is laxer: it counts the lines that it refuses but does not
//! number them, does not look at the UTF-8 and the size of numbers in members that it skips, refuses a
//! line with two members `shop`, and takes a JSON array of five values for an object.
//!
//! Usage: typed THREADS FILE. It answers, over the lines of `bench/generate`,
//! SELECT shop, kind, COUNT(*) AS events, SUM(cents) AS cents FROM lines GROUP BY ROLLUP (shop, kind)

use bumpalo::Bump;
use fxhash::FxHasher;
use hashbrown::hash_map::{HashMap, RawEntryMut};
use memmap2::Mmap;
use serde::Deserialize;
use std::borrow::Cow;
use std::cmp::Ordering;
use std::fs::File;
use std::hash::{BuildHasherDefault, Hash, Hasher};
use std::io::{self, Write};
use std::process::ExitCode;
use std::sync::atomic::{AtomicUsize, Ordering::Relaxed};
use std::{env, thread};

/// The bytes that a thread takes at once; a line belongs to the window in which it begins.
const WINDOW: usize = 1 << 20;

/// A text that borrows where it can. In an `Option` a bare `Cow` would always be owned.
#[derive(Deserialize)]
#[serde(transparent)]
struct Text<'a>(#[serde(borrow)] Cow<'a, str>);

/// The columns `day:text,shop:text,kind:text,cents:int,member:bool` of a line.
#[derive(Deserialize)]
struct Event<'a> {
    #[serde(borrow, rename = "day")]
    _day: Option<Text<'a>>,
    #[serde(borrow)]
    shop: Option<Text<'a>>,
    #[serde(borrow)]
    kind: Option<Text<'a>>,
    cents: Option<i64>,
    #[serde(rename = "member")]
    _member: Option<bool>,
}

/// Shop and kind.
type Key<'a> = [Option<&'a str>; 2];

/// What is kept of a group: `COUNT(*)`, and `SUM(cents)`, which is NULL without a value.
#[derive(Clone, Copy, Default)]
struct Group {
    events: u64,
    cents: Option<i128>,
}

impl Group {
    fn absorb(&mut self, other: Group) {
        self.events += other.events;
        if let Some(cents) = other.cents {
            *self.cents.get_or_insert(0) += cents;
        }
    }
}

/// The texts of kept keys lie in arenas that last as long as the program.
type Table = HashMap<Key<'static>, Group, BuildHasherDefault<FxHasher>>;
type Row = (Key<'static>, Group);

fn hash_of(key: &Key) -> u64 {
    let mut hasher = FxHasher::default();
    key.hash(&mut hasher);
    hasher.finish()
}

/// Adds a group to the one of its key, which is kept as the call makes it where it is new.
fn add(table: &mut Table, key: Key, hash: u64, group: Group, keep: impl Fn() -> Key<'static>) {
    match table.raw_entry_mut().from_hash(hash, |own| *own == key) {
        RawEntryMut::Occupied(mut entry) => entry.get_mut().absorb(group),
        RawEntryMut::Vacant(entry) => {
            entry.insert_hashed_nocheck(hash, keep(), group);
        }
    }
}

/// Where the first line begins that begins at this place or behind it.
fn line_start(file: &[u8], at: usize) -> usize {
    if at == 0 || at >= file.len() {
        return at.min(file.len());
    }
    memchr::memchr(b'\n', &file[at - 1..]).map_or(file.len(), |feed| at + feed)
}

/// What one thread has found: a table for each shard of the keys.
struct Part {
    shards: Vec<Table>,
    texts: &'static Bump,
    refused: u64,
}

impl Part {
    fn new(shards: usize) -> Self {
        Part {
            shards: (0..shards).map(|_| Table::default()).collect(),
            texts: Box::leak(Box::default()),
            refused: 0,
        }
    }

    fn take(&mut self, line: &[u8]) {
        let Ok(event) = serde_json::from_slice::<Event>(line) else {
            self.refused += 1;
            return;
        };
        let key = [&event.shop, &event.kind].map(|it| it.as_ref().map(|Text(text)| &**text));
        let hash = hash_of(&key);
        let shard = (hash >> 32) as usize % self.shards.len();
        let group = Group {
            events: 1,
            cents: event.cents.map(i128::from),
        };
        let texts = self.texts;
        let keep = || key.map(|text| text.map(|text| &*texts.alloc_str(text)));
        add(&mut self.shards[shard], key, hash, group, keep);
    }

    /// Takes the lines of windows until all are taken.
    fn work(mut self, file: &[u8], next: &AtomicUsize) -> (Vec<Table>, u64) {
        loop {
            let at = next.fetch_add(WINDOW, Relaxed);
            if at >= file.len() {
                return (self.shards, self.refused);
            }
            let mut lines = &file[line_start(file, at)..line_start(file, at + WINDOW)];
            while !lines.is_empty() {
                let end = memchr::memchr(b'\n', lines).unwrap_or(lines.len());
                self.take(&lines[..end]);
                lines = lines.get(end + 1..).unwrap_or_default();
            }
        }
    }
}

/// NULL stands behind all texts.
fn order(one: Option<&str>, other: Option<&str>) -> Ordering {
    match (one, other) {
        (Some(one), Some(other)) => one.cmp(other),
        _ => one.is_none().cmp(&other.is_none()),
    }
}

fn order_of_rows(one: &Row, other: &Row) -> Ordering {
    order(one.0[0], other.0[0]).then_with(|| order(one.0[1], other.0[1]))
}

/// The rows of one shard of all threads, in order.
fn merged(tables: Vec<Table>) -> Vec<Row> {
    let mut tables = tables.into_iter();
    let mut all = tables.next().unwrap_or_default();
    for table in tables {
        for (key, group) in table {
            add(&mut all, key, hash_of(&key), group, || key);
        }
    }
    let mut rows: Vec<_> = all.into_iter().collect();
    rows.sort_unstable_by(order_of_rows);
    rows
}

/// The rows of two sorted lists as one.
fn zipped(one: Vec<Row>, other: Vec<Row>) -> Vec<Row> {
    let mut all = Vec::with_capacity(one.len() + other.len());
    let (mut one, mut other) = (one.into_iter().peekable(), other.into_iter().peekable());
    while let (Some(left), Some(right)) = (one.peek(), other.peek()) {
        let lesser = if order_of_rows(left, right).is_lt() {
            &mut one
        } else {
            &mut other
        };
        all.extend(lesser.next());
    }
    all.extend(one);
    all.extend(other);
    all
}

/// The rows of all groups of shop and kind, in order, and how many lines are refused.
fn rows_of(file: &[u8], threads: usize) -> (Vec<Row>, u64) {
    let next = &AtomicUsize::new(0);
    let parts: Vec<_> = on_each((0..threads).collect(), |_| {
        Part::new(threads).work(file, next)
    });
    let refused = parts.iter().map(|(_, refused)| refused).sum();
    let mut shards: Vec<Vec<Table>> = (0..threads).map(|_| Vec::new()).collect();
    for (tables, _) in parts {
        for (shard, table) in shards.iter_mut().zip(tables) {
            shard.push(table);
        }
    }
    let mut sorted = on_each(shards, merged);
    while sorted.len() > 1 {
        let mut pairs = Vec::new();
        while let Some(one) = sorted.pop() {
            pairs.push((one, sorted.pop().unwrap_or_default()));
        }
        sorted = on_each(pairs, |(one, other)| zipped(one, other));
    }
    (sorted.pop().unwrap_or_default(), refused)
}

/// What a call makes of each of some values, each but the first on a thread of its own.
fn on_each<T: Send, U: Send>(values: Vec<T>, call: impl Fn(T) -> U + Sync) -> Vec<U> {
    let call = &call;
    thread::scope(|scope| {
        let mut values = values.into_iter();
        let first = values.next();
        let others: Vec<_> = values
            .map(|value| scope.spawn(move || call(value)))
            .collect();
        let mut made: Vec<_> = first.into_iter().map(call).collect();
        made.extend(others.into_iter().map(|other| other.join().unwrap()));
        made
    })
}

/// Writes a text as a field of CSV, or NULL.
fn put_text(out: &mut Vec<u8>, text: Option<&str>) {
    let Some(text) = text else {
        out.extend_from_slice(b"\\N");
        return;
    };
    let is_quoted = text
        .bytes()
        .any(|it| matches!(it, b',' | b'"' | b'\n' | b'\r'));
    if is_quoted {
        out.push(b'"');
    }
    if text.starts_with('\\') {
        out.push(b'\\');
    }
    if is_quoted {
        out.extend_from_slice(text.replace('"', "\"\"").as_bytes());
        out.push(b'"');
    } else {
        out.extend_from_slice(text.as_bytes());
    }
}

fn put_row(out: &mut Vec<u8>, key: Key, group: Group) {
    for text in key {
        put_text(out, text);
        out.push(b',');
    }
    out.extend_from_slice(itoa::Buffer::new().format(group.events).as_bytes());
    out.push(b',');
    match group.cents {
        Some(cents) => out.extend_from_slice(itoa::Buffer::new().format(cents).as_bytes()),
        None => out.extend_from_slice(b"\\N"),
    }
    out.push(b'\n');
}

/// The report: the rows of (shop, kind), those of (shop), and the one of all lines.
fn report(rows: &[Row]) -> Vec<u8> {
    let mut out = b"shop,kind,events,cents\n".to_vec();
    let mut shops: Vec<Row> = Vec::new();
    let mut all = Group::default();
    for &(key, group) in rows {
        put_row(&mut out, key, group);
        match shops.last_mut() {
            Some((shop, sum)) if shop[0] == key[0] => sum.absorb(group),
            _ => shops.push(([key[0], None], group)),
        }
        all.absorb(group);
    }
    for (key, group) in shops {
        put_row(&mut out, key, group);
    }
    put_row(&mut out, [None, None], all);
    out
}

fn main() -> io::Result<ExitCode> {
    let mut words = env::args().skip(1);
    let threads: usize = words
        .next()
        .and_then(|it| it.parse().ok())
        .expect("THREADS");
    let path = words.next().expect("FILE");
    // SAFETY: nobody changes the file as long as this program runs.
    let file = unsafe { Mmap::map(&File::open(path)?)? };
    let (rows, refused) = rows_of(&file, threads.max(1));
    io::stdout().write_all(&report(&rows))?;
    if refused > 0 {
        eprintln!("{refused} lines refused");
    }
    Ok(ExitCode::from(u8::from(refused > 0)))
}
