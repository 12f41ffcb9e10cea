//! The simple way that `bench/beside` times, which is slow Rust: each line is read as a JSON value tree,
//! its columns are taken out of the tree, and each worker has one hashed table of the finest grouping
//! set, from keys, lists of values, to what is kept of a group, a list of accumulators. The tables are
//! joined and rolled up at the end, and the rows are written in the order of their keys. The columns, the
//! grouping columns and the set functions are data, as those of any query are. It uses `std` alone: its
//! JSON reader stands for `serde_json` (a `BTreeMap` for an object, numbers parsed, strings owned and
//! checked as UTF-8), and its queues, a locked `VecDeque` for each worker that others steal from, stand
//! for `crossbeam_deque`.
//!
//! Usage: value_tree WORKERS FILE. It answers, over the lines of `bench/generate`,
//! SELECT shop, kind, COUNT(*) AS events, SUM(cents) AS cents FROM lines GROUP BY ROLLUP (shop, kind)
//! on standard output, to the byte as `jlreport` does, and writes to standard error the milliseconds that
//! reading the file and all the rest took, and how many lines are refused.

use std::collections::{BTreeMap, HashMap, VecDeque};
use std::io::Write;
use std::mem;
use std::sync::Mutex;
use std::thread;
use std::time::Instant;

/// The bytes of a piece, but for the rest of its last line.
const PIECE: usize = 1_048_576;

/// How deep a value may nest.
const DEPTH: usize = 127;

/// A JSON value.
#[allow(dead_code)]
enum Value {
    Null,
    Bool(bool),
    Whole(i64),
    Float(f64),
    Text(String),
    List(Vec<Value>),
    Object(BTreeMap<String, Value>),
}

/// A reader of one JSON text; each of its calls answers `None` where the text is no JSON.
struct Reader<'a> {
    text: &'a [u8],
    at: usize,
}

impl<'a> Reader<'a> {
    fn skip_space(&mut self) {
        while let Some(b' ' | b'\t' | b'\n' | b'\r') = self.text.get(self.at) {
            self.at += 1;
        }
    }

    fn peek(&mut self) -> Option<u8> {
        self.skip_space();
        self.text.get(self.at).copied()
    }

    fn take(&mut self, wanted: &[u8]) -> Option<()> {
        if self.text[self.at..].starts_with(wanted) {
            self.at += wanted.len();
            return Some(());
        }
        None
    }

    fn value(&mut self, depth: usize) -> Option<Value> {
        match self.peek()? {
            b'n' => self.take(b"null").map(|()| Value::Null),
            b't' => self.take(b"true").map(|()| Value::Bool(true)),
            b'f' => self.take(b"false").map(|()| Value::Bool(false)),
            b'"' => self.string().map(Value::Text),
            b'[' if depth > 0 => self.list(depth - 1),
            b'{' if depth > 0 => self.object(depth - 1),
            b'-' | b'0'..=b'9' => self.number(),
            _ => None,
        }
    }

    fn list(&mut self, depth: usize) -> Option<Value> {
        self.at += 1;
        let mut items = Vec::new();
        if self.peek()? == b']' {
            self.at += 1;
            return Some(Value::List(items));
        }
        loop {
            items.push(self.value(depth)?);
            let next = self.peek()?;
            self.at += 1;
            match next {
                b',' => {}
                b']' => return Some(Value::List(items)),
                _ => return None,
            }
        }
    }

    fn object(&mut self, depth: usize) -> Option<Value> {
        self.at += 1;
        let mut members = BTreeMap::new();
        if self.peek()? == b'}' {
            self.at += 1;
            return Some(Value::Object(members));
        }
        loop {
            if self.peek()? != b'"' {
                return None;
            }
            let name = self.string()?;
            if self.peek()? != b':' {
                return None;
            }
            self.at += 1;
            let value = self.value(depth)?;
            members.insert(name, value);
            let next = self.peek()?;
            self.at += 1;
            match next {
                b',' => {}
                b'}' => return Some(Value::Object(members)),
                _ => return None,
            }
        }
    }

    /// The end of the plain text that begins here: a quote, a backslash or a control byte. It looks at
    /// eight bytes at once, as `serde_json` does.
    fn plain_end(&self) -> usize {
        const ONES: u64 = u64::MAX / 255;
        const HIGH: u64 = ONES << 7;
        let mut at = self.at;
        while let Some(chunk) = self.text[at..].first_chunk::<8>() {
            let bytes = u64::from_le_bytes(*chunk);
            let controls = bytes.wrapping_sub(ONES * 0x20) & !bytes;
            let quotes = bytes ^ (ONES * u64::from(b'"'));
            let slashes = bytes ^ (ONES * u64::from(b'\\'));
            let found = (controls
                | quotes.wrapping_sub(ONES) & !quotes
                | slashes.wrapping_sub(ONES) & !slashes)
                & HIGH;
            if found != 0 {
                return at + found.trailing_zeros() as usize / 8;
            }
            at += 8;
        }
        let rest = &self.text[at..];
        let len = rest
            .iter()
            .position(|byte| matches!(byte, b'"' | b'\\' | 0..=0x1f));
        at + len.unwrap_or(rest.len())
    }

    fn string(&mut self) -> Option<String> {
        self.at += 1;
        let end = self.plain_end();
        let text = std::str::from_utf8(&self.text[self.at..end]).ok()?;
        self.at = end;
        if self.text.get(end) == Some(&b'"') {
            self.at += 1;
            return Some(text.to_owned());
        }
        let mut owned = text.to_owned();
        loop {
            match self.text.get(self.at)? {
                b'"' => {
                    self.at += 1;
                    return Some(owned);
                }
                b'\\' => {
                    self.at += 1;
                    owned.push(self.escaped()?);
                }
                _ => {
                    let end = self.plain_end();
                    if end == self.at {
                        return None;
                    }
                    owned.push_str(std::str::from_utf8(&self.text[self.at..end]).ok()?);
                    self.at = end;
                }
            }
        }
    }

    fn escaped(&mut self) -> Option<char> {
        let byte = *self.text.get(self.at)?;
        self.at += 1;
        Some(match byte {
            b'"' | b'\\' | b'/' => char::from(byte),
            b'b' => '\u{8}',
            b'f' => '\u{c}',
            b'n' => '\n',
            b'r' => '\r',
            b't' => '\t',
            b'u' => {
                let high = self.unit()?;
                if !(0xd800..0xdc00).contains(&high) {
                    return char::from_u32(high);
                }
                self.take(b"\\u")?;
                let low = self.unit()?;
                if !(0xdc00..0xe000).contains(&low) {
                    return None;
                }
                char::from_u32(0x10000 + (high - 0xd800) * 1024 + (low - 0xdc00))?
            }
            _ => return None,
        })
    }

    fn unit(&mut self) -> Option<u32> {
        let digits = self.text.get(self.at..self.at + 4)?;
        self.at += 4;
        let mut unit = 0;
        for digit in digits {
            unit = unit * 16 + char::from(*digit).to_digit(16)?;
        }
        Some(unit)
    }

    fn digits(&mut self) -> Option<()> {
        let start = self.at;
        while let Some(b'0'..=b'9') = self.text.get(self.at) {
            self.at += 1;
        }
        (self.at > start).then_some(())
    }

    fn number(&mut self) -> Option<Value> {
        let start = self.at;
        let mut whole = true;
        if self.text[self.at] == b'-' {
            self.at += 1;
        }
        if self.text.get(self.at) == Some(&b'0') {
            self.at += 1;
        } else {
            self.digits()?;
        }
        if self.text.get(self.at) == Some(&b'.') {
            whole = false;
            self.at += 1;
            self.digits()?;
        }
        if let Some(b'e' | b'E') = self.text.get(self.at) {
            whole = false;
            self.at += 1;
            if let Some(b'+' | b'-') = self.text.get(self.at) {
                self.at += 1;
            }
            self.digits()?;
        }
        let text = std::str::from_utf8(&self.text[start..self.at]).ok()?;
        if whole && let Ok(number) = text.parse() {
            return Some(Value::Whole(number));
        }
        let number: f64 = text.parse().ok()?;
        number.is_finite().then_some(Value::Float(number))
    }
}

/// The value of a whole line.
fn value_of(line: &[u8]) -> Option<Value> {
    let mut reader = Reader { text: line, at: 0 };
    let value = reader.value(DEPTH)?;
    reader.peek().is_none().then_some(value)
}

/// The type of a column.
#[derive(Clone, Copy)]
enum Type {
    Int,
    Text,
    Bool,
}

/// The columns of the lines.
const COLUMNS: [(&str, Type); 5] = [
    ("day", Type::Text),
    ("shop", Type::Text),
    ("kind", Type::Text),
    ("cents", Type::Int),
    ("member", Type::Bool),
];

/// A value of a column, in the order in which rows have them: NULL behind all others.
#[derive(Clone, PartialEq, Eq, Hash, PartialOrd, Ord)]
enum Datum {
    Bool(bool),
    Whole(i64),
    Text(String),
    Null,
}

/// The value of a column of this type, where it is of the type or NULL.
fn datum_of(value: Value, of: Type) -> Option<Datum> {
    match (value, of) {
        (Value::Null, _) => Some(Datum::Null),
        (Value::Bool(truth), Type::Bool) => Some(Datum::Bool(truth)),
        (Value::Whole(number), Type::Int) => Some(Datum::Whole(number)),
        (Value::Text(text), Type::Text) => Some(Datum::Text(text)),
        _ => None,
    }
}

/// Puts the values that the columns take of a line, moved out of its tree, in the place of those of another.
fn read_record(line: &[u8], record: &mut Vec<Datum>) -> Option<()> {
    let Value::Object(mut members) = value_of(line)? else {
        return None;
    };
    record.clear();
    for (name, of) in COLUMNS {
        let value = match members.get_mut(name) {
            Some(value) => mem::replace(value, Value::Null),
            None => Value::Null,
        };
        record.push(datum_of(value, of)?);
    }
    Some(())
}

/// A set function, by the place of its column.
#[derive(Clone, Copy)]
enum Function {
    CountRows,
    Sum(usize),
}

/// A query: ROLLUP of the columns at some places, and set functions.
struct Query {
    grouping: Vec<usize>,
    functions: Vec<Function>,
}

impl Query {
    fn is_argument(&self, place: usize) -> bool {
        self.functions
            .iter()
            .any(|function| matches!(function, Function::Sum(at) if *at == place))
    }
}

/// What is kept of the members of a group for one set function.
#[derive(Clone)]
enum Accumulator {
    Rows,
    Sum { sum: i128, count: u64 },
}

/// What is kept of a group.
#[derive(Clone)]
struct Group {
    lines: u64,
    parts: Vec<Accumulator>,
}

impl Group {
    fn new(functions: &[Function]) -> Group {
        let part = |function: &Function| match function {
            Function::CountRows => Accumulator::Rows,
            Function::Sum(_) => Accumulator::Sum { sum: 0, count: 0 },
        };
        Group {
            lines: 0,
            parts: functions.iter().map(part).collect(),
        }
    }

    fn take(&mut self, functions: &[Function], record: &[Datum]) {
        self.lines += 1;
        for (part, function) in self.parts.iter_mut().zip(functions) {
            if let (Accumulator::Sum { sum, count }, Function::Sum(place)) = (part, function)
                && let Datum::Whole(number) = record[*place]
            {
                *sum += i128::from(number);
                *count += 1;
            }
        }
    }

    fn absorb(&mut self, other: &Group) {
        self.lines += other.lines;
        for (part, other) in self.parts.iter_mut().zip(&other.parts) {
            if let (Accumulator::Sum { sum, count }, Accumulator::Sum { sum: s, count: c }) =
                (part, other)
            {
                *sum += s;
                *count += c;
            }
        }
    }
}

/// The groups of a grouping set, by their keys.
type Groups = HashMap<Vec<Datum>, Group>;

/// What one worker has made of its pieces: groups of all grouping columns.
struct Part<'a> {
    query: &'a Query,
    groups: Groups,
    refused: u64,
    /// The values of a line, and those of its key. Both keep their memory from line to line.
    record: Vec<Datum>,
    key: Vec<Datum>,
}

impl<'a> Part<'a> {
    fn new(query: &'a Query) -> Part<'a> {
        Part {
            query,
            groups: HashMap::new(),
            refused: 0,
            record: Vec::new(),
            key: Vec::new(),
        }
    }

    fn fold(&mut self, piece: &[u8]) {
        let mut rest = piece;
        while !rest.is_empty() {
            let end = line_feed(rest).unwrap_or(rest.len());
            self.take(&rest[..end]);
            rest = rest.get(end + 1..).unwrap_or_default();
        }
    }

    fn take(&mut self, line: &[u8]) {
        if read_record(line, &mut self.record).is_none() {
            self.refused += 1;
            return;
        }
        self.key.clear();
        for place in &self.query.grouping {
            let value = if self.query.is_argument(*place) {
                self.record[*place].clone()
            } else {
                mem::replace(&mut self.record[*place], Datum::Null)
            };
            self.key.push(value);
        }
        let functions = &self.query.functions[..];
        match self.groups.get_mut(&self.key[..]) {
            Some(group) => group.take(functions, &self.record),
            None => {
                let mut group = Group::new(functions);
                group.take(functions, &self.record);
                self.groups.insert(mem::take(&mut self.key), group);
            }
        }
    }

    fn absorb(&mut self, other: Part) {
        self.refused += other.refused;
        for (key, group) in other.groups {
            match self.groups.get_mut(&key[..]) {
                Some(own) => own.absorb(&group),
                None => {
                    self.groups.insert(key, group);
                }
            }
        }
    }
}

/// The place of the first line feed.
fn line_feed(bytes: &[u8]) -> Option<usize> {
    // SAFETY: the pointer and the length are those of one slice, and the place found is within it.
    unsafe {
        let start: *const u8 = bytes.as_ptr();
        let found = memchr(start, i32::from(b'\n'), bytes.len());
        (!found.is_null()).then(|| found.offset_from(start) as usize)
    }
}

unsafe extern "C" {
    fn memchr(bytes: *const u8, wanted: i32, len: usize) -> *const u8;
}

/// The pieces of an input: whole lines, each of `PIECE` bytes or more but perhaps the last.
fn pieces_of(input: &[u8]) -> Vec<&[u8]> {
    let mut pieces = Vec::new();
    let mut rest = input;
    while !rest.is_empty() {
        let low = PIECE.min(rest.len()) - 1;
        let stop = match line_feed(&rest[low..]) {
            Some(offset) => low + offset + 1,
            None => rest.len(),
        };
        let (piece, others) = rest.split_at(stop);
        pieces.push(piece);
        rest = others;
    }
    pieces
}

/// The next piece of a worker: the first of its own queue, or the last of another's.
fn next_piece<'a>(queues: &[Mutex<VecDeque<&'a [u8]>>], worker: usize) -> Option<&'a [u8]> {
    if let Some(piece) = queues[worker].lock().unwrap().pop_front() {
        return Some(piece);
    }
    for other in 1..queues.len() {
        let queue = &queues[(worker + other) % queues.len()];
        if let Some(piece) = queue.lock().unwrap().pop_back() {
            return Some(piece);
        }
    }
    None
}

/// What one worker makes of the pieces that it gets.
fn work<'a>(queues: &[Mutex<VecDeque<&[u8]>>], worker: usize, query: &'a Query) -> Part<'a> {
    let mut part = Part::new(query);
    while let Some(piece) = next_piece(queues, worker) {
        part.fold(piece);
    }
    part
}

/// What all workers make of an input.
fn whole<'a>(input: &[u8], workers: usize, query: &'a Query) -> Part<'a> {
    let pieces = pieces_of(input);
    let share = pieces.len().div_ceil(workers).max(1);
    let queues: Vec<_> = (0..workers)
        .map(|worker| {
            let from = (worker * share).min(pieces.len());
            let to = (from + share).min(pieces.len());
            Mutex::new(pieces[from..to].iter().copied().collect())
        })
        .collect();
    let queues = &queues[..];
    thread::scope(|scope| {
        let others: Vec<_> = (1..workers)
            .map(|worker| scope.spawn(move || work(queues, worker, query)))
            .collect();
        let mut all = work(queues, 0, query);
        for other in others {
            all.absorb(other.join().unwrap());
        }
        all
    })
}

/// Writes a field of CSV.
fn put_field(out: &mut Vec<u8>, value: &Datum) {
    match value {
        Datum::Null => out.extend_from_slice(b"\\N"),
        Datum::Bool(truth) => write!(out, "{truth}").unwrap(),
        Datum::Whole(number) => write!(out, "{number}").unwrap(),
        Datum::Text(text) => {
            let slash = if text.starts_with('\\') { "\\" } else { "" };
            if text.contains([',', '"', '\n', '\r']) {
                write!(out, "\"{slash}{}\"", text.replace('"', "\"\"")).unwrap();
            } else {
                write!(out, "{slash}{text}").unwrap();
            }
        }
    }
}

/// Writes the rows of one grouping set, in the order of their keys.
fn put_rows(out: &mut Vec<u8>, query: &Query, groups: &Groups) {
    let mut rows: Vec<_> = groups.iter().collect();
    rows.sort_unstable_by(|(first, _), (second, _)| first.cmp(second));
    for (key, group) in rows {
        for index in 0..query.grouping.len() {
            put_field(out, key.get(index).unwrap_or(&Datum::Null));
            out.push(b',');
        }
        for (index, part) in group.parts.iter().enumerate() {
            if index > 0 {
                out.push(b',');
            }
            match part {
                Accumulator::Rows => write!(out, "{}", group.lines).unwrap(),
                Accumulator::Sum { count: 0, .. } => out.extend_from_slice(b"\\N"),
                Accumulator::Sum { sum, .. } => write!(out, "{sum}").unwrap(),
            }
        }
        out.push(b'\n');
    }
}

/// The groups of the set of the first columns of a finer one.
fn rolled(finer: &Groups, columns: usize) -> Groups {
    let mut rolled = Groups::new();
    for (key, group) in finer {
        match rolled.get_mut(&key[..columns]) {
            Some(own) => own.absorb(group),
            None => {
                rolled.insert(key[..columns].to_vec(), group.clone());
            }
        }
    }
    rolled
}

fn main() {
    let mut words = std::env::args().skip(1);
    let workers: usize = words
        .next()
        .and_then(|word| word.parse().ok())
        .expect("WORKERS");
    let path = words.next().expect("FILE");
    let query = Query {
        grouping: vec![1, 2],
        functions: vec![Function::CountRows, Function::Sum(3)],
    };
    let begin = Instant::now();
    let input = std::fs::read(path).expect("FILE is read");
    let read = begin.elapsed();
    let part = whole(&input, workers.max(1), &query);
    let mut sets = vec![part.groups];
    for columns in (0..query.grouping.len()).rev() {
        sets.push(rolled(&sets[sets.len() - 1], columns));
    }
    let all = sets.last_mut().expect("the empty set");
    all.entry(Vec::new())
        .or_insert_with(|| Group::new(&query.functions));
    let mut out = Vec::new();
    for place in &query.grouping {
        write!(out, "{},", COLUMNS[*place].0).unwrap();
    }
    out.extend_from_slice(b"events,cents\n");
    for groups in &sets {
        put_rows(&mut out, &query, groups);
    }
    std::io::stdout().write_all(&out).expect("standard output");
    let rest = begin.elapsed() - read;
    eprintln!(
        "{} ms reading, {} ms the rest, {} lines refused",
        read.as_millis(),
        rest.as_millis(),
        part.refused
    );
}
