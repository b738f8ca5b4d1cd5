// A site of the plain RGA: its runs, its characters, its log, the edits that it makes and the files that it takes.
use crate::tree::{Spot, Sum, Tree, ROOT};
use std::collections::BTreeMap;
use std::error::Error;

const MAGIC: &[u8] = b"RGATEXT1";
const MOST_CHARACTERS: usize = 65_535;
const MOST_SPANS: usize = 65_536;

pub type Done<T> = Result<T, Box<dyn Error>>;

/// Ends the program: what it can't do it says, and does nothing in its place.
pub fn refuse<T>(what: &str) -> Done<T> {
    Err(what.into())
}

/// A count and a site: of two stamps the later one is the greater.
type Stamp = (u64, u32);

/// Cells of one site with consecutive counts, that stand behind each other, all visible or all gone.
#[derive(Clone, Copy)]
struct Run {
    site: u32,
    first: u64,
    len: usize,
    start: usize,
    gone: bool,
}

type Span = (u32, u64, u64);

enum Body {
    Insert { after: Stamp, start: usize, len: usize },
    Delete(Vec<Span>),
}

struct Op {
    count: u64,
    site: u32,
    prev: u64,
    body: Body,
}

pub struct Site {
    number: u32,
    runs: Vec<Run>,
    tree: Tree,
    /// The run of each site and first count.
    starts: BTreeMap<(u32, u64), usize>,
    /// All characters as they came, and where among them newlines are.
    characters: Vec<char>,
    newlines: Vec<usize>,
    log: Vec<Op>,
    ends: BTreeMap<u32, u64>,
    clock: u64,
}

impl Site {
    pub fn new(number: u32) -> Self {
        let root = Run { site: 0, first: 0, len: 1, start: 0, gone: true };
        Site {
            number,
            runs: vec![root],
            tree: Tree::new(),
            starts: BTreeMap::from([((0, 0), ROOT)]),
            characters: Vec::new(),
            newlines: Vec::new(),
            log: Vec::new(),
            ends: BTreeMap::new(),
            clock: 0,
        }
    }

    fn newlines_before(&self, at: usize) -> usize {
        self.newlines.partition_point(|it| *it < at)
    }

    fn sum(&self, run: &Run) -> Sum {
        if run.gone {
            return Sum::default();
        }
        Sum { visible: run.len, lines: self.newlines_before(run.start + run.len) - self.newlines_before(run.start) }
    }

    /// Writes the sum of a run into the tree.
    fn count(&mut self, run: usize) {
        let sum = self.sum(&self.runs[run]);
        self.tree.set(self.tree.spot(run), sum);
    }

    fn put_behind(&mut self, spot: Spot, run: Run) {
        self.starts.insert((run.site, run.first), self.runs.len());
        self.tree.put_behind(spot, self.sum(&run));
        self.runs.push(run);
    }

    /// Lets a run end after so many cells; the rest is the run behind it.
    fn cut(&mut self, number: usize, len: usize) {
        let run = self.runs[number];
        if len == 0 || len >= run.len {
            return;
        }
        self.runs[number].len = len;
        self.count(number);
        let rest = Run { first: run.first + len as u64, len: run.len - len, start: run.start + len, ..run };
        self.put_behind(self.tree.spot(number), rest);
    }

    /// The run that has a stamp, and the cells before it there.
    fn locate(&self, (count, site): Stamp) -> Done<(usize, usize)> {
        match self.starts.range(..=(site, count)).next_back() {
            Some((&(found, first), &run)) if found == site && count < first + self.runs[run].len as u64 => {
                Ok((run, (count - first) as usize))
            }
            _ => refuse("a stamp that no character has"),
        }
    }

    /// Puts characters behind the cell of a stamp, and behind those after it that are later than the new ones.
    fn integrate(&mut self, (count, site): Stamp, after: Stamp, start: usize, len: usize) -> Done<()> {
        let (run, offset) = self.locate(after)?;
        let here = self.runs[run];
        let mut spot = self.tree.spot(run);
        if offset + 1 < here.len && (here.first + offset as u64 + 1, here.site) < (count, site) {
            self.cut(run, offset + 1);
            spot = self.tree.spot(run);
        } else {
            while let Some(next) = self.tree.next(spot) {
                let it = &self.runs[self.tree.run(next)];
                if (it.first, it.site) < (count, site) {
                    break;
                }
                spot = next;
            }
        }
        let number = self.tree.run(spot);
        let last = self.runs[number];
        let goes_on = last.site == site && last.first + last.len as u64 == count && last.start + last.len == start;
        if goes_on && !last.gone {
            self.runs[number].len += len;
            let (old, more) = (self.tree.sum(spot), self.newlines.len() - self.newlines_before(start));
            self.tree.set(spot, Sum { visible: old.visible + len, lines: old.lines + more });
        } else {
            self.put_behind(spot, Run { site, first: count, len, start, gone: false });
        }
        Ok(())
    }

    /// The cells of a span are gone.
    fn remove(&mut self, (site, mut first, last): Span) -> Done<()> {
        while first <= last {
            let (run, offset) = self.locate((first, site))?;
            let rest = self.runs[run].len - offset;
            if self.runs[run].gone {
                first += rest as u64;
                continue;
            }
            self.cut(run, offset);
            let (run, _) = self.locate((first, site))?;
            self.cut(run, (last - first + 1) as usize);
            self.runs[run].gone = true;
            self.count(run);
            first += self.runs[run].len as u64;
        }
        Ok(())
    }

    fn keep(&mut self, text: &str) -> (usize, usize) {
        let start = self.characters.len();
        for it in text.chars() {
            if it == '\n' {
                self.newlines.push(self.characters.len());
            }
            self.characters.push(it);
        }
        (start, self.characters.len() - start)
    }

    fn accept(&mut self, op: Op) -> Done<()> {
        let last = match &op.body {
            Body::Insert { after, start, len } => {
                self.integrate((op.count, op.site), *after, *start, *len)?;
                op.count + *len as u64 - 1
            }
            Body::Delete(spans) => {
                for span in spans {
                    self.remove(*span)?;
                }
                op.count
            }
        };
        self.ends.insert(op.site, last);
        self.clock = self.clock.max(last);
        self.log.push(op);
        Ok(())
    }

    /// An operation of the site's own.
    fn make(&mut self, body: Body) -> Done<()> {
        let prev = self.ends.get(&self.number).copied().unwrap_or(0);
        self.accept(Op { count: self.clock + 1, site: self.number, prev, body })
    }

    fn visible(&self) -> usize {
        self.tree.total().visible
    }

    /// The place of the newline of a number, from 0; the last one is in no run.
    fn newline(&self, number: usize) -> usize {
        let all = self.tree.total();
        if number >= all.lines {
            return all.visible;
        }
        let (spot, before) = self.tree.find(number, |it| it.lines);
        let start = self.runs[self.tree.run(spot)].start;
        before.visible + self.newlines[self.newlines_before(start) + number - before.lines] - start
    }

    /// The place of an index: `end` or LINE.CHARACTER, and perhaps `+ N chars` behind it.
    pub fn place(&self, index: &str) -> Done<usize> {
        let (base, more) = index.split_once(" + ").unwrap_or((index, "0 chars"));
        let end = self.visible() + 1;
        let place = if base == "end" {
            end
        } else {
            let (line, character) = base.split_once('.').ok_or("an index that is unknown here")?;
            let (line, character): (usize, usize) = (line.parse()?, character.parse()?);
            if line > self.tree.total().lines + 1 {
                end
            } else {
                let start = if line < 2 { 0 } else { self.newline(line - 2) + 1 };
                self.newline(line - 1).min(start + character)
            }
        };
        let more: usize = more.strip_suffix(" chars").ok_or("an index that is unknown here")?.parse()?;
        Ok(end.min(place + more))
    }

    /// The line and character of a place.
    pub fn index(&self, place: usize) -> String {
        let all = self.tree.total();
        if place > all.visible {
            return format!("{}.0", all.lines + 2);
        }
        let mut lines = all.lines;
        if place < all.visible {
            let (spot, before) = self.tree.find(place, |it| it.visible);
            let start = self.runs[self.tree.run(spot)].start;
            lines = before.lines + self.newlines_before(start + place - before.visible) - self.newlines_before(start);
        }
        let start = if lines == 0 { 0 } else { self.newline(lines - 1) + 1 };
        format!("{}.{}", lines + 1, place - start)
    }

    pub fn insert(&mut self, place: usize, text: &str) -> Done<()> {
        let place = place.min(self.visible());
        let mut after = (0, 0);
        if place > 0 {
            let (spot, before) = self.tree.find(place - 1, |it| it.visible);
            let run = &self.runs[self.tree.run(spot)];
            after = (run.first + (place - 1 - before.visible) as u64, run.site);
        }
        let mut rest = text;
        while !rest.is_empty() {
            let size = rest.char_indices().nth(MOST_CHARACTERS).map_or(rest.len(), |it| it.0);
            let (start, len) = self.keep(&rest[..size]);
            self.make(Body::Insert { after, start, len })?;
            after = (self.clock, self.number);
            rest = &rest[size..];
        }
        Ok(())
    }

    /// The runs of the characters at places, each with its first one there and their number.
    fn stretches(&self, first: usize, end: usize) -> Vec<(usize, usize, usize)> {
        let mut found = Vec::new();
        if first >= end {
            return found;
        }
        let (mut spot, before) = self.tree.find(first, |it| it.visible);
        let (mut offset, mut left) = (first - before.visible, end - first);
        loop {
            let number = self.tree.run(spot);
            let run = &self.runs[number];
            if !run.gone {
                let size = left.min(run.len - offset);
                found.push((number, offset, size));
                (offset, left) = (0, left - size);
            }
            match self.tree.next(spot) {
                Some(next) if left > 0 => spot = next,
                _ => return found,
            }
        }
    }

    pub fn delete(&mut self, first: usize, end: usize) -> Done<()> {
        if end > self.visible() {
            return refuse("a range that has the last newline");
        }
        let mut spans: Vec<Span> = Vec::new();
        for (number, offset, size) in self.stretches(first, end) {
            let run = &self.runs[number];
            let from = run.first + offset as u64;
            spans.push((run.site, from, from + size as u64 - 1));
        }
        spans.sort_unstable();
        spans.dedup_by(|next, kept| {
            let joins = next.0 == kept.0 && kept.2 + 1 == next.1;
            if joins {
                kept.2 = next.2;
            }
            joins
        });
        for part in spans.chunks(MOST_SPANS) {
            self.make(Body::Delete(part.to_vec()))?;
        }
        Ok(())
    }

    pub fn text(&self, first: usize, end: usize) -> String {
        let visible = self.visible();
        let mut text = String::new();
        for (number, offset, size) in self.stretches(first, end.min(visible)) {
            let start = self.runs[number].start + offset;
            text.extend(&self.characters[start..start + size]);
        }
        if end > visible && first < end {
            text.push('\n');
        }
        text
    }

    /// Takes the operations of a file: how many were new, and how many repeats.
    pub fn receive(&mut self, bytes: &[u8]) -> Done<(usize, usize)> {
        let mut rest = bytes.strip_prefix(MAGIC).ok_or("a file that isn't of version 1")?;
        let (mut new, mut repeat) = (0, 0);
        while !rest.is_empty() {
            let mut record = Reader(rest);
            let size = record.number(4)? as usize;
            record = Reader(record.bytes(size)?);
            rest = &rest[4 + size..];
            let (kind, count, site, prev) = (record.number(1)?, record.number(8)?, record.number(2)? as u32, record.number(8)?);
            let known = self.ends.get(&site).copied().unwrap_or(0);
            if prev < known {
                repeat += 1;
                continue;
            }
            if prev > known {
                return refuse("an operation that comes early");
            }
            let body = if kind == 1 {
                let after = (record.number(8)?, record.number(2)? as u32);
                if record.number(1)? != 0 {
                    return refuse("an insertion with tags");
                }
                let (start, len) = self.keep(std::str::from_utf8(record.0)?);
                Body::Insert { after, start, len }
            } else if kind == 2 {
                let mut spans = Vec::new();
                for _ in 0..record.number(4)? {
                    spans.push((record.number(2)? as u32, record.number(8)?, record.number(8)?));
                }
                Body::Delete(spans)
            } else {
                return refuse("an operation that is unknown here");
            };
            self.accept(Op { count, site, prev, body })?;
            new += 1;
        }
        Ok((new, repeat))
    }

    /// The file of the log.
    pub fn export(&mut self) -> Vec<u8> {
        self.log.sort_by_key(|it| (it.count, it.site));
        let mut out = MAGIC.to_vec();
        for op in &self.log {
            let start = out.len();
            out.extend([0; 4]);
            out.push(if matches!(op.body, Body::Insert { .. }) { 1 } else { 2 });
            out.extend(op.count.to_be_bytes());
            out.extend((op.site as u16).to_be_bytes());
            out.extend(op.prev.to_be_bytes());
            match &op.body {
                Body::Insert { after, start, len } => {
                    out.extend(after.0.to_be_bytes());
                    out.extend((after.1 as u16).to_be_bytes());
                    out.push(0);
                    for it in &self.characters[*start..*start + *len] {
                        out.extend(it.encode_utf8(&mut [0; 4]).as_bytes());
                    }
                }
                Body::Delete(spans) => {
                    out.extend((spans.len() as u32).to_be_bytes());
                    for (site, first, last) in spans {
                        out.extend((*site as u16).to_be_bytes());
                        out.extend(first.to_be_bytes());
                        out.extend(last.to_be_bytes());
                    }
                }
            }
            let size = (out.len() - start - 4) as u32;
            out[start..start + 4].copy_from_slice(&size.to_be_bytes());
        }
        out
    }
}

/// What is left of a record.
struct Reader<'a>(&'a [u8]);

impl<'a> Reader<'a> {
    fn bytes(&mut self, size: usize) -> Done<&'a [u8]> {
        if size > self.0.len() {
            return refuse("a file that is cut");
        }
        let (front, rest) = self.0.split_at(size);
        self.0 = rest;
        Ok(front)
    }

    fn number(&mut self, size: usize) -> Done<u64> {
        Ok(self.bytes(size)?.iter().fold(0, |all, it| all << 8 | u64::from(*it)))
    }
}
