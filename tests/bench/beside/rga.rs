// A plain Replicated Growable Array, unverified, which tests/bench.py `peers` runs beside the program: runs of cells in a
// counted tree, and a map from stamps to runs. It takes the lines `insert`, `delete`, `get`, `index` and `receive`, and files
// of operations of version 1; it has no tags, marks or undo, and where it meets anything else it ends.
use site::{refuse, Done, Site};
use std::borrow::Cow;
use std::collections::BTreeMap;
use std::fs;
use std::io::{self, BufRead, BufWriter, Write};

mod site;
mod tree;

type Files = BTreeMap<String, Vec<u8>>;

/// The reply to the words of a line.
fn reply(site: &mut Site, words: &[Cow<str>], files: &Files) -> Done<String> {
    let words: Vec<&str> = words.iter().map(|it| it.as_ref()).collect();
    Ok(match words[..] {
        [".t", "insert", index, text] => {
            site.insert(site.place(index)?, text)?;
            "=".to_string()
        }
        [".t", "delete", first, end] => {
            site.delete(site.place(first)?, site.place(end)?)?;
            "=".to_string()
        }
        [".t", "index", index] => format!("= {}", site.index(site.place(index)?)),
        [".t", "get", first, end] => format!("= {}", spelled(&site.text(site.place(first)?, site.place(end)?))),
        ["receive", name] => {
            let (new, repeat) = site.receive(files.get(name).ok_or("no such file")?)?;
            format!("= {new} {repeat}")
        }
        _ => return refuse("a line that is unknown here"),
    })
}

/// The words of a line, bare or in quotes.
fn words_of(line: &str) -> Done<Vec<Cow<'_, str>>> {
    let (mut words, mut rest) = (Vec::with_capacity(4), line);
    loop {
        rest = rest.trim_start_matches([' ', '\t']);
        if rest.is_empty() {
            return Ok(words);
        }
        if let Some(quoted) = rest.strip_prefix('"') {
            let mut end = 0;
            let bytes = quoted.as_bytes();
            while *bytes.get(end).ok_or("a quote that nothing closes")? != b'"' {
                end += if bytes[end] == b'\\' { 2 } else { 1 };
            }
            words.push(unescaped(&quoted[..end])?);
            rest = &quoted[end + 1..];
        } else {
            let end = rest.find([' ', '\t']).unwrap_or(rest.len());
            words.push(Cow::Borrowed(&rest[..end]));
            rest = &rest[end..];
        }
    }
}

fn unescaped(word: &str) -> Done<Cow<'_, str>> {
    if !word.contains('\\') {
        return Ok(Cow::Borrowed(word));
    }
    let (mut out, mut characters) = (String::with_capacity(word.len()), word.chars());
    while let Some(it) = characters.next() {
        out.push(match it {
            '\\' => match characters.next() {
                Some('n') => '\n',
                Some('t') => '\t',
                Some('r') => '\r',
                Some(same @ ('\\' | '"')) => same,
                _ => return refuse("an escape that is unknown here"),
            },
            _ => it,
        });
    }
    Ok(Cow::Owned(out))
}

/// A word as a reply line has it.
fn spelled(word: &str) -> String {
    if !word.is_empty() && !word.contains([' ', '\t', '\n', '\r', '"', '\\', '{', '}']) {
        return word.to_string();
    }
    let mut out = String::with_capacity(word.len() + 2);
    out.push('"');
    for it in word.chars() {
        match it {
            '\n' => out.push_str("\\n"),
            '\t' => out.push_str("\\t"),
            '\r' => out.push_str("\\r"),
            '"' | '\\' => out.extend(['\\', it]),
            _ => out.push(it),
        }
    }
    out.push('"');
    out
}

fn main() -> Done<()> {
    let (mut number, mut log, mut out, mut files) = (1, None, None, Files::new());
    let mut words = std::env::args().skip(2);
    while let Some(word) = words.next() {
        match word.as_str() {
            "--site" => number = words.next().ok_or("no site")?.parse()?,
            "--log" => log = words.next(),
            "--out" => out = words.next(),
            _ => {
                let bytes = fs::read(&word)?;
                files.insert(word, bytes);
            }
        }
    }
    let mut site = Site::new(number);
    if let Some(log) = log {
        site.receive(&fs::read(log)?)?;
    }
    let (mut input, mut replies, mut line) = (io::stdin().lock(), BufWriter::new(io::stdout().lock()), String::new());
    while input.read_line(&mut line)? > 0 {
        writeln!(replies, "{}", reply(&mut site, &words_of(line.trim_end_matches('\n'))?, &files)?)?;
        line.clear();
    }
    replies.flush()?;
    if let Some(out) = out {
        fs::write(out, site.export())?;
    }
    Ok(())
}
