//! Scripts: their text, lines and words, and what is wrong with one.

use std::io::{self, BufRead, Read};

const MOST_SCRIPT: usize = 16_777_216;

/// The words of the longest line, and one more.
const MOST_WORDS: usize = 10;

/// A fault of a script.
pub enum Fault {
    Read,
    BadCommand(usize),
    Write,
    /// A fault of the text of a part of that number, as it is printed, with its line if it has one.
    Part(usize, &'static str, Option<usize>),
}

pub fn read_all() -> Result<Vec<u8>, Fault> {
    let mut script = Vec::new();
    let most = MOST_SCRIPT as u64 + 1;
    match io::stdin().take(most).read_to_end(&mut script) {
        Ok(count) if count <= MOST_SCRIPT => Ok(script),
        _ => Err(Fault::Read),
    }
}

/// The first line, without its line feed, and what follows it.
#[inline]
pub fn split_line(text: &[u8]) -> (&[u8], &[u8]) {
    let mut rest = text;
    let count = rest.skip_until(b'\n').unwrap_or(text.len());
    let line = &text[..count];
    (line.strip_suffix(b"\n").unwrap_or(line), rest)
}

#[inline]
fn is_blank(byte: u8) -> bool {
    byte == b' ' || byte == b'\t'
}

#[inline]
pub fn trim(mut line: &[u8]) -> &[u8] {
    while let Some((byte, rest)) = line.split_first() {
        if !is_blank(*byte) && *byte != b'\r' {
            break;
        }
        line = rest;
    }
    while let Some((byte, rest)) = line.split_last() {
        if !is_blank(*byte) && *byte != b'\r' {
            break;
        }
        line = rest;
    }
    line
}

/// How many bytes are tested one by one at first.
const FEW: usize = 16;

/// How many bytes stand before the first that the test finds; behind the first few, many are tested at once.
#[inline]
pub fn run_before<F: Fn(u8) -> bool>(text: &[u8], test: F) -> usize {
    let few = &text[..text.len().min(FEW)];
    if let Some(found) = few.iter().position(|byte| test(*byte)) {
        return found;
    }
    let mut passed = few.len();
    for piece in text[passed..].chunks(32) {
        if piece.iter().fold(false, |found, byte| found | test(*byte)) {
            return passed + piece.iter().position(|byte| test(*byte)).unwrap_or(0);
        }
        passed += piece.len();
    }
    passed
}

/// The words of a line, as many as there is room for.
pub struct Words<'a> {
    words: [&'a [u8]; MOST_WORDS],
    count: usize,
}

impl<'a> Words<'a> {
    pub fn of(mut line: &'a [u8]) -> Words<'a> {
        let mut words = Words { words: [&[]; MOST_WORDS], count: 0 };
        while words.count < MOST_WORDS {
            while !line.is_empty() && is_blank(line[0]) {
                line = &line[1..];
            }
            if line.is_empty() {
                break;
            }
            let (word, rest) = line.split_at(run_before(line, is_blank));
            words.words[words.count] = word;
            words.count += 1;
            line = rest;
        }
        words
    }

    pub fn as_slice(&self) -> &[&'a [u8]] {
        &self.words[..self.count]
    }
}

/// Hands on the items that the lines of a script say, one after the other. The first line that says nothing ends it.
#[inline]
fn walk<T, F, G>(script: &[u8], read: &F, mut each: G) -> Result<(), Fault>
where
    F: Fn(usize, &[&[u8]]) -> Option<T>,
    G: FnMut(T) -> Result<(), Fault>,
{
    let mut count = 0;
    let mut rest = script;
    let mut number = 0;
    while !rest.is_empty() {
        let (line, after) = split_line(rest);
        rest = after;
        number += 1;
        let line = trim(line);
        if line.is_empty() || line[0] == b'#' {
            continue;
        }
        match read(count, Words::of(line).as_slice()) {
            None => return Err(Fault::BadCommand(number)),
            Some(item) => each(item)?,
        }
        count += 1;
    }
    Ok(())
}

/// Hands on the items that the lines of a script say, of which none may say nothing: the script is gone through before,
/// by a reader that is told to keep no long text, so that no list of them is kept.
pub fn for_each_item<T, F, G>(script: &[u8], read: F, each: G) -> Result<(), Fault>
where
    F: Fn(usize, &[&[u8]], bool) -> Option<T>,
    G: FnMut(T) -> Result<(), Fault>,
{
    walk(script, &|before, words: &[&[u8]]| read(before, words, false), |_| Ok(()))?;
    walk(script, &|before, words: &[&[u8]]| read(before, words, true), each)
}
