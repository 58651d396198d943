//! The command `accept`: names, lists of whom to let in, and questions.

use crate::accept_list::AcceptList;
use crate::output::Output;
use crate::print::put;
use crate::script::{read_all, split_line, trim, Fault, Words};
use crate::values::Cred;
use crate::words::read_u32;
use std::collections::HashMap;

#[derive(Clone, Copy, PartialEq)]
enum PartKind {
    Names,
    Conf,
    Ask,
}

fn part_head(line: &[u8]) -> Option<PartKind> {
    match line {
        b"%names" => Some(PartKind::Names),
        b"%conf" => Some(PartKind::Conf),
        b"%ask" => Some(PartKind::Ask),
        _ => None,
    }
}

/// What a fault of a part's text is called; each has its line.
type LineFault = &'static str;

const BAD_LINE: LineFault = "31 BadLine";
const UNOPENED: LineFault = "32 Unopened";
const UNCLOSED: LineFault = "33 Unclosed";
const BAD_ITEM: LineFault = "34 BadItem";
const BAD_VALUE: LineFault = "35 BadValue";
const UNKNOWN_NAME: LineFault = "36 UnknownName";

/// The numbers of names, of users and of groups.
#[derive(Default)]
struct Names<'a> {
    users: HashMap<&'a [u8], u32>,
    groups: HashMap<&'a [u8], u32>,
}

impl<'a> Names<'a> {
    fn read(&mut self, line: &'a [u8]) -> Result<(), LineFault> {
        let (kept, name, number) = match Words::of(line).as_slice() {
            [b"user", name, number] => (&mut self.users, *name, *number),
            [b"group", name, number] => (&mut self.groups, *name, *number),
            _ => return Err(BAD_LINE),
        };
        let number = read_u32(number).ok_or(BAD_VALUE)?;
        kept.entry(name).or_insert(number);
        Ok(())
    }
}

/// What is open of a conf text.
#[derive(Default)]
struct Sections {
    depth: usize,
    /// Whether the section that is open at the top is one of users and groups.
    is_listing: bool,
}

fn is_number(word: &[u8]) -> bool {
    !word.is_empty() && word.iter().all(|byte| byte.is_ascii_digit())
}

/// The number that the value of an item says, by its digits or by a name.
fn read_value(value: &[u8], names: &HashMap<&[u8], u32>) -> Result<u32, LineFault> {
    if value.is_empty() || is_number(value) {
        return read_u32(value).ok_or(BAD_VALUE);
    }
    names.get(value).cloned().ok_or(UNKNOWN_NAME)
}

impl Sections {
    fn close(&mut self) -> Result<(), LineFault> {
        if self.depth == 0 {
            return Err(UNOPENED);
        }
        self.depth -= 1;
        Ok(())
    }

    fn open(&mut self, name: &[u8]) {
        if self.depth == 0 {
            self.is_listing = name == b"uidgid";
        }
        self.depth += 1;
    }

    fn read_item(&self, key: &[u8], value: &[u8], names: &Names, list: &mut AcceptList) -> Result<(), LineFault> {
        if self.depth != 1 || !self.is_listing {
            return Ok(());
        }
        match key {
            b"uid" => list.uids.insert(read_value(value, &names.users)?),
            b"gid" => list.gids.insert(read_value(value, &names.groups)?),
            _ => return Err(BAD_ITEM),
        };
        Ok(())
    }

    fn read(&mut self, line: &[u8], names: &Names, list: &mut AcceptList) -> Result<(), LineFault> {
        if line == b"}" {
            return self.close();
        }
        let opened = line.strip_suffix(b"{").map(trim).filter(|name| !name.is_empty());
        if let Some(name) = opened {
            self.open(name);
            return Ok(());
        }
        let colon = line.iter().position(|byte| *byte == b':').ok_or(BAD_LINE)?;
        self.read_item(trim(&line[..colon]), trim(&line[colon + 1..]), names, list)
    }
}

/// A script of parts as far as it was read.
struct Accepting<'a> {
    kind: Option<PartKind>,
    /// The number of the part, and of its first line.
    part: usize,
    head: usize,
    names: Names<'a>,
    sections: Sections,
    list: AcceptList,
    answers: Vec<u8>,
}

impl<'a> Accepting<'a> {
    fn new() -> Accepting<'a> {
        Accepting {
            kind: None,
            part: 0,
            head: 0,
            names: Names::default(),
            sections: Sections::default(),
            list: AcceptList::default(),
            answers: Vec::new(),
        }
    }

    fn end_part(&self) -> Result<(), Fault> {
        if self.kind == Some(PartKind::Conf) && self.sections.depth > 0 {
            Err(Fault::Part(self.part, UNCLOSED, None))
        } else {
            Ok(())
        }
    }

    fn begin_part(&mut self, kind: PartKind, number: usize) -> Result<(), Fault> {
        self.end_part()?;
        self.kind = Some(kind);
        self.part += 1;
        self.head = number;
        match kind {
            PartKind::Names => self.names = Names::default(),
            PartKind::Conf => self.sections = Sections::default(),
            PartKind::Ask => {}
        }
        Ok(())
    }

    fn ask(&mut self, line: &[u8]) -> Option<()> {
        let cred = match Words::of(line).as_slice() {
            [uid, gid] => Cred { uid: read_u32(uid)?, gid: read_u32(gid)? },
            _ => return None,
        };
        put(&mut self.answers, self.list.answer(cred));
        Some(())
    }

    /// Takes in a trimmed line of that number that is not ignored.
    fn read(&mut self, number: usize, line: &'a [u8]) -> Result<(), Fault> {
        if let Some(kind) = part_head(line) {
            return self.begin_part(kind, number);
        }
        let read = match self.kind {
            None => return Err(Fault::BadCommand(number)),
            Some(PartKind::Ask) => return self.ask(line).ok_or(Fault::BadCommand(number)),
            Some(PartKind::Names) => self.names.read(line),
            Some(PartKind::Conf) => self.sections.read(line, &self.names, &mut self.list),
        };
        read.map_err(|name| Fault::Part(self.part, name, Some(number - self.head)))
    }
}

pub fn run_accept() -> Result<(), Fault> {
    let script = read_all()?;
    let mut accepting = Accepting::new();
    let mut rest = &script[..];
    let mut number = 0;
    while !rest.is_empty() {
        let (line, after) = split_line(rest);
        rest = after;
        number += 1;
        let line = trim(line);
        if !line.is_empty() && line[0] != b'#' {
            accepting.read(number, line)?;
        }
    }
    accepting.end_part()?;
    Output::of(accepting.answers).flush()
}
