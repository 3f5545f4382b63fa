//! "Sheets", read line by line.

use super::loading::{Item, Rule, Set};
use super::rules::{pairs, report, total};
use super::sites::{Bytes, Constraint, Site, Table};
use super::terms;
use super::{Refusal, DIGITS, SETS, TERMS};
use std::collections::{BTreeMap, BTreeSet};

/// What the reader met, in sheet order.
pub enum Event {
    Begin {
        term: u16,
        flags: u8,
    },
    Site(Site),
    /// A rule, its fate, and the sites known when it was decided.
    Rule {
        rule: Rule,
        result: Result<(), Refusal>,
        sites: Table,
    },
    End(Set),
}

pub struct Reading {
    pub events: Vec<Event>,
    /// The line where the sheet stopped and the number.
    pub stopped: Option<(u32, u8)>,
    pub flags: BTreeMap<u16, u8>,
    pub edges: BTreeSet<(usize, usize)>,
    /// The set that was open where the sheet stopped.
    pub open: Option<Set>,
}

#[derive(Default)]
struct Reader {
    open: Option<Set>,
    /// A rule of the open set was begun.
    ruled: bool,
    /// The rule whose items are being read, and how many are to come.
    rule: Option<(Rule, usize)>,
    events: Vec<Event>,
    flags: BTreeMap<u16, u8>,
    edges: BTreeSet<(usize, usize)>,
}

impl Reader {
    /// A line without its LF. An error is the number that stops the sheet.
    fn line(&mut self, line: &[u8]) -> Result<(), u8> {
        let digit = |b: &u8| b.is_ascii_digit() || (b'A'..=b'F').contains(b);
        if line.len() > DIGITS || !line.iter().all(digit) || line.len() % 2 == 1 {
            return Err(1);
        }
        let hex = std::str::from_utf8(line).unwrap();
        let bytes: Vec<u8> =
            (0..hex.len() / 2).map(|i| u8::from_str_radix(&hex[2 * i..2 * i + 2], 16).unwrap()).collect();
        let mut b = Bytes(&bytes);
        match b.one() {
            Some(1) => self.begin(&mut b),
            Some(2) => self.site(&mut b),
            Some(3) => self.begin_rule(&mut b),
            Some(4) | Some(5) => self.item(bytes[0], &mut b),
            Some(6) => self.end(&mut b),
            _ => Err(1),
        }
    }

    fn begin(&mut self, b: &mut Bytes) -> Result<(), u8> {
        let laid_out = (|| {
            let frame = (b.two()?, b.one()?);
            b.end()?;
            (frame.1 <= 3 && self.open.is_none()).then_some(frame)
        })();
        let (term, flags) = laid_out.ok_or(1)?;
        if self.flags.contains_key(&term) {
            return Err(9);
        }
        if self.flags.len() >= SETS {
            return Err(27);
        }
        if term as usize >= TERMS {
            return Err(28);
        }
        self.flags.insert(term, flags);
        self.open = Some(Set { term, flags, ..Set::default() });
        self.ruled = false;
        self.events.push(Event::Begin { term, flags });
        Ok(())
    }

    fn site(&mut self, b: &mut Bytes) -> Result<(), u8> {
        let site = Site::read(b).ok_or(1)?;
        if self.ruled {
            return Err(1);
        }
        let set = self.open.as_mut().ok_or(1)?;
        if set.sites.number(&site).is_some() {
            return Err(9);
        }
        // a 1F shows the number alone, so the line need not be told
        set.sites.add(site.clone(), 0).map_err(|refusal| refusal.number)?;
        if let Some(term) = site.term() {
            self.edges.insert((set.term as usize, term as usize));
        }
        self.events.push(Event::Site(site));
        Ok(())
    }

    fn begin_rule(&mut self, b: &mut Bytes) -> Result<(), u8> {
        let frame = (|| {
            let frame = (b.number(4)? as u32, b.number(8)? as u64 as i64, b.one()? as usize);
            b.end()?;
            Some(frame)
        })();
        let (place, priority, count) = frame.ok_or(1)?;
        if self.open.is_none() || self.rule.is_some() {
            return Err(1);
        }
        self.ruled = true;
        self.rule = Some((Rule { place, priority, items: vec![] }, count));
        self.load_if_whole();
        Ok(())
    }

    fn item(&mut self, frame: u8, b: &mut Bytes) -> Result<(), u8> {
        let item = (|| {
            let first = b.site()?;
            if frame == 4 {
                return Some(Item::Is(first, Constraint::read(b)?));
            }
            let second = b.site()?;
            b.end()?;
            Some(Item::Equal(first, second))
        })();
        let (rule, _) = self.rule.as_mut().ok_or(1)?;
        rule.items.push(item.ok_or(1)?);
        self.load_if_whole();
        Ok(())
    }

    fn load_if_whole(&mut self) {
        if let Some((rule, count)) = self.rule.take() {
            if rule.items.len() < count {
                self.rule = Some((rule, count));
                return;
            }
            let loaded = self.open.as_mut().expect("a rule stands in a set").load(&rule);
            self.events.push(Event::Rule { rule, result: loaded.result, sites: loaded.sites });
        }
    }

    fn end(&mut self, b: &mut Bytes) -> Result<(), u8> {
        b.end().ok_or(1)?;
        if self.rule.is_some() {
            return Err(1);
        }
        let set = self.open.take().ok_or(1)?;
        self.events.push(Event::End(set));
        Ok(())
    }
}

pub fn read(sheet: &[u8]) -> Reading {
    let mut reader = Reader::default();
    let mut stopped = None;
    let mut rest = sheet;
    let mut number = 0u32;
    loop {
        number += 1;
        if rest.is_empty() {
            // "A sheet ending inside a set is 1 at the line after its last."
            if reader.open.is_some() {
                stopped = Some((number, 1));
            }
            break;
        }
        let result = match rest.iter().position(|&b| b == b'\n') {
            None => Err(1),
            Some(_) if number == u32::MAX => Err(1),
            Some(at) => {
                let line = &rest[..at];
                rest = &rest[at + 1..];
                reader.line(line)
            }
        };
        if let Err(refused) = result {
            stopped = Some((number, refused));
            break;
        }
    }
    Reading { events: reader.events, stopped, flags: reader.flags, edges: reader.edges, open: reader.open }
}

pub fn hex(bytes: &[u8]) -> String {
    bytes.iter().map(|b| format!("{b:02X}")).collect()
}

/// What `lintelmoth check` writes.
pub fn findings(reading: &Reading) -> String {
    let mut out = String::new();
    let (mut sets, mut kept) = (0, 0);
    for event in &reading.events {
        match event {
            Event::Rule { rule, result: Err(refusal), .. } => {
                out += &format!("11{:08X}{:02X}\n", rule.place, refusal.number);
            }
            Event::End(set) => {
                sets += 1;
                kept += set.kept.len();
                out.extend(report(set).iter().map(|frame| format!("{frame}\n")));
            }
            _ => {}
        }
    }
    match reading.stopped {
        Some((line, number)) => out += &format!("1F{line:08X}{number:02X}\n"),
        None => {
            for term in terms::cyclic(&reading.edges) {
                if reading.flags[&(term as u16)] & 2 == 0 {
                    out += &format!("14{term:04X}\n");
                }
            }
            out += &format!("15{sets:04X}{kept:04X}\n");
        }
    }
    out
}

pub fn unfolding(sites: &Table, site: usize) -> String {
    sites.unfold(site).map_or("OVER".to_string(), |bytes| hex(&bytes))
}

/// What `lintelmoth kept` writes.
pub fn kept(reading: &Reading) -> String {
    let mut out = String::new();
    let mut rules = 0;
    for (at, event) in reading.events.iter().enumerate() {
        match event {
            Event::Begin { term, flags } => {
                rules = 0;
                out += &format!("set {term:04X} {flags:02X}\n");
            }
            Event::Site(_) => {}
            Event::Rule { rule, result, .. } => {
                out += &format!("rule {:08X} {:016X} ", rule.place, rule.priority);
                match result {
                    Err(refusal) => out += &(super::classes::refused(refusal) + "\n"),
                    Ok(()) => {
                        out += "kept\n";
                        write_kept(&mut out, set_of(reading, at), rules);
                        rules += 1;
                    }
                }
            }
            Event::End(set) => {
                for (a, b, answer) in pairs(set) {
                    out += &format!("pair {a:08X} {b:08X} {}\n", answer.word());
                }
                out.extend(report(set).iter().map(|frame| format!("{frame}\n")));
            }
        }
    }
    match reading.stopped {
        Some((line, number)) => out += &format!("1F{line:08X}{number:02X}\n"),
        None => out += &terms::line(&terms::cyclic(&reading.edges)),
    }
    out
}

/// The set that an event stands in, as it is at its end, or where the sheet stopped.
fn set_of(reading: &Reading, at: usize) -> &Set {
    let end = reading.events[at..].iter().find_map(|event| match event {
        Event::End(set) => Some(set),
        _ => None,
    });
    end.or(reading.open.as_ref()).expect("a rule stands in a set")
}

fn write_kept(out: &mut String, set: &Set, number: usize) {
    let rule = &set.kept[number];
    for (&site, constraint) in &rule.constraints {
        *out += &format!(" c {} {}\n", unfolding(&set.sites, site), hex(&constraint.body()));
    }
    for class in rule.classes.ascending() {
        *out += " e";
        for &site in class {
            *out += &format!(" {}", unfolding(&set.sites, site));
        }
        *out += "\n";
    }
    *out += &format!(" total {}\n", total(rule));
}
