//! "Disjoint sets": the class calls, as scripts write them.

use super::{refuse, Refusal, SITES};

#[derive(Clone)]
pub struct Classes {
    parents: Vec<Option<usize>>,
    ranks: Vec<u8>,
}

#[derive(Clone, Copy, Debug, PartialEq, Eq)]
pub enum Call {
    Merge(usize, usize),
    Find(usize),
    FindMut(usize),
    Same(usize, usize),
    Remove(usize),
    Len,
    Empty,
}

impl Call {
    /// A line of a script; `None` for any other line.
    pub fn read(line: &str) -> Option<Call> {
        let words: Vec<&str> = line.split(' ').collect();
        let number = |at: usize| -> Option<usize> {
            let word: &str = words.get(at)?;
            let digits = !word.is_empty() && word.bytes().all(|b| b.is_ascii_digit());
            // a site number is two bytes
            if digits { word.parse::<u16>().ok().map(usize::from) } else { None }
        };
        let (call, length) = match *words.first()? {
            "merge" => (Call::Merge(number(1)?, number(2)?), 3),
            "find" => (Call::Find(number(1)?), 2),
            "findmut" => (Call::FindMut(number(1)?), 2),
            "same" => (Call::Same(number(1)?, number(2)?), 3),
            "remove" => (Call::Remove(number(1)?), 2),
            "len" => (Call::Len, 1),
            "empty" => (Call::Empty, 1),
            _ => return None,
        };
        (words.len() == length).then_some(call)
    }

    pub fn write(&self) -> String {
        match self {
            Call::Merge(x, y) => format!("merge {x} {y}"),
            Call::Find(x) => format!("find {x}"),
            Call::FindMut(x) => format!("findmut {x}"),
            Call::Same(x, y) => format!("same {x} {y}"),
            Call::Remove(x) => format!("remove {x}"),
            Call::Len => "len".to_string(),
            Call::Empty => "empty".to_string(),
        }
    }

    /// "In a class call the first site number of 1,024 or more is 2, before all else"; then 3.
    pub fn check(&self) -> Result<(), Refusal> {
        let sites = match *self {
            Call::Merge(x, y) | Call::Same(x, y) => vec![x, y],
            Call::Find(x) | Call::FindMut(x) | Call::Remove(x) => vec![x],
            Call::Len | Call::Empty => vec![],
        };
        if let Some(&unknown) = sites.iter().find(|&&x| x >= SITES) {
            return refuse(2, &[unknown]);
        }
        match *self {
            Call::Merge(x, y) if x == y => refuse(3, &[x]),
            _ => Ok(()),
        }
    }
}

pub fn refused(refusal: &Refusal) -> String {
    let told: String = refusal.told.iter().map(|n| format!(" {n}")).collect();
    format!("refused {}{told}", refusal.number)
}

impl Default for Classes {
    fn default() -> Classes {
        Classes { parents: vec![None; SITES], ranks: vec![0; SITES] }
    }
}

impl Classes {
    /// The representative and the links followed. "A site that was never joined has no representative."
    pub fn find(&self, x: usize) -> Option<(usize, usize)> {
        let (mut at, mut links) = (x, 0);
        while self.parents[at]? != at {
            at = self.parents[at]?;
            links += 1;
        }
        Some((at, links))
    }

    /// 02 [2]: every site passed is hung directly under the representative.
    pub fn find_mut(&mut self, x: usize) -> Option<usize> {
        let (root, _) = self.find(x)?;
        let mut at = x;
        while at != root {
            at = self.parents[at].replace(root)?;
        }
        Some(root)
    }

    /// "never exceed log2 of the class's members, rounded down": the most links that a find of x may report.
    pub fn most_links(&self, x: usize) -> Option<usize> {
        let (root, _) = self.find(x)?;
        let members = (0..SITES).filter(|&y| self.find(y).is_some_and(|found| found.0 == root)).count();
        Some(members.ilog2() as usize)
    }

    fn root(&mut self, x: usize) -> usize {
        self.find_mut(x).unwrap_or_else(|| {
            self.parents[x] = Some(x);
            self.ranks[x] = 0;
            x
        })
    }

    /// "the lower rank goes under the higher; on a tie the second root goes under the first, whose rank grows by one"
    pub fn merge(&mut self, x: usize, y: usize) {
        let (a, b) = (self.root(x), self.root(y));
        if a == b {
            return;
        }
        if self.ranks[a] < self.ranks[b] {
            self.parents[a] = Some(b);
        } else {
            self.parents[b] = Some(a);
            if self.ranks[a] == self.ranks[b] {
                self.ranks[a] += 1;
            }
        }
    }

    /// "Removing returns the members ascending, or none": the updating find on every joined site, ascending.
    pub fn remove(&mut self, x: usize) -> Vec<usize> {
        let Some(root) = self.find_mut(x) else { return vec![] };
        let members: Vec<usize> = (0..SITES).filter(|&y| self.find_mut(y) == Some(root)).collect();
        for &y in &members {
            self.parents[y] = None;
        }
        members
    }

    pub fn len(&self) -> usize {
        self.parents.iter().flatten().count()
    }

    pub fn answer(&mut self, call: &Call) -> String {
        if let Err(refusal) = call.check() {
            return refused(&refusal);
        }
        let or_none = |x: Option<String>| x.unwrap_or("none".to_string());
        match *call {
            Call::Merge(x, y) => {
                self.merge(x, y);
                "ok".to_string()
            }
            Call::Find(x) => or_none(self.find(x).map(|(site, links)| format!("{site} {links}"))),
            Call::FindMut(x) => or_none(self.find_mut(x).map(|site| site.to_string())),
            Call::Same(x, y) => {
                let (x, y) = (self.find(x), self.find(y));
                (x.is_some() && x.map(|f| f.0) == y.map(|f| f.0)).to_string()
            }
            Call::Remove(x) => {
                let members: Vec<String> = self.remove(x).iter().map(|y| y.to_string()).collect();
                or_none((!members.is_empty()).then(|| members.join(" ")))
            }
            Call::Len => self.len().to_string(),
            Call::Empty => (self.len() == 0).to_string(),
        }
    }
}

/// A script's answers, one a line. Any other line is `bad` with its number, and the script stops.
pub fn run(script: &str) -> String {
    let mut classes = Classes::default();
    let mut out = String::new();
    for (n, line) in script.split_terminator('\n').enumerate() {
        match Call::read(line) {
            Some(call) => out += &(classes.answer(&call) + "\n"),
            None => return out + &format!("bad {}\n", n + 1),
        }
    }
    out
}
