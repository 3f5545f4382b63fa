//! "Sites and constraints".

use super::{refuse, Refusal, FIELDS, SITES, SOURCES, TERMS, UNFOLDING};

#[derive(Clone, Debug, PartialEq, Eq)]
pub enum Site {
    ConstBool { ty: u16, val: u8 },
    ConstInt { ty: u16, val: u128 },
    ConstPrim { val: u16 },
    Argument { index: u8 },
    Extractor { term: u16, parameter: usize },
    Constructor { term: u16, instance: u32, parameters: Vec<usize> },
    Iterator { source: usize },
    MakeVariant { ty: u16, variant: u16, fields: Vec<usize> },
    MatchVariant { source: usize, variant: u16, field: u8 },
    MakeStruct { ty: u16, fields: Vec<usize> },
    ExtractStruct { source: usize, field: u8 },
    MakeSome { inner: usize },
    MatchSome { source: usize },
    MatchTuple { source: usize, field: u8 },
}

#[derive(Clone, Debug, PartialEq, Eq)]
pub enum Constraint {
    Variant { ty: u16, variant: u16, fields: u8 },
    Struct { ty: u16, fields: u8 },
    ConstBool { ty: u16, val: u8 },
    ConstInt { ty: u16, val: u128 },
    ConstPrim { val: u16 },
    Some,
}

/// Bytes taken from the front; `None` where they run short.
pub struct Bytes<'a>(pub &'a [u8]);

impl Bytes<'_> {
    pub fn number(&mut self, width: usize) -> Option<u128> {
        if self.0.len() < width {
            return None;
        }
        let (front, rest) = self.0.split_at(width);
        self.0 = rest;
        Some(front.iter().fold(0, |n, &b| n << 8 | b as u128))
    }

    pub fn one(&mut self) -> Option<u8> {
        self.number(1).map(|n| n as u8)
    }

    pub fn two(&mut self) -> Option<u16> {
        self.number(2).map(|n| n as u16)
    }

    pub fn site(&mut self) -> Option<usize> {
        self.number(2).map(|n| n as usize)
    }

    /// "Bool one byte 0 or 1"
    pub fn bool(&mut self) -> Option<u8> {
        self.one().filter(|&b| b <= 1)
    }

    /// "count (1) before lists"
    pub fn list(&mut self) -> Option<Vec<usize>> {
        let count = self.one()?;
        (0..count).map(|_| self.site()).collect()
    }

    pub fn end(&self) -> Option<()> {
        self.0.is_empty().then_some(())
    }
}

impl Site {
    /// A frame 02 past its number: kind, body.
    pub fn read(b: &mut Bytes) -> Option<Site> {
        let site = match b.one()? {
            0 => Site::ConstBool { ty: b.two()?, val: b.bool()? },
            1 => Site::ConstInt { ty: b.two()?, val: b.number(16)? },
            2 => Site::ConstPrim { val: b.two()? },
            3 => Site::Argument { index: b.one()? },
            4 => Site::Extractor { term: b.two()?, parameter: b.site()? },
            5 => Site::Constructor { term: b.two()?, instance: b.number(4)? as u32, parameters: b.list()? },
            6 => Site::Iterator { source: b.site()? },
            7 => Site::MakeVariant { ty: b.two()?, variant: b.two()?, fields: b.list()? },
            8 => Site::MatchVariant { source: b.site()?, variant: b.two()?, field: b.one()? },
            9 => Site::MakeStruct { ty: b.two()?, fields: b.list()? },
            10 => Site::ExtractStruct { source: b.site()?, field: b.one()? },
            11 => Site::MakeSome { inner: b.site()? },
            12 => Site::MatchSome { source: b.site()? },
            13 => Site::MatchTuple { source: b.site()?, field: b.one()? },
            _ => return None,
        };
        b.end()?;
        Some(site)
    }

    /// Kind and body, each source written by `source`. Stops early where `source` says so.
    pub fn write(
        &self,
        out: &mut Vec<u8>,
        source: &mut dyn FnMut(&mut Vec<u8>, usize) -> Option<()>,
    ) -> Option<()> {
        fn list(
            out: &mut Vec<u8>,
            sites: &[usize],
            source: &mut dyn FnMut(&mut Vec<u8>, usize) -> Option<()>,
        ) -> Option<()> {
            out.push(sites.len() as u8);
            sites.iter().try_for_each(|&s| source(out, s))
        }
        match self {
            Site::ConstBool { ty, val } => {
                out.push(0);
                out.extend(ty.to_be_bytes());
                out.push(*val);
            }
            Site::ConstInt { ty, val } => {
                out.push(1);
                out.extend(ty.to_be_bytes());
                out.extend(val.to_be_bytes());
            }
            Site::ConstPrim { val } => {
                out.push(2);
                out.extend(val.to_be_bytes());
            }
            Site::Argument { index } => out.extend([3, *index]),
            Site::Extractor { term, parameter } => {
                out.push(4);
                out.extend(term.to_be_bytes());
                source(out, *parameter)?;
            }
            Site::Constructor { term, instance, parameters } => {
                out.push(5);
                out.extend(term.to_be_bytes());
                out.extend(instance.to_be_bytes());
                list(out, parameters, source)?;
            }
            Site::Iterator { source: s } => {
                out.push(6);
                source(out, *s)?;
            }
            Site::MakeVariant { ty, variant, fields } => {
                out.push(7);
                out.extend(ty.to_be_bytes());
                out.extend(variant.to_be_bytes());
                list(out, fields, source)?;
            }
            Site::MatchVariant { source: s, variant, field } => {
                out.push(8);
                source(out, *s)?;
                out.extend(variant.to_be_bytes());
                out.push(*field);
            }
            Site::MakeStruct { ty, fields } => {
                out.push(9);
                out.extend(ty.to_be_bytes());
                list(out, fields, source)?;
            }
            Site::ExtractStruct { source: s, field } => {
                out.push(10);
                source(out, *s)?;
                out.push(*field);
            }
            Site::MakeSome { inner } => {
                out.push(11);
                source(out, *inner)?;
            }
            Site::MatchSome { source: s } => {
                out.push(12);
                source(out, *s)?;
            }
            Site::MatchTuple { source: s, field } => {
                out.push(13);
                source(out, *s)?;
                out.push(*field);
            }
        }
        Some(())
    }

    /// The sheet body, kind byte first.
    pub fn body(&self) -> Vec<u8> {
        let mut out = Vec::new();
        self.write(&mut out, &mut |out, s| {
            out.extend((s as u16).to_be_bytes());
            Some(())
        });
        out
    }

    pub fn sources(&self) -> Vec<usize> {
        let mut found = Vec::new();
        self.write(&mut Vec::new(), &mut |_, s| {
            found.push(s);
            Some(())
        });
        found
    }

    /// The term of an Extractor or Constructor.
    pub fn term(&self) -> Option<u16> {
        match self {
            Site::Extractor { term, .. } | Site::Constructor { term, .. } => Some(*term),
            _ => None,
        }
    }

    /// The source of a MatchVariant, ExtractStruct or MatchSome.
    pub fn parent(&self) -> Option<usize> {
        match self {
            Site::MatchVariant { source, .. }
            | Site::ExtractStruct { source, .. }
            | Site::MatchSome { source } => Some(*source),
            _ => None,
        }
    }
}

impl Constraint {
    /// A constraint in a frame 04: kind, body.
    pub fn read(b: &mut Bytes) -> Option<Constraint> {
        let constraint = match b.one()? {
            0 => Constraint::Variant { ty: b.two()?, variant: b.two()?, fields: b.one()? },
            1 => Constraint::Struct { ty: b.two()?, fields: b.one()? },
            2 => Constraint::ConstBool { ty: b.two()?, val: b.bool()? },
            3 => Constraint::ConstInt { ty: b.two()?, val: b.number(16)? },
            4 => Constraint::ConstPrim { val: b.two()? },
            5 => Constraint::Some,
            _ => return None,
        };
        b.end()?;
        Some(constraint)
    }

    pub fn body(&self) -> Vec<u8> {
        let mut out = Vec::new();
        match self {
            Constraint::Variant { ty, variant, fields } => {
                out.push(0);
                out.extend(ty.to_be_bytes());
                out.extend(variant.to_be_bytes());
                out.push(*fields);
            }
            Constraint::Struct { ty, fields } => {
                out.push(1);
                out.extend(ty.to_be_bytes());
                out.push(*fields);
            }
            Constraint::ConstBool { ty, val } => {
                out.push(2);
                out.extend(ty.to_be_bytes());
                out.push(*val);
            }
            Constraint::ConstInt { ty, val } => {
                out.push(3);
                out.extend(ty.to_be_bytes());
                out.extend(val.to_be_bytes());
            }
            Constraint::ConstPrim { val } => {
                out.push(4);
                out.extend(val.to_be_bytes());
            }
            Constraint::Some => out.push(5),
        }
        out
    }

    pub fn fields(&self) -> u8 {
        match self {
            Constraint::Variant { fields, .. } | Constraint::Struct { fields, .. } => *fields,
            _ => 0,
        }
    }

    pub fn too_many_fields(&self) -> bool {
        self.fields() > FIELDS
    }

    /// "Children of a constrained site, by field: MatchVariant for Variant, ExtractStruct for Struct, one MatchSome
    /// for Some, none otherwise."
    pub fn children(&self, source: usize) -> Vec<Site> {
        match *self {
            Constraint::Variant { variant, fields, .. } => {
                (0..fields).map(|field| Site::MatchVariant { source, variant, field }).collect()
            }
            Constraint::Struct { fields, .. } => {
                (0..fields).map(|field| Site::ExtractStruct { source, field }).collect()
            }
            Constraint::Some => vec![Site::MatchSome { source }],
            _ => vec![],
        }
    }
}

/// A set's table of sites. "one already present gives its number"
#[derive(Clone, Debug, Default)]
pub struct Table(pub Vec<Site>);

impl Table {
    pub fn number(&self, site: &Site) -> Option<usize> {
        self.0.iter().position(|s| s == site)
    }

    /// "Adding a site: 2, then 21 for sources and 28 for the term; one already present gives its number, else it gets
    /// the next (20 if none is left)." `at` is the item or the line that asks.
    pub fn add(&mut self, site: Site, at: usize) -> Result<usize, Refusal> {
        if let Some(&unknown) = site.sources().iter().find(|&&s| s >= self.0.len()) {
            return refuse(2, &[unknown]);
        }
        if site.sources().len() > SOURCES {
            return refuse(21, &[site.sources().len(), at]);
        }
        if let Some(term) = site.term().filter(|&t| t as usize >= TERMS) {
            return refuse(28, &[term as usize]);
        }
        if let Some(number) = self.number(&site) {
            return Ok(number);
        }
        if self.0.len() >= SITES {
            return refuse(20, &[self.0.len() + 1, at]);
        }
        self.0.push(site);
        Ok(self.0.len() - 1)
    }

    /// Adds the children of a constrained site; their numbers, by field.
    pub fn add_children(&mut self, site: usize, constraint: &Constraint, at: usize) -> Result<Vec<usize>, Refusal> {
        constraint.children(site).into_iter().map(|child| self.add(child, at)).collect()
    }

    /// The numbers of children that are there.
    pub fn children(&self, site: usize, constraint: &Constraint) -> Vec<usize> {
        let number = |child| self.number(&child).expect("a child that was added");
        constraint.children(site).into_iter().map(number).collect()
    }

    /// "its sheet body with each source's two bytes replaced by that source's unfolding"; `None` over 4,096 bytes.
    pub fn unfold(&self, site: usize) -> Option<Vec<u8>> {
        let mut out = Vec::new();
        self.unfold_into(&mut out, site)?;
        Some(out)
    }

    fn unfold_into(&self, out: &mut Vec<u8>, site: usize) -> Option<()> {
        self.0[site].write(out, &mut |out, source| {
            if out.len() > UNFOLDING {
                return None;
            }
            self.unfold_into(out, source)
        })?;
        (out.len() <= UNFOLDING).then_some(())
    }
}
