//! The calls of include/lintelmoth.h for Rust: the same names without the prefix, safe, with slices in the place of pointers and lengths.
//! Each returns the number; `a` is the answer's slice, of at least `ANSWER` words.
#![allow(dead_code)]

pub const SITES: usize = 1024;
pub const RULES: usize = 64;
pub const SLOT: usize = 32;
pub const STRIDE: usize = 196;
pub const REPORT_ROOM: usize = 67456;
pub const TERMS: usize = 256;
pub const NONE: u64 = 65535;

pub const ANSWER: usize = 2;
pub const STATE: usize = 22;
pub const HELD: usize = 65;
pub const STOPPED: usize = 21;
pub const SITES_ROOM: usize = SITES * SLOT;
pub const KEPT_ROOM: usize = RULES * STRIDE;
pub const ITEMS_ROOM: usize = 128;
pub const STEP_ROOM: usize = REPORT_ROOM;
pub const END_ROOM: usize = 1803;

/// Classes of sites: what the class calls lend.
pub struct Classes {
    parents: [u16; SITES],
    ranks: [u8; SITES],
    count: u16,
}

pub struct Terms {
    table: [u64; TERMS * 4],
    recs: [u64; 4],
}

mod c {
    extern "C" {
        pub fn lintel_classes_clear(parents: *mut u16, ranks: *mut u8, count: *mut u16);
        pub fn lintel_find(parents: *const u16, site: u16, answer: *mut u64, n: usize) -> u32;
        pub fn lintel_find_mut(parents: *mut u16, site: u16, answer: *mut u64, n: usize) -> u32;
        pub fn lintel_merge(parents: *mut u16, ranks: *mut u8, count: *mut u16, site: u16, other: u16, answer: *mut u64, n: usize) -> u32;
        pub fn lintel_in_same_set(parents: *const u16, site: u16, other: u16, answer: *mut u64, n: usize) -> u32;
        pub fn lintel_remove_set_of(parents: *mut u16, count: *mut u16, site: u16, members: *mut u16, m: usize, answer: *mut u64, n: usize) -> u32;
        pub fn lintel_len(count: *const u16) -> u32;
        pub fn lintel_is_empty(count: *const u16) -> u32;
        pub fn lintel_add_site(sites: *mut u8, s: usize, count: u16, body: *const u8, b: usize, line: u32, answer: *mut u64, n: usize) -> u32;
        pub fn lintel_unfold(sites: *const u8, s: usize, count: u16, site: u16, room: *mut u8, r: usize, answer: *mut u64, n: usize) -> u32;
        pub fn lintel_may_overlap(words: *const u64, w: usize, rule: u32, other: u32, answer: *mut u64, n: usize) -> u32;
        pub fn lintel_total_constraints(words: *const u64, w: usize, rule: u32, answer: *mut u64, n: usize) -> u32;
        pub fn lintel_report(words: *const u64, w: usize, count: u32, flags: u8, room: *mut u8, r: usize, answer: *mut u64, n: usize) -> u32;
        pub fn lintel_load(sites: *mut u8, s: usize, count: u16, words: *mut u64, w: usize, kept: u32, place: u32, priority: i64, items: *const u64, i: usize, many: u8, answer: *mut u64, n: usize) -> u32;
        pub fn lintel_terms_clear(table: *mut u64, recs: *mut u64);
        pub fn lintel_add_edge(table: *mut u64, from: u16, to: u16, answer: *mut u64, n: usize) -> u32;
        pub fn lintel_mark_rec(recs: *mut u64, term: u16, answer: *mut u64, n: usize) -> u32;
        pub fn lintel_cyclic_terms(table: *const u64, recs: *const u64, found: *mut u16, f: usize, answer: *mut u64, n: usize) -> u32;
        pub fn lintel_sheet_begin(state: *mut u64, s: usize, held: *mut u8, h: usize, table: *mut u64) -> u32;
        pub fn lintel_sheet_feed(
            state: *mut u64, s: usize, held: *mut u8, h: usize, sites: *mut u8, m: usize, words: *mut u64, w: usize, items: *mut u64, i: usize,
            table: *mut u64, piece: *const u8, p: usize, room: *mut u8, r: usize, answer: *mut u64, n: usize,
        ) -> u32;
        pub fn lintel_sheet_end(
            state: *const u64, s: usize, held: *const u8, h: usize, table: *const u64, room: *mut u8, r: usize, answer: *mut u64, n: usize,
        ) -> u32;
        pub fn lintel_sheet_check(
            sheet: *const u8, l: usize, sites: *mut u8, m: usize, words: *mut u64, w: usize, items: *mut u64, i: usize, table: *mut u64,
            room: *mut u8, r: usize, answer: *mut u64, n: usize,
        ) -> u32;
    }
}

// Each call lends parts that do not overlap, since `&mut` never does, with their true lengths: that is all the archive asks.
impl Classes {
    pub fn new() -> Classes {
        let mut k = Classes { parents: [0; SITES], ranks: [0; SITES], count: 0 };
        k.clear();
        k
    }

    pub fn clear(&mut self) {
        unsafe { c::lintel_classes_clear(self.parents.as_mut_ptr(), self.ranks.as_mut_ptr(), &mut self.count) }
    }

    pub fn find(&self, site: u16, a: &mut [u64]) -> u32 {
        unsafe { c::lintel_find(self.parents.as_ptr(), site, a.as_mut_ptr(), a.len()) }
    }

    pub fn find_mut(&mut self, site: u16, a: &mut [u64]) -> u32 {
        unsafe { c::lintel_find_mut(self.parents.as_mut_ptr(), site, a.as_mut_ptr(), a.len()) }
    }

    pub fn merge(&mut self, site: u16, other: u16, a: &mut [u64]) -> u32 {
        let (p, r, n) = (self.parents.as_mut_ptr(), self.ranks.as_mut_ptr(), &mut self.count);
        unsafe { c::lintel_merge(p, r, n, site, other, a.as_mut_ptr(), a.len()) }
    }

    pub fn in_same_set(&self, site: u16, other: u16, a: &mut [u64]) -> u32 {
        unsafe { c::lintel_in_same_set(self.parents.as_ptr(), site, other, a.as_mut_ptr(), a.len()) }
    }

    pub fn remove_set_of(&mut self, site: u16, members: &mut [u16], a: &mut [u64]) -> u32 {
        let (p, n) = (self.parents.as_mut_ptr(), &mut self.count);
        unsafe { c::lintel_remove_set_of(p, n, site, members.as_mut_ptr(), members.len(), a.as_mut_ptr(), a.len()) }
    }

    pub fn len(&self) -> u32 {
        unsafe { c::lintel_len(&self.count) }
    }

    pub fn is_empty(&self) -> bool {
        unsafe { c::lintel_is_empty(&self.count) == 1 }
    }
}

pub fn add_site(sites: &mut [u8], count: u16, body: &[u8], line: u32, a: &mut [u64]) -> u32 {
    let (m, b) = (sites.as_mut_ptr(), body.as_ptr());
    unsafe { c::lintel_add_site(m, sites.len(), count, b, body.len(), line, a.as_mut_ptr(), a.len()) }
}

pub fn unfold(sites: &[u8], count: u16, site: u16, room: &mut [u8], a: &mut [u64]) -> u32 {
    let (m, r) = (sites.as_ptr(), room.as_mut_ptr());
    unsafe { c::lintel_unfold(m, sites.len(), count, site, r, room.len(), a.as_mut_ptr(), a.len()) }
}

pub fn may_overlap(words: &[u64], rule: u32, other: u32, a: &mut [u64]) -> u32 {
    unsafe { c::lintel_may_overlap(words.as_ptr(), words.len(), rule, other, a.as_mut_ptr(), a.len()) }
}

pub fn total_constraints(words: &[u64], rule: u32, a: &mut [u64]) -> u32 {
    unsafe { c::lintel_total_constraints(words.as_ptr(), words.len(), rule, a.as_mut_ptr(), a.len()) }
}

pub fn report(words: &[u64], count: u32, flags: u8, room: &mut [u8], a: &mut [u64]) -> u32 {
    let (w, r) = (words.as_ptr(), room.as_mut_ptr());
    unsafe { c::lintel_report(w, words.len(), count, flags, r, room.len(), a.as_mut_ptr(), a.len()) }
}

/// The rule's items are four words each.
#[allow(clippy::too_many_arguments)]
pub fn load(sites: &mut [u8], count: u16, words: &mut [u64], kept: u32, place: u32, priority: i64, items: &[u64], many: u8, a: &mut [u64]) -> u32 {
    let (m, w, i) = (sites.as_mut_ptr(), words.as_mut_ptr(), items.as_ptr());
    unsafe { c::lintel_load(m, sites.len(), count, w, words.len(), kept, place, priority, i, items.len(), many, a.as_mut_ptr(), a.len()) }
}

impl Terms {
    pub fn new() -> Terms {
        let mut t = Terms { table: [0; TERMS * 4], recs: [0; 4] };
        t.clear();
        t
    }

    pub fn clear(&mut self) {
        unsafe { c::lintel_terms_clear(self.table.as_mut_ptr(), self.recs.as_mut_ptr()) }
    }

    pub fn add_edge(&mut self, from: u16, to: u16, a: &mut [u64]) -> u32 {
        unsafe { c::lintel_add_edge(self.table.as_mut_ptr(), from, to, a.as_mut_ptr(), a.len()) }
    }

    pub fn mark_rec(&mut self, term: u16, a: &mut [u64]) -> u32 {
        unsafe { c::lintel_mark_rec(self.recs.as_mut_ptr(), term, a.as_mut_ptr(), a.len()) }
    }

    pub fn cyclic(&self, found: &mut [u16], a: &mut [u64]) -> u32 {
        let (t, r) = (self.table.as_ptr(), self.recs.as_ptr());
        unsafe { c::lintel_cyclic_terms(t, r, found.as_mut_ptr(), found.len(), a.as_mut_ptr(), a.len()) }
    }
}

/// All that is kept of a sheet between two pieces.
pub struct Sheet {
    state: [u64; STATE],
    held: [u8; HELD],
    sites: Vec<u8>,
    words: Vec<u64>,
    items: [u64; ITEMS_ROOM],
    table: [u64; TERMS * 4],
}

impl Sheet {
    pub fn new() -> Sheet {
        let (sites, words) = (vec![0; SITES_ROOM], vec![0; KEPT_ROOM]);
        Sheet { state: [0; STATE], held: [0; HELD], sites, words, items: [0; ITEMS_ROOM], table: [0; TERMS * 4] }
    }

    /// Before the first piece. Fewer than `STATE` words of the state are too few.
    pub fn begin(&mut self, words: usize) -> u32 {
        let s = &mut self.state[..words];
        let h = &mut self.held;
        unsafe { c::lintel_sheet_begin(s.as_mut_ptr(), s.len(), h.as_mut_ptr(), HELD, self.table.as_mut_ptr()) }
    }

    /// Whether the sheet stopped.
    pub fn stopped(&self) -> bool {
        self.state[STOPPED] != 0
    }

    /// `a`: bytes of the piece that were read, bytes of findings in the room.
    pub fn feed(&mut self, piece: &[u8], room: &mut [u8], a: &mut [u64]) -> u32 {
        let (s, h, t) = (&mut self.state, &mut self.held, &mut self.table);
        let (m, w, i) = (&mut self.sites, &mut self.words, &mut self.items);
        unsafe {
            c::lintel_sheet_feed(
                s.as_mut_ptr(), s.len(), h.as_mut_ptr(), h.len(), m.as_mut_ptr(), m.len(), w.as_mut_ptr(), w.len(), i.as_mut_ptr(), i.len(),
                t.as_mut_ptr(), piece.as_ptr(), piece.len(), room.as_mut_ptr(), room.len(), a.as_mut_ptr(), a.len(),
            )
        }
    }

    /// `a`: bytes of findings in the room.
    pub fn end(&self, room: &mut [u8], a: &mut [u64]) -> u32 {
        let (s, h, t) = (&self.state, &self.held, &self.table);
        let r = room.as_mut_ptr();
        unsafe { c::lintel_sheet_end(s.as_ptr(), s.len(), h.as_ptr(), h.len(), t.as_ptr(), r, room.len(), a.as_mut_ptr(), a.len()) }
    }

    /// A whole sheet, in the same memory, of which the first bytes are lent for the sites. `a`: bytes of findings in the room.
    pub fn check(&mut self, sheet: &[u8], sites: usize, room: &mut [u8], a: &mut [u64]) -> u32 {
        let (m, w, i, t) = (&mut self.sites[..sites], &mut self.words, &mut self.items, &mut self.table);
        unsafe {
            c::lintel_sheet_check(
                sheet.as_ptr(), sheet.len(), m.as_mut_ptr(), m.len(), w.as_mut_ptr(), w.len(), i.as_mut_ptr(), i.len(), t.as_mut_ptr(),
                room.as_mut_ptr(), room.len(), a.as_mut_ptr(), a.len(),
            )
        }
    }
}
