//! The calls of examples/c/calls.c from Rust. It prints the same text.

mod lintelbox;
use lintelbox::*;

struct Calls {
    made: u32,
    answer: [u64; ANSWER],
}

impl Calls {
    /// One call, which is lent the answer's slice.
    fn show(&mut self, name: &str, call: impl FnOnce(&mut [u64]) -> u32) {
        self.made += 1;
        let number = call(&mut self.answer);
        println!("{name}: {number}, {} {}", self.answer[0], self.answer[1]);
    }
}

fn classes(calls: &mut Calls) {
    let mut k = Classes::new();
    println!("empty: {}", k.is_empty() as u32);
    calls.made += 2;
    calls.show("find 5", |a| k.find(5, a));
    for (x, y) in [(5, 9), (9, 2), (2, 5), (7, 7), (7, 1024)] {
        calls.show(&format!("merge {x} {y}"), |a| k.merge(x, y, a));
    }
    calls.show("find 2", |a| k.find(2, a));
    calls.show("find_mut 2", |a| k.find_mut(2, a));
    calls.show("same 2 9", |a| k.in_same_set(2, 9, a));
    calls.show("same 2 7", |a| k.in_same_set(2, 7, a));
    println!("len: {}", k.len());
    calls.made += 1;
    let mut members = [0; SITES];
    calls.show("remove 9, no room", |a| k.remove_set_of(9, &mut members[..3], a));
    calls.show("remove 9", |a| k.remove_set_of(9, &mut members, a));
    list(&members[..calls.answer[0] as usize]);
    calls.show("remove 9", |a| k.remove_set_of(9, &mut members, a));
    calls.show("find, no answer", |a| k.find(5, &mut a[..1]));
}

fn list(numbers: &[u16]) {
    let text: String = numbers.iter().map(|n| format!(" {n}")).collect();
    println!("{text}");
}

fn sites(calls: &mut Calls) -> Set {
    let mut m = vec![0; SITES * SLOT];
    let mut room = vec![0; REPORT_ROOM];
    let mut n = 0;
    let bodies: [(&str, &[u8]); 6] =
        [("0300", &[3, 0]), ("0301", &[3, 1]), ("0A000000", &[10, 0, 0, 0]), ("0300", &[3, 0]), ("060009", &[6, 0, 9]), ("0A00", &[10, 0])];
    for (line, (text, body)) in (2..).zip(bodies) {
        calls.show(&format!("add {text}"), |a| add_site(&mut m, n, body, line, a));
        n += calls.answer[1] as u16;
    }
    calls.show("add, no slot", |a| add_site(&mut m[..3 * SLOT], n, &[3, 2], 8, a));
    calls.show("unfold 2", |a| unfold(&m, n, 2, &mut room, a));
    println!("{}", room[..calls.answer[0] as usize].iter().map(|b| format!("{b:02X}")).collect::<String>());
    calls.show("unfold 3", |a| unfold(&m, n, 3, &mut room, a));
    calls.show("unfold 2, room 3", |a| unfold(&m, n, 2, &mut room[..3], a));
    calls.show("unfold 2, two slots", |a| unfold(&m[..2 * SLOT], n, 2, &mut room, a));
    Set { sites: m, words: vec![0; (RULES + 1) * STRIDE], count: n, kept: 0 }
}

/// A set: its sites, its kept rules, and how many there are of each.
struct Set {
    sites: Vec<u8>,
    words: Vec<u64>,
    count: u16,
    kept: u32,
}

impl Set {
    /// Loads a rule; where it is kept, counts it.
    fn load(&mut self, calls: &mut Calls, name: &str, place: u32, priority: i64, items: &[[u64; 4]]) {
        let mut number = 0;
        calls.show(name, |a| {
            number = load(&mut self.sites, self.count, &mut self.words, self.kept, place, priority, items.as_flattened(), items.len() as u8, a);
            number
        });
        if number == 0 {
            self.count = calls.answer[0] as u16;
            self.kept += 1;
        }
    }
}

fn integer(site: u64, n: u64) -> [u64; 4] {
    [site, 3 * 65536 + 3, 0, n]
}

fn structure(site: u64, fields: u64) -> [u64; 4] {
    [site, 65536 + 7, fields, 0]
}

fn equal(one: u64, other: u64) -> [u64; 4] {
    [65536 + one, other, 0, 0]
}

fn rules(calls: &mut Calls, set: &mut Set) {
    set.load(calls, "load 10", 10, 1, &[integer(0, 5)]);
    set.load(calls, "load 20", 20, 0, &[integer(0, 5), integer(1, 6)]);
    set.load(calls, "load 30", 30, 0, &[integer(0, 5)]);
    set.load(calls, "load 40", 40, -1, &[integer(0, 6)]);
    set.load(calls, "load 40 again", 40, 0, &[integer(0, 6)]);
    set.load(calls, "load 50, unreachable", 50, 0, &[equal(0, 1), integer(0, 5), integer(1, 6)]);
    set.load(calls, "load 60, in itself", 60, 0, &[structure(0, 1), equal(0, 2)]);
    set.load(calls, "load 70, hanging", 70, 0, &[integer(2, 1)]);
    set.load(calls, "load 80, unknown", 80, 0, &[integer(900, 1)]);
    let two = [equal(0, 1), structure(0, 2)];
    set.load(calls, "load 90, two fields", 90, 0, &two);
    set.load(calls, "load 95, a word uncleared", 95, 0, &[integer(0, 5), [1, 65536 + 7, 2, 1]]);
    calls.show("load, items torn", |a| {
        load(&mut set.sites, set.count, &mut set.words, set.kept, 95, 0, &two.as_flattened()[..7], 2, a)
    });
    calls.show("total of 90", |a| total_constraints(&set.words, set.kept - 1, a));
    let four = &set.words[..4 * STRIDE];
    let mut room = vec![0; REPORT_ROOM];
    calls.show("overlap 0 1", |a| may_overlap(four, 0, 1, a));
    calls.show("overlap 2 3", |a| may_overlap(four, 2, 3, a));
    calls.show("overlap 3 4", |a| may_overlap(four, 3, 4, a));
    calls.show("total 1", |a| total_constraints(four, 1, a));
    calls.show("report, room 80", |a| report(four, 4, 0, &mut room[..80], a));
    calls.show("report of 65", |a| report(&set.words, 65, 0, &mut room, a));
    calls.show("report", |a| report(four, 4, 0, &mut room, a));
    print!("{}", String::from_utf8_lossy(&room[..calls.answer[0] as usize]));
}

fn terms(calls: &mut Calls) {
    let mut t = Terms::new();
    calls.made += 1;
    for (from, to) in [(0, 1), (0, 2), (1, 0), (2, 1), (9, 9), (9, 5)] {
        calls.show("edge", |a| t.add_edge(from, to, a));
    }
    calls.show("edge to 256", |a| t.add_edge(3, 256, a));
    calls.show("rec 1", |a| t.mark_rec(1, a));
    let mut found = [0; TERMS];
    calls.show("cyclic, no room", |a| t.cyclic(&mut found[..255], a));
    calls.show("cyclic", |a| t.cyclic(&mut found, a));
    list(&found[..calls.answer[0] as usize]);
}

const SET: &str = "01000700\n020300\n030000000A000000000000000101\n04000003000300000000000000000000000000000005\n\
                   0300000014000000000000000001\n04000003000300000000000000000000000000000005\n06\n";
const OTHER: &str = "01000801\n020300\n0300000014000000000000000002\n04000003000300000000000000000000000000000005\n\
                     04000003000300000000000000000000000000000006\n06\n";

fn sheets(calls: &mut Calls) {
    let both = format!("{SET}{OTHER}");
    let rest = "0700\n020300\n030000000A000000000000000101\n04000003000300000000000000000000000000000005\n06\n";
    let mut room = vec![0; STEP_ROOM];
    let mut k = Sheet::new();
    let text = |room: &[u8], n: u64| print!("{}", String::from_utf8_lossy(&room[..n as usize]));
    for n in [STATE - 1, STATE] {
        println!("begin: {}", k.begin(n));
    }
    calls.show("feed, room 100", |a| k.feed(SET.as_bytes(), &mut room[..100], a));
    calls.show("feed part of a line", |a| k.feed(b"0100", &mut room, a));
    calls.show("feed the rest, and the set", |a| k.feed(rest.as_bytes(), &mut room, a));
    calls.show("feed a line that is none", |a| k.feed(b"07\nand more", &mut room, a));
    text(&room, calls.answer[1]);
    println!("stopped: {}", k.stopped() as u32);
    calls.show("feed what comes behind", |a| k.feed(SET.as_bytes(), &mut room, a));
    calls.show("end", |a| k.end(&mut room[..END_ROOM - 1], a));
    calls.show("end", |a| k.end(&mut room[..END_ROOM], a));
    println!("begin: {}", k.begin(STATE));
    calls.made += 3;
    let mut rest = both.as_bytes();
    while !rest.is_empty() {
        calls.show("feed two sets, or the rest", |a| k.feed(rest, &mut room, a));
        text(&room, calls.answer[1]);
        rest = &rest[calls.answer[0] as usize..];
    }
    calls.show("end", |a| k.end(&mut room, a));
    text(&room, calls.answer[0]);
    calls.show("check", |a| k.check(SET.as_bytes(), SITES_ROOM, &mut room, a));
    text(&room, calls.answer[0]);
    calls.show("check, sites short", |a| k.check(SET.as_bytes(), SITES_ROOM - 1, &mut room, a));
    calls.show("check, room short", |a| k.check(SET.as_bytes(), SITES_ROOM, &mut room[..STEP_ROOM - 1], a));
    calls.show("check, room short of two sets", |a| k.check(both.as_bytes(), SITES_ROOM, &mut room, a));
    calls.show("check nothing", |a| k.check(b"", SITES_ROOM, &mut room, a));
    text(&room, calls.answer[0]);
}

fn main() {
    let mut calls = Calls { made: 0, answer: [0; ANSWER] };
    classes(&mut calls);
    let mut set = sites(&mut calls);
    rules(&mut calls, &mut set);
    terms(&mut calls);
    sheets(&mut calls);
    println!("{} calls", calls.made);
}
