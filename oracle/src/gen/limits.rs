//! Sheets near every number of 01: one below, at it, and past it.

use super::sheets::Lines;
use super::Rng;
use crate::spec01::loading::{Item, Rule};
use crate::spec01::sites::{Constraint, Site};

const FIVE: Constraint = Constraint::ConstPrim { val: 5 };

fn argument(index: usize) -> Site {
    Site::Argument { index: index as u8 }
}

fn structure(fields: usize) -> Constraint {
    Constraint::Struct { ty: 1, fields: fields as u8 }
}

fn rule(place: usize, items: Vec<Item>) -> Rule {
    Rule { place: place as u32, priority: 0, items }
}

/// A number about `limit`.
fn about(rng: &mut Rng, limit: usize) -> usize {
    rng.from(limit - 2, limit + 2)
}

pub fn sheet(rng: &mut Rng) -> String {
    let mut lines = Lines::default();
    let kinds: [fn(&mut Rng, &mut Lines); 17] = [
        sets,
        sites,
        sources,
        fields,
        rules,
        items,
        constrained,
        nested,
        equal,
        term_numbers,
        long_lines,
        unfoldings,
        doubling,
        conflict,
        extremes,
        deep,
        children_fit,
    ];
    rng.pick(&kinds)(rng, &mut lines);
    lines.text()
}

fn sets(rng: &mut Rng, lines: &mut Lines) {
    let count = about(rng, 64);
    for term in 0..count {
        let again = term >= 64 && rng.chance(30);
        lines.begin(if again { 3 } else { term }, rng.below(4) as u8);
        if rng.chance(20) {
            lines.site(&argument(0));
            lines.site(&Site::Extractor { term: rng.below(64) as u16, parameter: 0 });
        }
        lines.end();
    }
}

/// `count` different sites, each over Argument 0 or free.
fn many(lines: &mut Lines, count: usize) {
    for n in 0..count {
        lines.site(&match n {
            0..=255 => argument(n),
            256..=511 => Site::MatchTuple { source: 0, field: (n - 256) as u8 },
            512..=767 => Site::MatchTuple { source: 1, field: (n - 512) as u8 },
            _ => Site::ConstPrim { val: n as u16 },
        });
    }
}

fn sites(rng: &mut Rng, lines: &mut Lines) {
    lines.begin(1, 0);
    many(lines, rng.from(1022, 1024));
    if rng.chance(70) {
        let source = *rng.pick(&[0, 1022, 1023, 1024, 1025]);
        lines.site(rng.pick(&[
            Site::Iterator { source },
            argument(7),
            Site::MakeStruct { ty: 1, fields: vec![source; 9] },
        ]));
    }
    lines.rule(&rule(1, vec![Item::Equal(0, 1023), Item::Is(1023, FIVE)]));
    lines.end();
}

/// Children that just fit, or just don't, at an item and in the rounds.
fn children_fit(rng: &mut Rng, lines: &mut Lines) {
    lines.begin(1, 0);
    let count = rng.from(1004, 1016);
    many(lines, count);
    for place in 1..=rng.from(1, 4) {
        let fields = rng.from(1, 8);
        let items = match rng.below(4) {
            0 => vec![Item::Is(2, structure(fields))],
            1 => vec![Item::Is(2, structure(fields)), Item::Equal(2, 3)],
            2 => vec![Item::Is(2, structure(fields)), Item::Is(3, FIVE), Item::Equal(2, 3)],
            _ => vec![
                Item::Equal(2, 3),
                Item::Is(3, structure(fields)),
                Item::Equal(2, count),
                Item::Is(count, structure(1)),
            ],
        };
        lines.rule(&rule(place, items));
    }
    lines.end();
}

fn sources(rng: &mut Rng, lines: &mut Lines) {
    lines.begin(1, 0);
    lines.site(&argument(0));
    let kind = rng.below(3);
    let count = *rng.pick(&[7, 8, 8, 9, 10, 11, 12, 13]);
    let mut list = vec![0; count];
    if rng.chance(40) {
        let at = rng.below(count);
        list[at] = rng.from(1, 3);
    }
    let term = rng.from(254, 257) as u16;
    lines.site(&match kind {
        0 => Site::Constructor { term, instance: u32::MAX, parameters: list },
        1 => Site::MakeVariant { ty: 1, variant: 1, fields: list },
        _ => Site::MakeStruct { ty: 1, fields: list },
    });
    lines.rule(&rule(1, vec![Item::Is(1, FIVE), Item::Equal(0, 1)]));
    lines.end();
}

fn fields(rng: &mut Rng, lines: &mut Lines) {
    lines.begin(1, 0);
    lines.site(&argument(0));
    lines.site(&argument(1));
    lines.site(&Site::ExtractStruct { source: 0, field: rng.from(6, 9) as u8 });
    lines.site(&Site::MatchVariant { source: 1, variant: 9, field: 255 });
    for place in 1..5 {
        let fields = *rng.pick(&[6, 7, 8, 8, 9, 10, 255]);
        let mut items = vec![match rng.below(2) {
            0 => Item::Is(0, structure(fields)),
            _ => Item::Is(0, Constraint::Variant { ty: 1, variant: 9, fields: fields as u8 }),
        }];
        if rng.chance(50) {
            items.push(Item::Equal(0, 1));
        }
        if rng.chance(50) {
            items.push(Item::Is(2, FIVE));
        }
        lines.rule(&rule(place, items));
    }
    lines.end();
}

fn rules(rng: &mut Rng, lines: &mut Lines) {
    lines.begin(1, rng.below(2) as u8);
    lines.site(&argument(0));
    lines.site(&argument(1));
    let alike = rng.chance(30);
    let refused = rng.below(20);
    let mut places: Vec<usize> = (1..=about(rng, 64) + refused).collect();
    rng.shuffle(&mut places);
    for place in places {
        let value = if alike { 5 } else { rng.below(8) as u16 };
        let items = match rng.below(10) {
            0 if refused > 0 => vec![Item::Equal(0, 9)],
            1 => vec![],
            2 => vec![Item::Equal(0, 1)],
            _ => vec![Item::Is(rng.below(2), Constraint::ConstPrim { val: value })],
        };
        let priority = *rng.pick(&[0, 0, -1, 1]);
        lines.rule(&Rule { priority, ..rule(place, items) });
    }
    lines.end();
}

fn items(rng: &mut Rng, lines: &mut Lines) {
    lines.begin(1, 0);
    many(lines, 40);
    for place in 1..4 {
        let count = about(rng, 32);
        let same = rng.chance(20);
        let mut items: Vec<Item> =
            (0..count).map(|n| if same { Item::Equal(0, 0) } else { Item::Is(n, FIVE) }).collect();
        if rng.chance(20) {
            items.push(Item::Equal(0, 99));
        }
        lines.rule(&rule(*rng.pick(&[1, place]), items));
    }
    lines.end();
}

/// A class of about 32 members that meets a constraint, beside others.
fn constrained(rng: &mut Rng, lines: &mut Lines) {
    lines.begin(1, 0);
    many(lines, 60);
    for place in 1..4 {
        let count = about(rng, 32);
        let mut order: Vec<usize> = (0..count).collect();
        rng.shuffle(&mut order);
        let joins = rng.from(count.saturating_sub(6), count - 1).min(31);
        let mut items: Vec<Item> = (1..=joins)
            .map(|n| {
                let earlier = order[rng.below(n)];
                Item::Equal(order[n], earlier)
            })
            .collect();
        while items.len() < 32 && rng.chance(90) {
            items.push(Item::Is(rng.below(count + 2), FIVE));
        }
        rng.shuffle(&mut items);
        lines.rule(&rule(place, items));
    }
    lines.end();
}

/// Equal structures within structures: constrained and equal sites grow by fields.
fn nested(rng: &mut Rng, lines: &mut Lines) {
    lines.begin(1, 0);
    let arguments = rng.from(2, 5);
    (0..arguments).for_each(|n| lines.site(&argument(n)));
    let mut items: Vec<Item> = (1..arguments).map(|n| Item::Equal(n - 1, n)).collect();
    let first = rng.from(1, 8);
    items.push(Item::Is(0, structure(first)));
    for n in 0..rng.below(first + 1) {
        items.push(Item::Is(arguments + n, structure(rng.from(0, 3))));
    }
    if rng.chance(30) {
        items.push(Item::Equal(arguments, arguments + first - 1));
    }
    lines.rule(&rule(1, items));
    lines.rule(&rule(2, vec![Item::Is(0, structure(first)), Item::Equal(arguments, 1)]));
    lines.end();
}

fn equal(rng: &mut Rng, lines: &mut Lines) {
    lines.begin(1, 0);
    many(lines, 70);
    for place in 1..4 {
        let pairs = rng.from(14, 18);
        let mut items: Vec<Item> = (0..pairs).map(|n| Item::Equal(2 * n, 2 * n + 1)).collect();
        for _ in 0..rng.below(5) {
            items.push(match rng.below(3) {
                0 => Item::Is(rng.below(40), FIVE),
                1 => Item::Is(rng.below(40), structure(rng.from(0, 3))),
                _ => Item::Equal(rng.below(40), rng.below(40)),
            });
        }
        lines.rule(&rule(place, items));
    }
    lines.end();
}

fn term_numbers(rng: &mut Rng, lines: &mut Lines) {
    for _ in 0..3 {
        let term = *rng.pick(&[253, 254, 254, 255, 255, 256, 257]);
        lines.begin(term, rng.below(4) as u8);
        lines.site(&argument(0));
        for _ in 0..2 {
            let term = *rng.pick(&[252, 253, 254, 254, 255, 255, 256]);
            let unknown = rng.chance(10) as usize;
            lines.site(&match rng.below(2) {
                0 => Site::Extractor { term, parameter: unknown },
                _ => Site::Constructor { term, instance: 0, parameters: vec![unknown] },
            });
        }
        lines.end();
    }
}

fn long_lines(rng: &mut Rng, lines: &mut Lines) {
    lines.begin(1, 0);
    lines.site(&argument(0));
    let count = rng.from(11, 15);
    lines.site(&match rng.below(3) {
        0 => Site::Constructor { term: 1, instance: 0, parameters: vec![0; count] },
        1 => Site::MakeVariant { ty: 1, variant: 1, fields: vec![0; count] },
        _ => Site::MakeStruct { ty: 1, fields: vec![0; count] },
    });
    if rng.chance(50) {
        let last = lines.0.last_mut().unwrap();
        *last = "0".repeat(rng.from(60, 68));
    }
    lines.end();
}

/// A site that unfolds to about 4,096 bytes.
fn unfoldings(rng: &mut Rng, lines: &mut Lines) {
    lines.begin(1, 0);
    lines.site(&argument(0));
    for source in 0..3 {
        lines.site(&Site::MakeStruct { ty: 1, fields: vec![source; 8] });
    }
    lines.site(&Site::MakeStruct { ty: 1, fields: vec![3; 3] });
    // 3,952 bytes so far, and one more for each Iterator
    let last = 4 + about(rng, 4096) - 3952;
    (4..last).for_each(|source| lines.site(&Site::Iterator { source }));
    lines.rule(&rule(1, vec![Item::Is(last, structure(1)), Item::Equal(last + 1, last - 1)]));
    lines.rule(&rule(2, vec![Item::Equal(last, last - 1), Item::Is(last - 1, FIVE)]));
    lines.end();
}

/// Both fields equal and a structure again, level under level: each level doubles the sites.
fn doubling(rng: &mut Rng, lines: &mut Lines) {
    lines.begin(1, 0);
    lines.site(&argument(0));
    lines.rule(&rule(1, levels(*rng.pick(&[3, 4, 5, 6, 7, 8, 9, 10, 16]))));
    lines.end();
}

fn levels(count: usize) -> Vec<Item> {
    let mut items = vec![];
    let mut top = 0;
    for level in 0..count {
        let left = 1 + 2 * level;
        items.push(Item::Is(top, structure(2)));
        items.push(Item::Equal(left, left + 1));
        top = left;
    }
    items
}

/// As `doubling`, but two of the sites at the bottom differ.
fn conflict(rng: &mut Rng, lines: &mut Lines) {
    lines.begin(1, 0);
    lines.site(&argument(0));
    // fifteen levels are more than the Rust has ids for
    let count = *rng.pick(&[2, 3, 4, 5, 6, 7, 8, 15]);
    let mut items = levels(count);
    items.push(Item::Is(2 * count, FIVE));
    items.push(Item::Is(2 * count - 1, structure(rng.below(3))));
    lines.rule(&rule(1, items));
    lines.end();
}

fn extremes(rng: &mut Rng, lines: &mut Lines) {
    lines.begin(255, rng.below(4) as u8);
    lines.site(&argument(255));
    lines.site(&Site::ConstInt { ty: u16::MAX, val: u128::MAX });
    lines.site(&Site::Extractor { term: 255, parameter: 0 });
    for _ in 0..rng.from(3, 8) {
        let place = *rng.pick(&[0, 1, u32::MAX, u32::MAX - 1, 1 << 31]);
        let priority = *rng.pick(&[i64::MIN, i64::MIN + 1, -1, 0, 1, i64::MAX]);
        let val = *rng.pick(&[0, 1, u128::MAX, 1 << 127]);
        let shape = Constraint::ConstInt { ty: u16::MAX, val };
        let items = (0..rng.below(3)).map(|site| Item::Is(site, shape.clone())).collect();
        lines.rule(&Rule { place, priority, items });
    }
    lines.end();
}

/// A long chain of sites, and a long chain of children.
fn deep(rng: &mut Rng, lines: &mut Lines) {
    lines.begin(1, 0);
    lines.site(&argument(0));
    lines.site(&argument(1));
    let length = rng.from(500, 900);
    (1..length).for_each(|source| lines.site(&Site::MakeSome { inner: source }));
    let next = length + 1;
    let depth = rng.from(1, 15);
    let mut items = vec![Item::Is(length, Constraint::Some)];
    for n in 0..depth {
        items.push(Item::Is(next + n, Constraint::Some));
    }
    items.push(Item::Equal(0, length));
    if rng.chance(50) {
        items.push(Item::Equal(1, next + rng.below(depth)));
    }
    lines.rule(&rule(1, items));
    lines.end();
}
