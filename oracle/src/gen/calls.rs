//! Scripts of class calls. Links are asked for only where every hash order leaves the Rust the same.

use super::Rng;
use crate::rust_side::scripts::Sets;
use crate::spec01::classes::Call;

pub fn script(rng: &mut Rng) -> String {
    if rng.chance(2) {
        return longest(rng);
    }
    let count = rng.from(20, 200);
    let sites = *rng.pick(&[3, 6, 12, 32, 64, 128, 1024]);
    let removals = *rng.pick(&[0, 0, 1, 3, 6]);
    let mut sets = Sets::default();
    let mut out = String::new();
    // first a tournament, so that ranks grow and paths are long
    let mut pending: Vec<Call> = vec![];
    if rng.chance(60) {
        let mut step = 1;
        while step < sites.min(32) {
            let pairs: Vec<usize> = (0..sites.min(32)).step_by(2 * step).collect();
            for x in pairs {
                if x + step < sites {
                    pending.push(if rng.chance(50) {
                        Call::Merge(x, x + step)
                    } else {
                        Call::Merge(x + step, x)
                    });
                }
            }
            step *= 2;
        }
        pending.reverse();
    }
    let mut written = 0;
    while written < count {
        let call = match pending.pop() {
            Some(call) if !rng.chance(10) => call,
            back => {
                pending.extend(back);
                any(rng, sites, removals)
            }
        };
        if matches!(call, Call::Find(x) if x < 1024 && sets.varies(x)) {
            continue;
        }
        sets.answer(&call);
        out += &(call.write() + "\n");
        written += 1;
    }
    out
}

/// All sites, or a part of them, in one class by pairs of pairs: paths of up to ten links.
fn longest(rng: &mut Rng) -> String {
    let sites = *rng.pick(&[128, 256, 512, 1024]);
    let mut out = String::new();
    let mut step = 1;
    while step < sites {
        for x in (0..sites).step_by(2 * step) {
            out += &(Call::Merge(x, x + step).write() + "\n");
        }
        step *= 2;
    }
    for _ in 0..30 {
        let last = *rng.pick(&[1, 2, 8, sites]);
        let x = sites - 1 - rng.below(last);
        let call = match rng.below(6) {
            0 => Call::FindMut(x),
            1 => Call::Merge(x, rng.below(sites)),
            _ => Call::Find(x),
        };
        out += &(call.write() + "\n");
    }
    out + "len\n"
}

fn any(rng: &mut Rng, sites: usize, removals: usize) -> Call {
    let mut site = || if rng.chance(2) { 1024 + rng.below(64512) } else { rng.below(sites) };
    let (x, y) = (site(), site());
    match rng.below(100) {
        n if n < removals => Call::Remove(x),
        n if n < 40 => Call::Merge(x, y),
        n if n < 70 => Call::Find(x),
        n if n < 80 => Call::FindMut(x),
        n if n < 92 => Call::Same(x, y),
        n if n < 97 => Call::Len,
        _ => Call::Empty,
    }
}

/// A long script in parts: joins at random, a tournament with its links, removals, refusals.
pub fn long(rng: &mut Rng, count: usize) -> String {
    let mut sets = Sets::default();
    let mut out = String::new();
    let mut written = 0;
    let mut put = |call: Call| {
        if written < count && !matches!(call, Call::Find(x) if x < 1024 && sets.varies(x)) {
            sets.answer(&call);
            out += &(call.write() + "\n");
            written += 1;
        }
        written < count
    };
    put(Call::Empty);
    put(Call::Len);
    // ranks to five: 64 sites in pairs of pairs, the longest paths asked for before anything shortens them
    let mut step = 1;
    while step < 64 {
        (0..64).step_by(2 * step).for_each(|x| {
            put(Call::Merge(x, x + step));
        });
        step *= 2;
    }
    for x in [63, 62, 31, 47, 1, 0] {
        put(Call::Find(x));
        put(Call::FindMut(x));
        put(Call::Find(x));
    }
    for call in [
        Call::Merge(63, 63),
        Call::Merge(1024, 1024),
        Call::Merge(5, 1024),
        Call::Find(65535),
        Call::FindMut(1024),
        Call::Same(1023, 1024),
        Call::Remove(1024),
        Call::Merge(1023, 1022),
        Call::Find(1023),
        Call::Remove(1021),
        Call::Remove(1022),
        Call::Len,
        Call::Remove(17),
        Call::Len,
        Call::Empty,
    ] {
        put(call);
    }
    while put(any(rng, 40, 2)) {}
    out
}
