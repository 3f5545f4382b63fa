//! Generators. The case number `n` of a seed is always the same case, however many are asked for.

pub mod calls;
pub mod limits;
pub mod sheets;
pub mod terms;

/// A small generator of numbers (splitmix64).
pub struct Rng(u64);

impl Rng {
    pub fn new(kind: &str, seed: u64, n: u64) -> Rng {
        let name = kind.bytes().fold(seed, |h, b| h.wrapping_mul(31).wrapping_add(b as u64));
        let mut rng = Rng(name);
        let start = rng.next() ^ n.wrapping_mul(0xD1B5_4A32_D192_ED03);
        Rng(start)
    }

    fn next(&mut self) -> u64 {
        self.0 = self.0.wrapping_add(0x9E37_79B9_7F4A_7C15);
        let mut z = self.0;
        z = (z ^ (z >> 30)).wrapping_mul(0xBF58_476D_1CE4_E5B9);
        z = (z ^ (z >> 27)).wrapping_mul(0x94D0_49BB_1331_11EB);
        z ^ (z >> 31)
    }

    pub fn below(&mut self, n: usize) -> usize {
        (self.next() % n as u64) as usize
    }

    /// From `low` to `high`, both included.
    pub fn from(&mut self, low: usize, high: usize) -> usize {
        low + self.below(high - low + 1)
    }

    pub fn chance(&mut self, percent: usize) -> bool {
        self.below(100) < percent
    }

    pub fn pick<'a, T>(&mut self, list: &'a [T]) -> &'a T {
        &list[self.below(list.len())]
    }

    pub fn shuffle<T>(&mut self, list: &mut [T]) {
        for i in (1..list.len()).rev() {
            let j = self.below(i + 1);
            list.swap(i, j);
        }
    }
}

/// The cases `0..count` of a kind, each as its text.
pub fn case(kind: &str, seed: u64, n: u64) -> Option<String> {
    let mut rng = Rng::new(kind, seed, n);
    Some(match kind {
        "sheets" => sheets::sheet(&mut rng),
        "limits" => limits::sheet(&mut rng),
        "scripts" => calls::script(&mut rng),
        "graphs" => terms::graph(&mut rng),
        _ => return None,
    })
}
