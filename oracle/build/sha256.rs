//! SHA-256 (FIPS 180-4), for the checksums of the copied files.

/// The first 32 bits of the fractional part of a root of a prime, by whole-number search.
fn root_bits(prime: u128, cube: bool) -> u32 {
    // the greatest r with (r / 2^32)^2 or ^3 at most the prime
    let (mut low, mut high) = (0u128, 1 << 37);
    while high - low > 1 {
        let mid = (low + high) / 2;
        let fits = if cube { mid * mid * mid <= prime << 96 } else { mid * mid <= prime << 64 };
        if fits {
            low = mid
        } else {
            high = mid
        }
    }
    low as u32
}

fn primes() -> Vec<u128> {
    (2u128..).filter(|n| (2..*n).all(|d| n % d != 0)).take(64).collect()
}

pub fn hex(data: &[u8]) -> String {
    let primes = primes();
    let k: Vec<u32> = primes.iter().map(|&p| root_bits(p, true)).collect();
    let mut h: Vec<u32> = primes[..8].iter().map(|&p| root_bits(p, false)).collect();

    let mut padded = data.to_vec();
    padded.push(0x80);
    while padded.len() % 64 != 56 {
        padded.push(0);
    }
    padded.extend_from_slice(&(data.len() as u64 * 8).to_be_bytes());

    for chunk in padded.chunks(64) {
        let mut w: Vec<u32> = chunk.chunks(4).map(|b| u32::from_be_bytes([b[0], b[1], b[2], b[3]])).collect();
        for i in 16..64 {
            let (a, b) = (w[i - 15], w[i - 2]);
            let s0 = a.rotate_right(7) ^ a.rotate_right(18) ^ (a >> 3);
            let s1 = b.rotate_right(17) ^ b.rotate_right(19) ^ (b >> 10);
            w.push(w[i - 16].wrapping_add(s0).wrapping_add(w[i - 7]).wrapping_add(s1));
        }
        let mut v = h.clone();
        for i in 0..64 {
            let s1 = v[4].rotate_right(6) ^ v[4].rotate_right(11) ^ v[4].rotate_right(25);
            let choice = (v[4] & v[5]) ^ (!v[4] & v[6]);
            let t1 = v[7].wrapping_add(s1).wrapping_add(choice).wrapping_add(k[i]).wrapping_add(w[i]);
            let s0 = v[0].rotate_right(2) ^ v[0].rotate_right(13) ^ v[0].rotate_right(22);
            let majority = (v[0] & v[1]) ^ (v[0] & v[2]) ^ (v[1] & v[2]);
            v.rotate_right(1);
            v[4] = v[4].wrapping_add(t1);
            v[0] = t1.wrapping_add(s0).wrapping_add(majority);
        }
        for (a, b) in h.iter_mut().zip(v) {
            *a = a.wrapping_add(b);
        }
    }
    h.iter().map(|x| format!("{x:08x}")).collect()
}
