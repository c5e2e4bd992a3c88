//! SHA-256 (FIPS 180-4).

/// The first 32 bits of the fractional parts of the roots of the first primes: square roots for the start, cube roots
/// for the rounds.
fn root_bits(prime: u128, cube: bool) -> u32 {
    let (scaled, power) = match cube {
        true => (prime << 96, 3),
        false => (prime << 64, 2),
    };
    let (mut low, mut high) = (0u128, 1u128 << 36);
    while low + 1 < high {
        let middle = (low + high) / 2;
        match middle.checked_pow(power) {
            Some(p) if p <= scaled => low = middle,
            _ => high = middle,
        }
    }
    low as u32
}

fn primes(n: usize) -> Vec<u128> {
    let prime = |p: &u128| (2..*p).all(|d| !p.is_multiple_of(d));
    (2..).filter(prime).take(n).collect()
}

fn padded(text: &[u8]) -> Vec<u8> {
    let mut bytes = text.to_vec();
    bytes.push(0x80);
    while bytes.len() % 64 != 56 {
        bytes.push(0);
    }
    bytes.extend_from_slice(&(8 * text.len() as u64).to_be_bytes());
    bytes
}

fn schedule(block: &[u8]) -> Vec<u32> {
    let mut w: Vec<u32> = block
        .chunks(4)
        .map(|c| u32::from_be_bytes([c[0], c[1], c[2], c[3]]))
        .collect();
    for i in 16..64 {
        let (a, b) = (w[i - 15], w[i - 2]);
        let s0 = a.rotate_right(7) ^ a.rotate_right(18) ^ (a >> 3);
        let s1 = b.rotate_right(17) ^ b.rotate_right(19) ^ (b >> 10);
        let sum = w[i - 16].wrapping_add(s0).wrapping_add(w[i - 7]);
        w.push(sum.wrapping_add(s1));
    }
    w
}

fn round(v: [u32; 8], k: u32, w: u32) -> [u32; 8] {
    let [a, b, c, d, e, f, g, h] = v;
    let s1 = e.rotate_right(6) ^ e.rotate_right(11) ^ e.rotate_right(25);
    let chosen = (e & f) ^ (!e & g);
    let t1 = h.wrapping_add(s1).wrapping_add(chosen);
    let t1 = t1.wrapping_add(k).wrapping_add(w);
    let s0 = a.rotate_right(2) ^ a.rotate_right(13) ^ a.rotate_right(22);
    let most = (a & b) ^ (a & c) ^ (b & c);
    let t2 = s0.wrapping_add(most);
    [t1.wrapping_add(t2), a, b, c, d.wrapping_add(t1), e, f, g]
}

pub fn hex(text: &[u8]) -> String {
    let primes = primes(64);
    let mut state = [0u32; 8];
    for (word, prime) in state.iter_mut().zip(&primes) {
        *word = root_bits(*prime, false);
    }
    let rounds: Vec<u32> = primes.iter().map(|p| root_bits(*p, true)).collect();
    for block in padded(text).chunks(64) {
        let mut v = state;
        for (k, w) in rounds.iter().zip(schedule(block)) {
            v = round(v, *k, w);
        }
        for (word, add) in state.iter_mut().zip(v) {
            *word = word.wrapping_add(add);
        }
    }
    state.iter().map(|word| format!("{word:08x}")).collect()
}
