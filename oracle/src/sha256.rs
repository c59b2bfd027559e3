//! SHA-256 (FIPS 180-4), small and slow: it tells that the Rust text is the one that was given.

/// The digest in small hex digits, as `sha256sum` writes it.
pub fn hex(bytes: &[u8]) -> String {
    digest(bytes).iter().map(|word| format!("{word:08x}")).collect()
}

fn digest(bytes: &[u8]) -> [u32; 8] {
    let constants = constants();
    let mut state = roots(8, 2);
    for block in padded(bytes).chunks(64) {
        state = compressed(state.try_into().expect("eight words"), block, &constants).to_vec();
    }
    state.try_into().expect("eight words")
}

/// A one bit, zeros, and the length in bits.
fn padded(bytes: &[u8]) -> Vec<u8> {
    let mut all = bytes.to_vec();
    all.push(0x80);
    while all.len() % 64 != 56 {
        all.push(0);
    }
    all.extend((bytes.len() as u64 * 8).to_be_bytes());
    all
}

fn compressed(state: [u32; 8], block: &[u8], constants: &[u32]) -> [u32; 8] {
    let mut w: Vec<u32> = block.as_chunks().0.iter().map(|word| u32::from_be_bytes(*word)).collect();
    for i in 16..64 {
        let (x, y) = (w[i - 15], w[i - 2]);
        let s0 = x.rotate_right(7) ^ x.rotate_right(18) ^ (x >> 3);
        let s1 = y.rotate_right(17) ^ y.rotate_right(19) ^ (y >> 10);
        w.push(w[i - 16].wrapping_add(s0).wrapping_add(w[i - 7]).wrapping_add(s1));
    }
    let [mut a, mut b, mut c, mut d, mut e, mut f, mut g, mut h] = state;
    for (word, constant) in w.iter().zip(constants) {
        let s1 = e.rotate_right(6) ^ e.rotate_right(11) ^ e.rotate_right(25);
        let choice = (e & f) ^ (!e & g);
        let first = h.wrapping_add(s1).wrapping_add(choice).wrapping_add(*constant).wrapping_add(*word);
        let s0 = a.rotate_right(2) ^ a.rotate_right(13) ^ a.rotate_right(22);
        let majority = (a & b) ^ (a & c) ^ (b & c);
        (h, g, f, e) = (g, f, e, d.wrapping_add(first));
        (d, c, b, a) = (c, b, a, first.wrapping_add(s0.wrapping_add(majority)));
    }
    let after = [a, b, c, d, e, f, g, h];
    std::array::from_fn(|i| state[i].wrapping_add(after[i]))
}

/// "The first thirty-two bits of the fractional parts of the cube roots of the first sixty-four prime numbers."
fn constants() -> Vec<u32> {
    roots(64, 3)
}

/// The first 32 bits of the fractions of the first primes' roots, by whole numbers.
fn roots(count: usize, degree: u32) -> Vec<u32> {
    let primes = (2u128..).filter(|n| (2..*n).all(|d| n % d != 0));
    primes
        .take(count)
        .map(|prime| {
            // the largest r with r ^ degree <= prime * 2 ^ (32 * degree)
            let target = prime << (32 * degree);
            let mut r: u128 = 0;
            for bit in (0..40).rev() {
                let next = r | (1 << bit);
                if next.pow(degree) <= target {
                    r = next;
                }
            }
            r as u32
        })
        .collect()
}
