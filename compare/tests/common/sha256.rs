//! SHA-256 as FIPS 180-4 gives it, in hexadecimal.

pub fn sha256(message: &[u8]) -> String {
    let mut state = fractions::<8>(|root| root.sqrt());
    let constants = fractions::<64>(|root| root.cbrt());
    let mut padded = message.to_vec();
    padded.push(0x80);
    padded.resize(padded.len().next_multiple_of(64), 0);
    if padded.len() - message.len() < 9 {
        padded.resize(padded.len() + 64, 0);
    }
    let end = padded.len();
    padded[end - 8..].copy_from_slice(&(8 * message.len() as u64).to_be_bytes());
    for block in padded.chunks(64) {
        compress(&mut state, &constants, block);
    }
    state.iter().map(|word| format!("{word:08x}")).collect()
}

/// The first 32 bits of the fractions of the first primes' roots.
fn fractions<const N: usize>(root: fn(f64) -> f64) -> [u32; N] {
    let is_prime = |n: &u32| (2..*n).all(|divisor| !n.is_multiple_of(divisor));
    let mut primes = (2..).filter(is_prime);
    std::array::from_fn(|_| {
        let root = root(f64::from(
            primes.next().expect("there is always another prime"),
        ));
        (root.fract() * 2f64.powi(32)) as u32
    })
}

fn compress(state: &mut [u32; 8], constants: &[u32; 64], block: &[u8]) {
    let mut words = [0u32; 64];
    for (word, bytes) in words.iter_mut().zip(block.chunks(4)) {
        *word = u32::from_be_bytes(bytes.try_into().expect("four bytes"));
    }
    for t in 16..64 {
        let small = |x: u32, a, b, shift: u32| x.rotate_right(a) ^ x.rotate_right(b) ^ (x >> shift);
        words[t] = small(words[t - 2], 17, 19, 10)
            .wrapping_add(words[t - 7])
            .wrapping_add(small(words[t - 15], 7, 18, 3))
            .wrapping_add(words[t - 16]);
    }
    let [mut a, mut b, mut c, mut d, mut e, mut f, mut g, mut h] = *state;
    for t in 0..64 {
        let big = |x: u32, p, q, r| x.rotate_right(p) ^ x.rotate_right(q) ^ x.rotate_right(r);
        let first = h
            .wrapping_add(big(e, 6, 11, 25))
            .wrapping_add((e & f) ^ (!e & g))
            .wrapping_add(constants[t])
            .wrapping_add(words[t]);
        let second = big(a, 2, 13, 22).wrapping_add((a & b) ^ (a & c) ^ (b & c));
        (h, g, f, e) = (g, f, e, d.wrapping_add(first));
        (d, c, b, a) = (c, b, a, first.wrapping_add(second));
    }
    for (sum, word) in state.iter_mut().zip([a, b, c, d, e, f, g, h]) {
        *sum = sum.wrapping_add(word);
    }
}
