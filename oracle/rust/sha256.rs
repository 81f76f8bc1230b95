//! SHA-256 as in FIPS 180-4.

/// The hash of `bytes` as 64 hexadecimal digits.
pub fn hex(bytes: &[u8]) -> String {
    let mut state: [u32; 8] = fractions::<8>(2);
    let rounds: [u32; 64] = fractions::<64>(3);
    for block in padded(bytes).chunks(64) {
        compress(&mut state, &rounds, block);
    }
    state.iter().map(|word| format!("{word:08x}")).collect()
}

/// The message, a one bit, zeros, and the message's length in bits, in whole blocks of 64 bytes.
fn padded(bytes: &[u8]) -> Vec<u8> {
    let mut message = bytes.to_vec();
    message.push(0x80);
    while message.len() % 64 != 56 {
        message.push(0);
    }
    message.extend((bytes.len() as u64 * 8).to_be_bytes());
    message
}

/// The first 32 bits of the fractional parts of the square roots (`root` 2) or cube roots (3) of the first N primes.
fn fractions<const N: usize>(root: u32) -> [u32; N] {
    let mut primes = (2u128..).filter(|n| (2..*n).all(|d| n % d != 0));
    let mut words = [0; N];
    words.iter_mut().for_each(|word| *word = floor_root(primes.next().unwrap() << (32 * root), root) as u32);
    words
}

/// The greatest number whose `root`-th power is at most `n`.
fn floor_root(n: u128, root: u32) -> u128 {
    (0..40).rev().map(|bit| 1u128 << bit).fold(0, |r, bit| if (r + bit).pow(root) <= n { r + bit } else { r })
}

fn compress(state: &mut [u32; 8], rounds: &[u32; 64], block: &[u8]) {
    let mut w = [0u32; 64];
    for t in 0..64 {
        w[t] = if t < 16 {
            u32::from_be_bytes([block[4 * t], block[4 * t + 1], block[4 * t + 2], block[4 * t + 3]])
        } else {
            let s0 = w[t - 15].rotate_right(7) ^ w[t - 15].rotate_right(18) ^ (w[t - 15] >> 3);
            let s1 = w[t - 2].rotate_right(17) ^ w[t - 2].rotate_right(19) ^ (w[t - 2] >> 10);
            w[t - 16].wrapping_add(s0).wrapping_add(w[t - 7]).wrapping_add(s1)
        };
    }
    let [mut a, mut b, mut c, mut d, mut e, mut f, mut g, mut h] = *state;
    for t in 0..64 {
        let s1 = e.rotate_right(6) ^ e.rotate_right(11) ^ e.rotate_right(25);
        let chosen = (e & f) ^ (!e & g);
        let t1 = h.wrapping_add(s1).wrapping_add(chosen).wrapping_add(rounds[t]).wrapping_add(w[t]);
        let s0 = a.rotate_right(2) ^ a.rotate_right(13) ^ a.rotate_right(22);
        let majority = (a & b) ^ (a & c) ^ (b & c);
        let t2 = s0.wrapping_add(majority);
        (h, g, f, e) = (g, f, e, d.wrapping_add(t1));
        (d, c, b, a) = (c, b, a, t1.wrapping_add(t2));
    }
    for (word, sum) in state.iter_mut().zip([a, b, c, d, e, f, g, h]) {
        *word = word.wrapping_add(sum);
    }
}
