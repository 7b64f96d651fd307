//! SHA-256 (FIPS 180-4 section 6.2) for the load of bench/load.rs: plain, and by the processor's own steps where it has them, so
//! that a client that signs takes little of the processors that its server is timed on.

const FIRST: [u32; 8] = [
    0x6a09e667, 0xbb67ae85, 0x3c6ef372, 0xa54ff53a, 0x510e527f, 0x9b05688c, 0x1f83d9ab, 0x5be0cd19,
];

const ROUNDS: [u32; 64] = [
    0x428a2f98, 0x71374491, 0xb5c0fbcf, 0xe9b5dba5, 0x3956c25b, 0x59f111f1, 0x923f82a4, 0xab1c5ed5,
    0xd807aa98, 0x12835b01, 0x243185be, 0x550c7dc3, 0x72be5d74, 0x80deb1fe, 0x9bdc06a7, 0xc19bf174,
    0xe49b69c1, 0xefbe4786, 0x0fc19dc6, 0x240ca1cc, 0x2de92c6f, 0x4a7484aa, 0x5cb0a9dc, 0x76f988da,
    0x983e5152, 0xa831c66d, 0xb00327c8, 0xbf597fc7, 0xc6e00bf3, 0xd5a79147, 0x06ca6351, 0x14292967,
    0x27b70a85, 0x2e1b2138, 0x4d2c6dfc, 0x53380d13, 0x650a7354, 0x766a0abb, 0x81c2c92e, 0x92722c85,
    0xa2bfe8a1, 0xa81a664b, 0xc24b8b70, 0xc76c51a3, 0xd192e819, 0xd6990624, 0xf40e3585, 0x106aa070,
    0x19a4c116, 0x1e376c08, 0x2748774c, 0x34b0bcb5, 0x391c0cb3, 0x4ed8aa4a, 0x5b9cca4f, 0x682e6ff3,
    0x748f82ee, 0x78a5636f, 0x84c87814, 0x8cc70208, 0x90befffa, 0xa4506ceb, 0xbef9a3f7, 0xc67178f2,
];

/// Takes blocks of 64 bytes into a state.
fn plain(state: &mut [u32; 8], blocks: &[u8]) {
    for block in blocks.chunks_exact(64) {
        let mut w = [0; 64];
        for (word, bytes) in w.iter_mut().zip(block.chunks_exact(4)) {
            *word = u32::from_be_bytes(bytes.try_into().unwrap());
        }
        for t in 16..64 {
            let small0 = w[t - 15].rotate_right(7) ^ w[t - 15].rotate_right(18) ^ w[t - 15] >> 3;
            let small1 = w[t - 2].rotate_right(17) ^ w[t - 2].rotate_right(19) ^ w[t - 2] >> 10;
            w[t] = small1.wrapping_add(w[t - 7]).wrapping_add(small0).wrapping_add(w[t - 16]);
        }
        let [mut a, mut b, mut c, mut d, mut e, mut f, mut g, mut h] = *state;
        for t in 0..64 {
            let big1 = e.rotate_right(6) ^ e.rotate_right(11) ^ e.rotate_right(25);
            let choice = (e & f) ^ (!e & g);
            let one = h.wrapping_add(big1).wrapping_add(choice).wrapping_add(ROUNDS[t]).wrapping_add(w[t]);
            let big0 = a.rotate_right(2) ^ a.rotate_right(13) ^ a.rotate_right(22);
            let majority = (a & b) ^ (a & c) ^ (b & c);
            let two = big0.wrapping_add(majority);
            (h, g, f, e, d, c, b, a) = (g, f, e, d.wrapping_add(one), c, b, a, one.wrapping_add(two));
        }
        for (old, new) in state.iter_mut().zip([a, b, c, d, e, f, g, h]) {
            *old = old.wrapping_add(new);
        }
    }
}

/// The same by the processor's steps, of which each makes two rounds: w holds sixteen words, and those of four rounds come next.
#[cfg(target_arch = "x86_64")]
#[target_feature(enable = "sha,ssse3,sse4.1")]
fn by_steps(state: &mut [u32; 8], blocks: &[u8]) {
    use std::arch::x86_64::*;
    let four = |a: u32, b: u32, c: u32, d: u32| _mm_set_epi32(a as i32, b as i32, c as i32, d as i32);
    let turned = four(0x0c0d0e0f, 0x08090a0b, 0x04050607, 0x00010203);
    let [a, b, c, d, e, f, g, h] = *state;
    let (mut abef, mut cdgh) = (four(a, b, e, f), four(c, d, g, h));
    for block in blocks.chunks_exact(64) {
        let (old_abef, old_cdgh) = (abef, cdgh);
        let mut w = [turned; 4];
        for (words, bytes) in w.iter_mut().zip(block.chunks_exact(16)) {
            *words = _mm_shuffle_epi8(unsafe { _mm_loadu_si128(bytes.as_ptr().cast()) }, turned);
        }
        for k in ROUNDS.chunks_exact(4) {
            let sums = _mm_add_epi32(w[0], four(k[3], k[2], k[1], k[0]));
            cdgh = _mm_sha256rnds2_epu32(cdgh, abef, sums);
            abef = _mm_sha256rnds2_epu32(abef, cdgh, _mm_shuffle_epi32(sums, 0x0e));
            let next = _mm_add_epi32(_mm_sha256msg1_epu32(w[0], w[1]), _mm_alignr_epi8(w[3], w[2], 4));
            w = [w[1], w[2], w[3], _mm_sha256msg2_epu32(next, w[3])];
        }
        abef = _mm_add_epi32(abef, old_abef);
        cdgh = _mm_add_epi32(cdgh, old_cdgh);
    }
    let [mut front, mut back] = [[0u32; 4]; 2];
    unsafe {
        _mm_storeu_si128(front.as_mut_ptr().cast(), abef);
        _mm_storeu_si128(back.as_mut_ptr().cast(), cdgh);
    }
    *state = [front[3], front[2], back[3], back[2], front[1], front[0], back[1], back[0]];
}

fn blocks_into(state: &mut [u32; 8], blocks: &[u8]) {
    #[cfg(target_arch = "x86_64")]
    if is_x86_feature_detected!("sha") && is_x86_feature_detected!("ssse3") && is_x86_feature_detected!("sse4.1") {
        return unsafe { by_steps(state, blocks) };
    }
    plain(state, blocks);
}

/// The digest of 32 bytes with others behind them.
pub fn sha256(front: &[u8; 32], back: &[u8]) -> [u8; 32] {
    let mut state = FIRST;
    let first = back.len().min(32);
    let mut rest = back;
    let mut last = front.to_vec();
    if first == 32 {
        last.extend(&back[..32]);
        blocks_into(&mut state, &last);
        let whole = (back.len() - 32) / 64 * 64;
        blocks_into(&mut state, &back[32..32 + whole]);
        rest = &back[32 + whole..];
        last.clear();
    }
    last.extend(rest);
    last.push(0x80);
    last.resize((last.len() + 8).next_multiple_of(64) - 8, 0);
    last.extend(((32 + back.len() as u64) * 8).to_be_bytes());
    blocks_into(&mut state, &last);
    let mut digest = [0; 32];
    for (bytes, word) in digest.chunks_exact_mut(4).zip(state) {
        bytes.copy_from_slice(&word.to_be_bytes());
    }
    digest
}

/// The signature of bytes under a secret: `KeyedDigest` of docs/PROTOCOL.md.
pub fn signature(secret: &[u8; 32], bytes: &[u8]) -> [u8; 32] {
    sha256(secret, &sha256(secret, bytes))
}
