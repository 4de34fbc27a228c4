//! SHA-256 (FIPS 180-4), HMAC over it (RFC 2104), and ChaCha20 (RFC 8439) with a stream's number of 64 bits.

const K: [u32; 64] = [
    0x428a2f98, 0x71374491, 0xb5c0fbcf, 0xe9b5dba5, 0x3956c25b, 0x59f111f1, 0x923f82a4, 0xab1c5ed5, 0xd807aa98, 0x12835b01, 0x243185be,
    0x550c7dc3, 0x72be5d74, 0x80deb1fe, 0x9bdc06a7, 0xc19bf174, 0xe49b69c1, 0xefbe4786, 0x0fc19dc6, 0x240ca1cc, 0x2de92c6f, 0x4a7484aa,
    0x5cb0a9dc, 0x76f988da, 0x983e5152, 0xa831c66d, 0xb00327c8, 0xbf597fc7, 0xc6e00bf3, 0xd5a79147, 0x06ca6351, 0x14292967, 0x27b70a85,
    0x2e1b2138, 0x4d2c6dfc, 0x53380d13, 0x650a7354, 0x766a0abb, 0x81c2c92e, 0x92722c85, 0xa2bfe8a1, 0xa81a664b, 0xc24b8b70, 0xc76c51a3,
    0xd192e819, 0xd6990624, 0xf40e3585, 0x106aa070, 0x19a4c116, 0x1e376c08, 0x2748774c, 0x34b0bcb5, 0x391c0cb3, 0x4ed8aa4a, 0x5b9cca4f,
    0x682e6ff3, 0x748f82ee, 0x78a5636f, 0x84c87814, 0x8cc70208, 0x90befffa, 0xa4506ceb, 0xbef9a3f7, 0xc67178f2,
];
const BEGUN: [u32; 8] =
    [0x6a09e667, 0xbb67ae85, 0x3c6ef372, 0xa54ff53a, 0x510e527f, 0x9b05688c, 0x1f83d9ab, 0x5be0cd19];

fn compress(state: &mut [u32; 8], block: &[u8; 64]) {
    let mut w: [u32; 16] = std::array::from_fn(|i| u32::from_be_bytes(block[4 * i..4 * i + 4].try_into().unwrap()));
    let mut v = *state;
    // Written out, since the compiler doesn't unroll a loop over them.
    macro_rules! rounds { ($turn:literal, $($i:literal)*) => { $( v = round(v, K[16 * $turn + $i], word(&mut w, $turn, $i)); )* } }
    rounds!(0, 0 1 2 3 4 5 6 7 8 9 10 11 12 13 14 15);
    rounds!(1, 0 1 2 3 4 5 6 7 8 9 10 11 12 13 14 15);
    rounds!(2, 0 1 2 3 4 5 6 7 8 9 10 11 12 13 14 15);
    rounds!(3, 0 1 2 3 4 5 6 7 8 9 10 11 12 13 14 15);
    state.iter_mut().zip(v).for_each(|(word, more)| *word = word.wrapping_add(more));
}

/// The message's next word, in place of that which stood 16 before it.
#[inline(always)]
fn word(w: &mut [u32; 16], turn: usize, i: usize) -> u32 {
    if turn > 0 {
        let (first, last) = (w[(i + 1) % 16], w[(i + 14) % 16]);
        let low = (first ^ first.rotate_right(11)).rotate_right(7) ^ (first >> 3);
        let high = (last ^ last.rotate_right(2)).rotate_right(17) ^ (last >> 10);
        w[i] = w[i].wrapping_add(low).wrapping_add(w[(i + 9) % 16]).wrapping_add(high);
    }
    w[i]
}

#[inline(always)]
fn round([a, b, c, d, e, f, g, h]: [u32; 8], k: u32, word: u32) -> [u32; 8] {
    let high = (e ^ (e ^ e.rotate_right(14)).rotate_right(5)).rotate_right(6);
    let one = h.wrapping_add(high).wrapping_add(g ^ (e & (f ^ g))).wrapping_add(k).wrapping_add(word);
    let low = (a ^ (a ^ a.rotate_right(9)).rotate_right(11)).rotate_right(2);
    let two = low.wrapping_add(b ^ ((a ^ b) & (b ^ c)));
    [one.wrapping_add(two), a, b, c, d.wrapping_add(one), e, f, g]
}

/// HMAC with one key: what SHA-256 has in hand after the inner and after the outer key block.
pub struct Mac {
    inner: [u32; 8],
    outer: [u32; 8],
}

impl Mac {
    pub fn new(key: &[u8; 32]) -> Mac {
        let begun = |pad: u8| {
            let (mut block, mut state) = ([pad; 64], BEGUN);
            block.iter_mut().zip(key).for_each(|(byte, key)| *byte ^= key);
            compress(&mut state, &block);
            state
        };
        Mac { inner: begun(0x36), outer: begun(0x5c) }
    }

    pub fn of(&self, parts: &[&[u8]]) -> [u8; 32] {
        ended(self.outer, &[&ended(self.inner, parts)])
    }
}

/// The hash of a block that was taken in and these parts behind it.
fn ended(mut state: [u32; 8], parts: &[&[u8]]) -> [u8; 32] {
    let (mut block, mut used, mut total) = ([0; 64], 0, 64);
    for mut part in parts.iter().copied() {
        total += part.len();
        while used + part.len() >= 64 {
            let (now, rest) = part.split_at(64 - used);
            block[used..].copy_from_slice(now);
            compress(&mut state, &block);
            (part, used) = (rest, 0);
        }
        block[used..used + part.len()].copy_from_slice(part);
        used += part.len();
    }
    block[used] = 0x80;
    block[used + 1..].fill(0);
    if used >= 56 {
        compress(&mut state, &block);
        block.fill(0);
    }
    block[56..].copy_from_slice(&(8 * total as u64).to_be_bytes());
    compress(&mut state, &block);
    let mut hash = [0; 32];
    hash.chunks_exact_mut(4).zip(state).for_each(|(bytes, word)| bytes.copy_from_slice(&word.to_be_bytes()));
    hash
}

/// Xors a text with the stream of this key and number.
pub fn xor(key: &[u8; 32], number: u64, text: &mut [u8]) {
    let mut begun = [0x61707865, 0x3320646e, 0x79622d32, 0x6b206574, 0, 0, 0, 0, 0, 0, 0, 0, 0, 0, number as u32, (number >> 32) as u32];
    begun[4..12].iter_mut().zip(key.chunks_exact(4)).for_each(|(word, key)| *word = u32::from_le_bytes(key.try_into().unwrap()));
    for piece in text.chunks_mut(64) {
        let (mut words, mut stream) = (begun, [[0; 4]; 16]);
        for _ in 0..10 {
            (0..4).for_each(|i| quarter(&mut words, i, 4 + i, 8 + i, 12 + i));
            (0..4).for_each(|i| quarter(&mut words, i, 4 + (i + 1) % 4, 8 + (i + 2) % 4, 12 + (i + 3) % 4));
        }
        (0..16).for_each(|i| stream[i] = words[i].wrapping_add(begun[i]).to_le_bytes());
        piece.iter_mut().zip(stream.as_flattened()).for_each(|(byte, stream)| *byte ^= stream);
        begun[12] += 1;
    }
}

#[inline(always)]
fn quarter(words: &mut [u32; 16], a: usize, b: usize, c: usize, d: usize) {
    for (into, of, turned, bits) in [(a, b, d, 16), (c, d, b, 12), (a, b, d, 8), (c, d, b, 7)] {
        words[into] = words[into].wrapping_add(words[of]);
        words[turned] = (words[turned] ^ words[into]).rotate_left(bits);
    }
}
