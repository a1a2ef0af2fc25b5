//! MD5 (RFC 1321), with its steps written out.

fn f(x: u32, y: u32, z: u32) -> u32 {
    z ^ (x & (y ^ z))
}

fn g(x: u32, y: u32, z: u32) -> u32 {
    y ^ (z & (x ^ y))
}

fn h(x: u32, y: u32, z: u32) -> u32 {
    x ^ y ^ z
}

fn i(x: u32, y: u32, z: u32) -> u32 {
    y ^ (x | !z)
}

macro_rules! step {
    ($f:ident, $a:ident, $b:ident, $c:ident, $d:ident, $word:expr, $turn:expr, $sine:expr) => {
        $a = $a
            .wrapping_add($f($b, $c, $d))
            .wrapping_add($word)
            .wrapping_add($sine)
            .rotate_left($turn)
            .wrapping_add($b);
    };
}

fn block(state: &mut [u32; 4], words: &[u8; 64]) {
    let m: [u32; 16] = std::array::from_fn(|i| {
        u32::from_le_bytes([
            words[4 * i],
            words[4 * i + 1],
            words[4 * i + 2],
            words[4 * i + 3],
        ])
    });
    let [mut a, mut b, mut c, mut d] = *state;
    step!(f, a, b, c, d, m[0], 7, 0xd76aa478);
    step!(f, d, a, b, c, m[1], 12, 0xe8c7b756);
    step!(f, c, d, a, b, m[2], 17, 0x242070db);
    step!(f, b, c, d, a, m[3], 22, 0xc1bdceee);
    step!(f, a, b, c, d, m[4], 7, 0xf57c0faf);
    step!(f, d, a, b, c, m[5], 12, 0x4787c62a);
    step!(f, c, d, a, b, m[6], 17, 0xa8304613);
    step!(f, b, c, d, a, m[7], 22, 0xfd469501);
    step!(f, a, b, c, d, m[8], 7, 0x698098d8);
    step!(f, d, a, b, c, m[9], 12, 0x8b44f7af);
    step!(f, c, d, a, b, m[10], 17, 0xffff5bb1);
    step!(f, b, c, d, a, m[11], 22, 0x895cd7be);
    step!(f, a, b, c, d, m[12], 7, 0x6b901122);
    step!(f, d, a, b, c, m[13], 12, 0xfd987193);
    step!(f, c, d, a, b, m[14], 17, 0xa679438e);
    step!(f, b, c, d, a, m[15], 22, 0x49b40821);
    step!(g, a, b, c, d, m[1], 5, 0xf61e2562);
    step!(g, d, a, b, c, m[6], 9, 0xc040b340);
    step!(g, c, d, a, b, m[11], 14, 0x265e5a51);
    step!(g, b, c, d, a, m[0], 20, 0xe9b6c7aa);
    step!(g, a, b, c, d, m[5], 5, 0xd62f105d);
    step!(g, d, a, b, c, m[10], 9, 0x02441453);
    step!(g, c, d, a, b, m[15], 14, 0xd8a1e681);
    step!(g, b, c, d, a, m[4], 20, 0xe7d3fbc8);
    step!(g, a, b, c, d, m[9], 5, 0x21e1cde6);
    step!(g, d, a, b, c, m[14], 9, 0xc33707d6);
    step!(g, c, d, a, b, m[3], 14, 0xf4d50d87);
    step!(g, b, c, d, a, m[8], 20, 0x455a14ed);
    step!(g, a, b, c, d, m[13], 5, 0xa9e3e905);
    step!(g, d, a, b, c, m[2], 9, 0xfcefa3f8);
    step!(g, c, d, a, b, m[7], 14, 0x676f02d9);
    step!(g, b, c, d, a, m[12], 20, 0x8d2a4c8a);
    step!(h, a, b, c, d, m[5], 4, 0xfffa3942);
    step!(h, d, a, b, c, m[8], 11, 0x8771f681);
    step!(h, c, d, a, b, m[11], 16, 0x6d9d6122);
    step!(h, b, c, d, a, m[14], 23, 0xfde5380c);
    step!(h, a, b, c, d, m[1], 4, 0xa4beea44);
    step!(h, d, a, b, c, m[4], 11, 0x4bdecfa9);
    step!(h, c, d, a, b, m[7], 16, 0xf6bb4b60);
    step!(h, b, c, d, a, m[10], 23, 0xbebfbc70);
    step!(h, a, b, c, d, m[13], 4, 0x289b7ec6);
    step!(h, d, a, b, c, m[0], 11, 0xeaa127fa);
    step!(h, c, d, a, b, m[3], 16, 0xd4ef3085);
    step!(h, b, c, d, a, m[6], 23, 0x04881d05);
    step!(h, a, b, c, d, m[9], 4, 0xd9d4d039);
    step!(h, d, a, b, c, m[12], 11, 0xe6db99e5);
    step!(h, c, d, a, b, m[15], 16, 0x1fa27cf8);
    step!(h, b, c, d, a, m[2], 23, 0xc4ac5665);
    step!(i, a, b, c, d, m[0], 6, 0xf4292244);
    step!(i, d, a, b, c, m[7], 10, 0x432aff97);
    step!(i, c, d, a, b, m[14], 15, 0xab9423a7);
    step!(i, b, c, d, a, m[5], 21, 0xfc93a039);
    step!(i, a, b, c, d, m[12], 6, 0x655b59c3);
    step!(i, d, a, b, c, m[3], 10, 0x8f0ccc92);
    step!(i, c, d, a, b, m[10], 15, 0xffeff47d);
    step!(i, b, c, d, a, m[1], 21, 0x85845dd1);
    step!(i, a, b, c, d, m[8], 6, 0x6fa87e4f);
    step!(i, d, a, b, c, m[15], 10, 0xfe2ce6e0);
    step!(i, c, d, a, b, m[6], 15, 0xa3014314);
    step!(i, b, c, d, a, m[13], 21, 0x4e0811a1);
    step!(i, a, b, c, d, m[4], 6, 0xf7537e82);
    step!(i, d, a, b, c, m[11], 10, 0xbd3af235);
    step!(i, c, d, a, b, m[2], 15, 0x2ad7d2bb);
    step!(i, b, c, d, a, m[9], 21, 0xeb86d391);
    *state = [
        state[0].wrapping_add(a),
        state[1].wrapping_add(b),
        state[2].wrapping_add(c),
        state[3].wrapping_add(d),
    ];
}

pub fn digest(bytes: &[u8]) -> [u8; 16] {
    let mut state = [0x67452301, 0xefcdab89, 0x98badcfe, 0x10325476];
    let (whole, rest) = bytes.as_chunks::<64>();
    for words in whole {
        block(&mut state, words);
    }
    let mut tail = [0; 128];
    tail[..rest.len()].copy_from_slice(rest);
    tail[rest.len()] = 0x80;
    let end = if rest.len() < 56 { 64 } else { 128 };
    tail[end - 8..end].copy_from_slice(&(8 * bytes.len() as u64).to_le_bytes());
    for words in tail[..end].as_chunks::<64>().0 {
        block(&mut state, words);
    }
    let mut out = [0; 16];
    for (place, word) in out.chunks_exact_mut(4).zip(state) {
        place.copy_from_slice(&word.to_le_bytes());
    }
    out
}

pub fn hex(digest: &[u8; 16]) -> String {
    let digit = |n: u8| b"0123456789abcdef"[usize::from(n)] as char;
    digest
        .iter()
        .flat_map(|b| [digit(b >> 4), digit(b & 15)])
        .collect()
}
