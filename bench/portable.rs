//! The portable Rust that the proved crates are measured against: the same algorithms, in safe Rust, without
//! special instructions and without any table but the S-box. Run as `portable WORK COUNT`, like the program `bench`.
use std::hint::black_box;
use std::time::Instant;

const MESSAGE: usize = 16 * 1024;
const STATEMENT: usize = 60;

// SHA-256

const K: [[u32; 16]; 4] = [
    [
        0x428a2f98, 0x71374491, 0xb5c0fbcf, 0xe9b5dba5, 0x3956c25b, 0x59f111f1, 0x923f82a4, 0xab1c5ed5, 0xd807aa98,
        0x12835b01, 0x243185be, 0x550c7dc3, 0x72be5d74, 0x80deb1fe, 0x9bdc06a7, 0xc19bf174,
    ],
    [
        0xe49b69c1, 0xefbe4786, 0x0fc19dc6, 0x240ca1cc, 0x2de92c6f, 0x4a7484aa, 0x5cb0a9dc, 0x76f988da, 0x983e5152,
        0xa831c66d, 0xb00327c8, 0xbf597fc7, 0xc6e00bf3, 0xd5a79147, 0x06ca6351, 0x14292967,
    ],
    [
        0x27b70a85, 0x2e1b2138, 0x4d2c6dfc, 0x53380d13, 0x650a7354, 0x766a0abb, 0x81c2c92e, 0x92722c85, 0xa2bfe8a1,
        0xa81a664b, 0xc24b8b70, 0xc76c51a3, 0xd192e819, 0xd6990624, 0xf40e3585, 0x106aa070,
    ],
    [
        0x19a4c116, 0x1e376c08, 0x2748774c, 0x34b0bcb5, 0x391c0cb3, 0x4ed8aa4a, 0x5b9cca4f, 0x682e6ff3, 0x748f82ee,
        0x78a5636f, 0x84c87814, 0x8cc70208, 0x90befffa, 0xa4506ceb, 0xbef9a3f7, 0xc67178f2,
    ],
];

const FIRST: [u32; 8] = [
    0x6a09e667, 0xbb67ae85, 0x3c6ef372, 0xa54ff53a, 0x510e527f, 0x9b05688c, 0x1f83d9ab, 0x5be0cd19,
];

fn round(s: [u32; 8], k: u32, w: u32) -> [u32; 8] {
    let [a, b, c, d, e, f, g, h] = s;
    let choice = (e & f) ^ (!e & g);
    let majority = (a & b) ^ (a & c) ^ (b & c);
    let t1 = h
        .wrapping_add(e.rotate_right(6) ^ e.rotate_right(11) ^ e.rotate_right(25))
        .wrapping_add(choice)
        .wrapping_add(k)
        .wrapping_add(w);
    let t2 = (a.rotate_right(2) ^ a.rotate_right(13) ^ a.rotate_right(22)).wrapping_add(majority);
    [t1.wrapping_add(t2), a, b, c, d.wrapping_add(t1), e, f, g]
}

#[inline(always)]
fn sixteen_rounds(s: [u32; 8], k: &[u32; 16], w: &[u32; 16]) -> [u32; 8] {
    let s = round(s, k[0], w[0]);
    let s = round(s, k[1], w[1]);
    let s = round(s, k[2], w[2]);
    let s = round(s, k[3], w[3]);
    let s = round(s, k[4], w[4]);
    let s = round(s, k[5], w[5]);
    let s = round(s, k[6], w[6]);
    let s = round(s, k[7], w[7]);
    let s = round(s, k[8], w[8]);
    let s = round(s, k[9], w[9]);
    let s = round(s, k[10], w[10]);
    let s = round(s, k[11], w[11]);
    let s = round(s, k[12], w[12]);
    let s = round(s, k[13], w[13]);
    let s = round(s, k[14], w[14]);
    round(s, k[15], w[15])
}

fn next_word(a: u32, b: u32, c: u32, d: u32) -> u32 {
    (d.rotate_right(17) ^ d.rotate_right(19) ^ (d >> 10))
        .wrapping_add(c)
        .wrapping_add(b.rotate_right(7) ^ b.rotate_right(18) ^ (b >> 3))
        .wrapping_add(a)
}

#[inline(always)]
fn next_sixteen(w: &[u32; 16]) -> [u32; 16] {
    let v0 = next_word(w[0], w[1], w[9], w[14]);
    let v1 = next_word(w[1], w[2], w[10], w[15]);
    let v2 = next_word(w[2], w[3], w[11], v0);
    let v3 = next_word(w[3], w[4], w[12], v1);
    let v4 = next_word(w[4], w[5], w[13], v2);
    let v5 = next_word(w[5], w[6], w[14], v3);
    let v6 = next_word(w[6], w[7], w[15], v4);
    let v7 = next_word(w[7], w[8], v0, v5);
    let v8 = next_word(w[8], w[9], v1, v6);
    let v9 = next_word(w[9], w[10], v2, v7);
    let v10 = next_word(w[10], w[11], v3, v8);
    let v11 = next_word(w[11], w[12], v4, v9);
    let v12 = next_word(w[12], w[13], v5, v10);
    let v13 = next_word(w[13], w[14], v6, v11);
    let v14 = next_word(w[14], w[15], v7, v12);
    let v15 = next_word(w[15], v0, v8, v13);
    [v0, v1, v2, v3, v4, v5, v6, v7, v8, v9, v10, v11, v12, v13, v14, v15]
}

fn compress(h: [u32; 8], block: &[u8]) -> [u32; 8] {
    let mut w = [0; 16];
    for (word, bytes) in w.iter_mut().zip(block.chunks_exact(4)) {
        *word = u32::from_be_bytes([bytes[0], bytes[1], bytes[2], bytes[3]]);
    }
    let mut s = sixteen_rounds(h, &K[0], &w);
    for k in &K[1..] {
        w = next_sixteen(&w);
        s = sixteen_rounds(s, k, &w);
    }
    std::array::from_fn(|i| s[i].wrapping_add(h[i]))
}

#[derive(Clone, Copy)]
struct Sha256 {
    h: [u32; 8],
    buffer: [u8; 64],
    fill: usize,
    count: u64,
}

impl Sha256 {
    fn after_a_block(h: [u32; 8]) -> Sha256 {
        Sha256 {
            h,
            buffer: [0; 64],
            fill: 0,
            count: 64,
        }
    }

    fn new() -> Sha256 {
        Sha256 {
            h: FIRST,
            buffer: [0; 64],
            fill: 0,
            count: 0,
        }
    }

    fn update(&mut self, bytes: &[u8]) {
        self.count = self.count.wrapping_add(bytes.len() as u64);
        let room = 64 - self.fill;
        if bytes.len() < room {
            self.buffer[self.fill..self.fill + bytes.len()].copy_from_slice(bytes);
            self.fill += bytes.len();
            return;
        }
        let (first, rest) = bytes.split_at(room);
        self.buffer[self.fill..].copy_from_slice(first);
        self.h = compress(self.h, &self.buffer);
        let blocks = rest.chunks_exact(64);
        let held = blocks.remainder();
        for block in blocks {
            self.h = compress(self.h, block);
        }
        self.buffer[..held.len()].copy_from_slice(held);
        self.fill = held.len();
    }

    fn finish(self) -> [u8; 32] {
        let mut last = [0; 128];
        last[..self.fill].copy_from_slice(&self.buffer[..self.fill]);
        last[self.fill] = 0x80;
        let end = if self.fill < 56 { 64 } else { 128 };
        last[end - 8..end].copy_from_slice(&self.count.wrapping_mul(8).to_be_bytes());
        let mut h = self.h;
        for block in last[..end].chunks_exact(64) {
            h = compress(h, block);
        }
        let mut digest = [0; 32];
        for (bytes, word) in digest.chunks_exact_mut(4).zip(h) {
            bytes.copy_from_slice(&word.to_be_bytes());
        }
        digest
    }
}

// HMAC-SHA-256, for keys of at most a block

struct HmacKey {
    inner: [u32; 8],
    outer: [u32; 8],
}

impl HmacKey {
    fn new(key: &[u8]) -> HmacKey {
        let mut block = [0; 64];
        block[..key.len()].copy_from_slice(key);
        HmacKey {
            inner: compress(FIRST, &block.map(|b| b ^ 0x36)),
            outer: compress(FIRST, &block.map(|b| b ^ 0x5c)),
        }
    }

    fn tag(&self, bytes: &[u8]) -> [u8; 32] {
        let mut inner = Sha256::after_a_block(self.inner);
        inner.update(bytes);
        let mut outer = Sha256::after_a_block(self.outer);
        outer.update(&inner.finish());
        outer.finish()
    }
}

// AES-128

static SBOX: [u8; 256] = [
    0x63, 0x7c, 0x77, 0x7b, 0xf2, 0x6b, 0x6f, 0xc5, 0x30, 0x01, 0x67, 0x2b, 0xfe, 0xd7, 0xab, 0x76, 0xca, 0x82, 0xc9,
    0x7d, 0xfa, 0x59, 0x47, 0xf0, 0xad, 0xd4, 0xa2, 0xaf, 0x9c, 0xa4, 0x72, 0xc0, 0xb7, 0xfd, 0x93, 0x26, 0x36, 0x3f,
    0xf7, 0xcc, 0x34, 0xa5, 0xe5, 0xf1, 0x71, 0xd8, 0x31, 0x15, 0x04, 0xc7, 0x23, 0xc3, 0x18, 0x96, 0x05, 0x9a, 0x07,
    0x12, 0x80, 0xe2, 0xeb, 0x27, 0xb2, 0x75, 0x09, 0x83, 0x2c, 0x1a, 0x1b, 0x6e, 0x5a, 0xa0, 0x52, 0x3b, 0xd6, 0xb3,
    0x29, 0xe3, 0x2f, 0x84, 0x53, 0xd1, 0x00, 0xed, 0x20, 0xfc, 0xb1, 0x5b, 0x6a, 0xcb, 0xbe, 0x39, 0x4a, 0x4c, 0x58,
    0xcf, 0xd0, 0xef, 0xaa, 0xfb, 0x43, 0x4d, 0x33, 0x85, 0x45, 0xf9, 0x02, 0x7f, 0x50, 0x3c, 0x9f, 0xa8, 0x51, 0xa3,
    0x40, 0x8f, 0x92, 0x9d, 0x38, 0xf5, 0xbc, 0xb6, 0xda, 0x21, 0x10, 0xff, 0xf3, 0xd2, 0xcd, 0x0c, 0x13, 0xec, 0x5f,
    0x97, 0x44, 0x17, 0xc4, 0xa7, 0x7e, 0x3d, 0x64, 0x5d, 0x19, 0x73, 0x60, 0x81, 0x4f, 0xdc, 0x22, 0x2a, 0x90, 0x88,
    0x46, 0xee, 0xb8, 0x14, 0xde, 0x5e, 0x0b, 0xdb, 0xe0, 0x32, 0x3a, 0x0a, 0x49, 0x06, 0x24, 0x5c, 0xc2, 0xd3, 0xac,
    0x62, 0x91, 0x95, 0xe4, 0x79, 0xe7, 0xc8, 0x37, 0x6d, 0x8d, 0xd5, 0x4e, 0xa9, 0x6c, 0x56, 0xf4, 0xea, 0x65, 0x7a,
    0xae, 0x08, 0xba, 0x78, 0x25, 0x2e, 0x1c, 0xa6, 0xb4, 0xc6, 0xe8, 0xdd, 0x74, 0x1f, 0x4b, 0xbd, 0x8b, 0x8a, 0x70,
    0x3e, 0xb5, 0x66, 0x48, 0x03, 0xf6, 0x0e, 0x61, 0x35, 0x57, 0xb9, 0x86, 0xc1, 0x1d, 0x9e, 0xe1, 0xf8, 0x98, 0x11,
    0x69, 0xd9, 0x8e, 0x94, 0x9b, 0x1e, 0x87, 0xe9, 0xce, 0x55, 0x28, 0xdf, 0x8c, 0xa1, 0x89, 0x0d, 0xbf, 0xe6, 0x42,
    0x68, 0x41, 0x99, 0x2d, 0x0f, 0xb0, 0x54, 0xbb, 0x16,
];

fn double(b: u8) -> u8 {
    if b < 128 {
        b << 1
    } else {
        (b << 1) ^ 0x1b
    }
}

fn sub_bytes(s: [u8; 16]) -> [u8; 16] {
    let mut r = s;
    for i in 0..16 {
        r[i] = SBOX[s[i] as usize];
    }
    r
}

fn shift_rows(s: [u8; 16]) -> [u8; 16] {
    [
        s[0], s[5], s[10], s[15], s[4], s[9], s[14], s[3], s[8], s[13], s[2], s[7], s[12], s[1], s[6], s[11],
    ]
}

fn mix_column(a: u8, b: u8, c: u8, d: u8) -> [u8; 4] {
    [
        double(a) ^ (double(b) ^ b) ^ c ^ d,
        a ^ double(b) ^ (double(c) ^ c) ^ d,
        a ^ b ^ double(c) ^ (double(d) ^ d),
        (double(a) ^ a) ^ b ^ c ^ double(d),
    ]
}

fn mix_columns(s: [u8; 16]) -> [u8; 16] {
    let [a0, a1, a2, a3] = mix_column(s[0], s[1], s[2], s[3]);
    let [b0, b1, b2, b3] = mix_column(s[4], s[5], s[6], s[7]);
    let [c0, c1, c2, c3] = mix_column(s[8], s[9], s[10], s[11]);
    let [d0, d1, d2, d3] = mix_column(s[12], s[13], s[14], s[15]);
    [a0, a1, a2, a3, b0, b1, b2, b3, c0, c1, c2, c3, d0, d1, d2, d3]
}

fn xor(s: [u8; 16], k: &[u8; 16]) -> [u8; 16] {
    let mut r = s;
    for i in 0..16 {
        r[i] ^= k[i];
    }
    r
}

struct Aes128 {
    keys: [[u8; 16]; 11],
}

impl Aes128 {
    fn new(key: &[u8; 16]) -> Aes128 {
        let mut keys = [*key; 11];
        let mut constant = 1;
        for t in 1..11 {
            let k = keys[t - 1];
            let mut word = [
                SBOX[k[13] as usize] ^ constant,
                SBOX[k[14] as usize],
                SBOX[k[15] as usize],
                SBOX[k[12] as usize],
            ];
            for i in 0..16 {
                word[i % 4] ^= k[i];
                keys[t][i] = word[i % 4];
            }
            constant = double(constant);
        }
        Aes128 { keys }
    }

    fn encrypt(&self, block: [u8; 16]) -> [u8; 16] {
        let mut s = xor(block, &self.keys[0]);
        for t in 1..10 {
            s = xor(mix_columns(shift_rows(sub_bytes(s))), &self.keys[t]);
        }
        xor(shift_rows(sub_bytes(s)), &self.keys[10])
    }
}

// AES-CMAC

fn double_block(block: [u8; 16]) -> [u8; 16] {
    let shifted = u128::from_be_bytes(block) << 1;
    let doubled = if block[0] < 128 { shifted } else { shifted ^ 0x87 };
    doubled.to_be_bytes()
}

struct CmacKey {
    aes: Aes128,
    k1: [u8; 16],
    k2: [u8; 16],
}

impl CmacKey {
    fn new(key: &[u8; 16]) -> CmacKey {
        let aes = Aes128::new(key);
        let k1 = double_block(aes.encrypt([0; 16]));
        CmacKey {
            aes,
            k1,
            k2: double_block(k1),
        }
    }

    fn start(&self) -> Cmac<'_> {
        Cmac {
            key: self,
            x: [0; 16],
            buffer: [0; 16],
            fill: 0,
        }
    }

    fn tag(&self, bytes: &[u8]) -> [u8; 16] {
        let mut cmac = self.start();
        cmac.update(bytes);
        cmac.finish()
    }
}

struct Cmac<'k> {
    key: &'k CmacKey,
    x: [u8; 16],
    buffer: [u8; 16],
    fill: usize,
}

impl Cmac<'_> {
    fn update(&mut self, bytes: &[u8]) {
        let room = 16 - self.fill;
        if bytes.len() <= room {
            self.buffer[self.fill..self.fill + bytes.len()].copy_from_slice(bytes);
            self.fill += bytes.len();
            return;
        }
        let (first, rest) = bytes.split_at(room);
        self.buffer[self.fill..].copy_from_slice(first);
        self.x = self.key.aes.encrypt(xor(self.x, &self.buffer));
        let (whole, held) = rest.split_at((rest.len() - 1) / 16 * 16);
        for block in whole.chunks_exact(16) {
            let block = block.try_into().expect("sixteen bytes");
            self.x = self.key.aes.encrypt(xor(self.x, block));
        }
        self.buffer[..held.len()].copy_from_slice(held);
        self.fill = held.len();
    }

    fn finish(self) -> [u8; 16] {
        let last = if self.fill == 16 {
            xor(self.buffer, &self.key.k1)
        } else {
            let mut padded = [0; 16];
            padded[..self.fill].copy_from_slice(&self.buffer[..self.fill]);
            padded[self.fill] = 0x80;
            xor(padded, &self.key.k2)
        };
        self.key.aes.encrypt(xor(self.x, &last))
    }
}

// The works: each result is written over the front of the next message, so that none can be left out.

fn digests(count: u64) -> [u8; 4] {
    let mut message = vec![0x61; MESSAGE];
    for _ in 0..count {
        let mut hash = Sha256::new();
        hash.update(black_box(&message));
        message[..32].copy_from_slice(&hash.finish());
    }
    [message[0], message[1], message[2], message[3]]
}

fn hmacs(count: u64) -> [u8; 4] {
    let key = HmacKey::new(&black_box([7; 32]));
    let mut message = [0x61; STATEMENT];
    for _ in 0..count {
        let tag = key.tag(black_box(&message));
        message[..32].copy_from_slice(&tag);
    }
    [message[0], message[1], message[2], message[3]]
}

fn cmacs(message: &mut [u8], count: u64) -> [u8; 4] {
    let key = CmacKey::new(&black_box([7; 16]));
    for _ in 0..count {
        let tag = key.tag(black_box(message));
        message[..16].copy_from_slice(&tag);
    }
    [message[0], message[1], message[2], message[3]]
}

fn main() {
    let words: Vec<String> = std::env::args().collect();
    let count = words[2].parse().expect("a count");
    let start = Instant::now();
    let check = match words[1].as_str() {
        "sha256" => digests(count),
        "hmac" => hmacs(count),
        "cmac" => cmacs(&mut vec![0x61; MESSAGE], count),
        "cmac-tags" => cmacs(&mut [0x61; STATEMENT], count),
        other => panic!("no such work: {other}"),
    };
    let nanoseconds = start.elapsed().as_nanos();
    println!("{nanoseconds} {:08x}", u32::from_be_bytes(check));
}
