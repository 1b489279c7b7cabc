//! ChaCha with 20 rounds, a 64-bit counter of blocks and a 64-bit number of the stream: a block at a time
//! on single words, or four side by side on vectors of four.

use std::arch::x86_64::{
    __m128i, _mm_add_epi32, _mm_or_si128, _mm_slli_epi32, _mm_srli_epi32, _mm_xor_si128,
};

const LINE: [u32; 4] = [0x6170_7865, 0x3320_646e, 0x7962_2d32, 0x6b20_6574];

/// A word of the state of one block, or of several side by side.
pub trait Lane: Copy {
    const BLOCKS: usize;
    fn of_words(words: [u32; 4]) -> Self;
    fn words(self) -> [u32; 4];
    fn add(self, other: Self) -> Self;
    /// The exclusive or, turned left by L, where R is 32 - L.
    fn turned<const L: i32, const R: i32>(self, other: Self) -> Self;
}

impl Lane for u32 {
    const BLOCKS: usize = 1;

    #[inline(always)]
    fn of_words(words: [u32; 4]) -> u32 {
        words[0]
    }

    #[inline(always)]
    fn words(self) -> [u32; 4] {
        [self; 4]
    }

    #[inline(always)]
    fn add(self, other: u32) -> u32 {
        self.wrapping_add(other)
    }

    #[inline(always)]
    fn turned<const L: i32, const R: i32>(self, other: u32) -> u32 {
        (self ^ other).rotate_left(L as u32)
    }
}

impl Lane for __m128i {
    const BLOCKS: usize = 4;

    #[inline(always)]
    fn of_words(words: [u32; 4]) -> __m128i {
        // both are 16 bytes in which any bits are a value
        unsafe { std::mem::transmute(words) }
    }

    #[inline(always)]
    fn words(self) -> [u32; 4] {
        // as above
        unsafe { std::mem::transmute(self) }
    }

    #[inline(always)]
    fn add(self, other: __m128i) -> __m128i {
        // every x86-64 processor has SSE2
        unsafe { _mm_add_epi32(self, other) }
    }

    #[inline(always)]
    fn turned<const L: i32, const R: i32>(self, other: __m128i) -> __m128i {
        // as above
        unsafe {
            let x = _mm_xor_si128(self, other);
            _mm_or_si128(_mm_slli_epi32::<L>(x), _mm_srli_epi32::<R>(x))
        }
    }
}

#[inline(always)]
fn quarter_round<W: Lane>(x: &mut [W; 16], [a, b, c, d]: [usize; 4]) {
    x[a] = x[a].add(x[b]);
    x[d] = x[d].turned::<16, 16>(x[a]);
    x[c] = x[c].add(x[d]);
    x[b] = x[b].turned::<12, 20>(x[c]);
    x[a] = x[a].add(x[b]);
    x[d] = x[d].turned::<8, 24>(x[a]);
    x[c] = x[c].add(x[d]);
    x[b] = x[b].turned::<7, 25>(x[c]);
}

/// A place in a stream. Of its words so many are filled as the blocks of W have.
pub struct ChaCha<W: Lane> {
    key: [u32; 8],
    stream: u64,
    counter: u64,
    words: [u32; 64],
    index: usize,
    lanes: std::marker::PhantomData<W>,
}

impl<W: Lane> ChaCha<W> {
    pub fn new(seed: [u8; 32], stream: u64) -> Self {
        let mut key = [0; 8];
        for (word, bytes) in key.iter_mut().zip(seed.chunks_exact(4)) {
            *word = u32::from_le_bytes(bytes.try_into().unwrap());
        }
        ChaCha {
            key,
            stream,
            counter: 0,
            words: [0; 64],
            index: 16 * W::BLOCKS,
            lanes: std::marker::PhantomData,
        }
    }

    #[inline(never)]
    fn refill(&mut self) {
        let same = |word: u32| W::of_words([word; 4]);
        let counters = [0, 1, 2, 3].map(|lane| self.counter.wrapping_add(lane));
        let mut first = [same(0); 16];
        for k in 0..4 {
            first[k] = same(LINE[k]);
        }
        for k in 0..8 {
            first[4 + k] = same(self.key[k]);
        }
        first[12] = W::of_words(counters.map(|counter| counter as u32));
        first[13] = W::of_words(counters.map(|counter| (counter >> 32) as u32));
        first[14] = same(self.stream as u32);
        first[15] = same((self.stream >> 32) as u32);
        let mut x = first;
        for _ in 0..10 {
            quarter_round(&mut x, [0, 4, 8, 12]);
            quarter_round(&mut x, [1, 5, 9, 13]);
            quarter_round(&mut x, [2, 6, 10, 14]);
            quarter_round(&mut x, [3, 7, 11, 15]);
            quarter_round(&mut x, [0, 5, 10, 15]);
            quarter_round(&mut x, [1, 6, 11, 12]);
            quarter_round(&mut x, [2, 7, 8, 13]);
            quarter_round(&mut x, [3, 4, 9, 14]);
        }
        for k in 0..16 {
            let words = x[k].add(first[k]).words();
            for lane in 0..W::BLOCKS {
                self.words[16 * lane + k] = words[lane];
            }
        }
        self.counter = self.counter.wrapping_add(W::BLOCKS as u64);
        self.index = 0;
    }

    #[inline]
    pub fn word(&mut self) -> u32 {
        if self.index == 16 * W::BLOCKS {
            self.refill();
        }
        let word = self.words[self.index];
        self.index += 1;
        word
    }
}
