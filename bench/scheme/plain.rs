//! What `scheme_bench measure` does, in plain scalar Rust: the same words, draws, products and sums. Prints
//! the same lines. Under `--cfg vectors` the words come four blocks at a time, on vectors, and all else is
//! the same.

mod chacha;
#[allow(dead_code)]
#[path = "../ntt/plain.rs"]
mod ntt;

use chacha::ChaCha;
use ntt::{Tables, lowered, polynomial, quotient, scaled, tables};
use std::hint::black_box;
use std::time::Instant;

const ROUNDS: usize = 101;
const REPEATS: u64 = 4;
const Q: u64 = 31_525_197_391_593_473;
const T: u64 = 65_537;
const ERR: u64 = 3;
const FLOOD: u64 = 1_000_000_000_000;
const INSTANCES: u64 = 1 << 56;
const PUBLIC: [u8; 32] = [1; 32];
const SEED: [u8; 32] = [2; 32];

#[cfg(not(vectors))]
type Tape = ChaCha<u32>;
#[cfg(vectors)]
type Tape = ChaCha<std::arch::x86_64::__m128i>;

/// A modulus with the quotients of 1 and of 2^64.
struct Modulus {
    q: u64,
    unit: (u64, u64),
    carry: (u64, u64),
}

impl Modulus {
    fn new(q: u64) -> Modulus {
        let carry = ((1u128 << 64) % q as u128) as u64;
        let unit = 1 % q;
        Modulus {
            q,
            unit: (unit, quotient(unit, q)),
            carry: (carry, quotient(carry, q)),
        }
    }

    #[inline]
    fn word(&self, x: u64) -> u64 {
        lowered(scaled(x, self.unit.0, self.unit.1, self.q), self.q)
    }

    #[inline]
    fn wide(&self, low: u64, high: u64) -> u64 {
        let sum = scaled(low, self.unit.0, self.unit.1, self.q)
            + scaled(high, self.carry.0, self.carry.1, self.q);
        lowered(lowered(sum, 2 * self.q), self.q)
    }
}

#[inline]
fn pair(tape: &mut Tape) -> u64 {
    let low = tape.word() as u64;
    let high = tape.word() as u64;
    low | high << 32
}

#[inline]
fn residue(x: i64) -> u64 {
    if x < 0 {
        Q - x.unsigned_abs()
    } else {
        x as u64
    }
}

#[inline(never)]
fn uniform(n: usize, tape: &mut Tape) -> Vec<u64> {
    let modulus = Modulus::new(Q);
    let mut f = vec![0; n];
    for x in &mut f {
        let low = pair(tape);
        let high = pair(tape);
        *x = modulus.wide(low, high);
    }
    f
}

#[inline(never)]
fn small(n: usize, bound: u64, tape: &mut Tape) -> Vec<u64> {
    let choices = Modulus::new(2 * bound + 1);
    let mut f = vec![0; n];
    for x in &mut f {
        *x = residue(choices.word(tape.word() as u64) as i64 - bound as i64);
    }
    f
}

#[inline(never)]
fn wide(n: usize, bound: u64, tape: &mut Tape) -> Vec<u64> {
    let choices = Modulus::new(2 * bound + 1);
    let mut f = vec![0; n];
    for x in &mut f {
        *x = residue(choices.word(pair(tape)) as i64 - bound as i64);
    }
    f
}

#[inline(never)]
fn ternary(n: usize, tape: &mut Tape) -> Vec<u64> {
    let mut f = vec![0; n];
    for x in &mut f {
        *x = residue((tape.word() % 3) as i64 - 1);
    }
    f
}

fn add_into(f: &mut [u64], g: &[u64]) {
    for (x, y) in f.iter_mut().zip(g) {
        *x = lowered(*x + *y, Q);
    }
}

fn neg_into(f: &mut [u64]) {
    for x in f {
        *x = if *x == 0 { 0 } else { Q - *x };
    }
}

fn scale_into(f: &mut [u64], k: u64) {
    let ratio = quotient(k, Q);
    for x in f {
        *x = lowered(scaled(*x, k, ratio, Q), Q);
    }
}

/// A ring, and what is needed for each work in it.
struct Setting {
    n: usize,
    tables: Tables,
    p0: Vec<u64>,
    p1: Vec<u64>,
    message: Vec<u64>,
    part: Vec<u64>,
    rng: Tape,
    tape: Tape,
}

impl Setting {
    fn new(n: usize, psi: u64) -> Setting {
        let mut tape = Tape::new(SEED, 0);
        Setting {
            n,
            tables: tables(Q, n, psi),
            p0: uniform(n, &mut tape),
            p1: uniform(n, &mut tape),
            part: ternary(n, &mut tape),
            message: vec![1; n],
            rng: Tape::new(SEED, 0),
            tape,
        }
    }

    fn words(&mut self) -> u64 {
        last_word(&mut self.rng, self.n)
    }

    fn tape_words(&mut self) -> u64 {
        last_word(&mut self.tape, self.n)
    }

    fn uniform(&mut self) -> Vec<u64> {
        uniform(self.n, &mut self.tape)
    }

    fn small(&mut self) -> Vec<u64> {
        small(self.n, black_box(ERR), &mut self.tape)
    }

    fn wide(&mut self) -> Vec<u64> {
        wide(self.n, black_box(FLOOD), &mut self.tape)
    }

    fn ternary(&mut self) -> Vec<u64> {
        ternary(self.n, &mut self.tape)
    }

    /// u * p0 + e0 + D * m and u * p1 + e1.
    fn encryption(&mut self) -> (Vec<u64>, Vec<u64>) {
        let u = self.ternary();
        let e0 = self.small();
        let e1 = self.small();
        let mut c0 = polynomial(&self.tables, &u, &self.p0);
        let mut message = self.message.clone();
        scale_into(&mut message, Q / T);
        add_into(&mut c0, &e0);
        add_into(&mut c0, &message);
        let mut c1 = polynomial(&self.tables, &u, &self.p1);
        add_into(&mut c1, &e1);
        (c0, c1)
    }

    /// -a * part + e.
    fn key_share(&mut self, id: u64) -> Vec<u64> {
        let common = uniform(self.n, &mut Tape::new(PUBLIC, INSTANCES + id));
        let mut row = polynomial(&self.tables, &common, &self.part);
        neg_into(&mut row);
        let noise = small(self.n, black_box(ERR), &mut Tape::new(SEED, INSTANCES + id));
        add_into(&mut row, &noise);
        row
    }

    /// c1 * part + f.
    fn decryption_share(&mut self, id: u64) -> Vec<u64> {
        let mut row = polynomial(&self.tables, &self.p1, &self.part);
        let flood = wide(
            self.n,
            black_box(FLOOD),
            &mut Tape::new(SEED, INSTANCES + id),
        );
        add_into(&mut row, &flood);
        row
    }
}

#[inline(never)]
fn last_word(rng: &mut Tape, count: usize) -> u64 {
    let mut last = 0;
    for _ in 0..count {
        last = rng.word();
    }
    last as u64
}

/// Prints the median of a work's time over ROUNDS rounds, in nanoseconds, and the sum of what its rounds gave.
fn measure(name: &str, setting: &mut Setting, work: impl Fn(&mut Setting, u64) -> u64) {
    let mut times = Vec::new();
    let mut sum = 0u64;
    for _ in 0..ROUNDS {
        let start = Instant::now();
        for id in 0..REPEATS {
            sum = sum.wrapping_add(work(setting, id));
        }
        times.push(start.elapsed().as_nanos());
    }
    times.sort_unstable();
    println!("{name} {} {} {sum}", setting.n, times[ROUNDS / 2] / REPEATS as u128);
}

fn measure_all(n: usize, psi: u64) {
    let mut setting = Setting::new(n, psi);
    measure("words", &mut setting, |s, _| s.words());
    measure("tape-words", &mut setting, |s, _| s.tape_words());
    measure("uniform", &mut setting, |s, _| black_box(s.uniform())[0]);
    measure("small", &mut setting, |s, _| black_box(s.small())[0]);
    measure("wide", &mut setting, |s, _| black_box(s.wide())[0]);
    measure("ternary", &mut setting, |s, _| black_box(s.ternary())[0]);
    measure("encryption", &mut setting, |s, _| {
        black_box(s.encryption()).0[0]
    });
    measure("key-share", &mut setting, |s, id| {
        black_box(s.key_share(id))[0]
    });
    measure("decryption-share", &mut setting, |s, id| {
        black_box(s.decryption_share(id))[0]
    });
}

fn main() {
    measure_all(1024, 1742471823828513);
    measure_all(4096, 10685641567815319);
}
