//! The transforms of `ring_ntt` in plain Rust: the same butterflies with Shoup's quotients and lazily
//! reduced entries, walked level by level; and the products of `mod_ring` by them. Prints what
//! `ntt_bench measure` prints, or with the word `products` what `ntt_bench products` prints.

use std::time::Instant;

const ROUNDS: usize = 101;

struct Table {
    roots: Vec<u64>,
    quotients: Vec<u64>,
}

pub struct Tables {
    modulus: u64,
    onward: Table,
    back: Table,
    scale: (u64, u64),
    carry: (u64, u64),
}

fn product(x: u64, y: u64, q: u64) -> u64 {
    (x as u128 * y as u128 % q as u128) as u64
}

fn power(mut base: u64, mut exponent: u64, q: u64) -> u64 {
    let mut made = 1;
    while exponent > 0 {
        if exponent & 1 == 1 {
            made = product(made, base, q);
        }
        base = product(base, base, q);
        exponent /= 2;
    }
    made
}

pub fn quotient(w: u64, q: u64) -> u64 {
    (((w as u128) << 64) / q as u128) as u64
}

fn table(q: u64, n: usize, base: u64) -> Table {
    let mut roots = vec![1];
    while roots.len() < n {
        let step = power(base, (n / 2 / roots.len()) as u64, q);
        for k in 0..roots.len() {
            roots.push(product(roots[k], step, q));
        }
    }
    let quotients = roots.iter().map(|w| quotient(*w, q)).collect();
    Table { roots, quotients }
}

pub fn tables(q: u64, n: usize, psi: u64) -> Tables {
    assert_eq!(power(psi, n as u64, q), q - 1);
    let inverse = q - power(psi, n as u64 - 1, q);
    let scale = power(q / 2 + 1, n.trailing_zeros() as u64, q);
    let carry = power(2, 64, q);
    Tables {
        modulus: q,
        onward: table(q, n, psi),
        back: table(q, n, inverse),
        scale: (scale, quotient(scale, q)),
        carry: (carry, quotient(carry, q)),
    }
}

#[inline]
pub fn scaled(x: u64, w: u64, quotient: u64, q: u64) -> u64 {
    let times = ((quotient as u128 * x as u128) >> 64) as u64;
    w.wrapping_mul(x).wrapping_sub(times.wrapping_mul(q))
}

#[inline]
pub fn lowered(x: u64, bound: u64) -> u64 {
    if x >= bound { x - bound } else { x }
}

#[inline(never)]
fn forward(t: &Tables, a: &mut [u64]) {
    let q = t.modulus;
    let n = a.len();
    let mut blocks = 1;
    let mut half = n / 2;
    while half > 0 {
        for (k, block) in a.chunks_exact_mut(2 * half).enumerate() {
            let w = t.onward.roots[blocks + k];
            let quotient = t.onward.quotients[blocks + k];
            let (low, high) = block.split_at_mut(half);
            for (x, y) in low.iter_mut().zip(high) {
                let even = lowered(*x, 2 * q);
                let odd = scaled(*y, w, quotient, q);
                *x = even + odd;
                *y = even + 2 * q - odd;
            }
        }
        blocks *= 2;
        half /= 2;
    }
    for x in a {
        *x = lowered(lowered(*x, 2 * q), q);
    }
}

#[inline(never)]
fn inverse(t: &Tables, a: &mut [u64]) {
    let q = t.modulus;
    let n = a.len();
    let mut blocks = n / 2;
    let mut half = 1;
    while blocks > 0 {
        for (k, block) in a.chunks_exact_mut(2 * half).enumerate() {
            let w = t.back.roots[blocks + k];
            let quotient = t.back.quotients[blocks + k];
            let (low, high) = block.split_at_mut(half);
            for (x, y) in low.iter_mut().zip(high) {
                let sum = lowered(*x + *y, 2 * q);
                *y = scaled(*x + 2 * q - *y, w, quotient, q);
                *x = sum;
            }
        }
        blocks /= 2;
        half *= 2;
    }
    for x in a {
        *x = lowered(scaled(*x, t.scale.0, t.scale.1, q), q);
    }
}

#[inline(never)]
fn multiply_into(t: &Tables, a: &mut [u64], b: &[u64]) {
    let q = t.modulus;
    let unit = quotient(1, q);
    for (x, y) in a.iter_mut().zip(b) {
        let whole = *x as u128 * *y as u128;
        let high = scaled((whole >> 64) as u64, t.carry.0, t.carry.1, q);
        let low = scaled(whole as u64, 1, unit, q);
        *x = lowered(lowered(high + low, 2 * q), q);
    }
}

/// The product of two polynomials, each copied.
#[inline(never)]
pub fn polynomial(t: &Tables, f: &[u64], g: &[u64]) -> Vec<u64> {
    let mut values = f.to_vec();
    let mut others = g.to_vec();
    forward(t, &mut values);
    forward(t, &mut others);
    multiply_into(t, &mut values, &others);
    inverse(t, &mut values);
    values
}

fn measure_products(q: u64, n: usize, psi: u64) {
    let t = tables(q, n, psi);
    let g = vec![1; n];
    let mut f = vec![1; n];
    let mut products = Vec::new();
    for _ in 0..ROUNDS {
        let start = Instant::now();
        for _ in 0..16 {
            f = polynomial(&t, &f, &g);
        }
        products.push(start.elapsed().as_nanos());
    }
    products.sort_unstable();
    println!("{q} {n} {} {}", products[ROUNDS / 2] / 16, f[0]);
}

fn measure(q: u64, n: usize, psi: u64) {
    let t = tables(q, n, psi);
    let mut a = vec![1; n];
    let mut onward = Vec::new();
    let mut back = Vec::new();
    for _ in 0..ROUNDS {
        let start = Instant::now();
        for _ in 0..16 {
            forward(&t, &mut a);
        }
        onward.push(start.elapsed().as_nanos());
        let start = Instant::now();
        for _ in 0..16 {
            inverse(&t, &mut a);
        }
        back.push(start.elapsed().as_nanos());
    }
    assert!(a.iter().all(|x| *x == 1));
    onward.sort_unstable();
    back.sort_unstable();
    println!("{q} {n} {} {}", onward[ROUNDS / 2] / 16, back[ROUNDS / 2] / 16);
}

fn main() {
    if std::env::args().skip(1).any(|word| word == "products") {
        measure_products(31525197391593473, 1024, 1742471823828513);
        measure_products(31525197391593473, 4096, 10685641567815319);
        return;
    }
    measure(31525197391593473, 1024, 1742471823828513);
    measure(31525197391593473, 4096, 10685641567815319);
    measure(4611686018427322369, 1024, 2953159431647451165);
    measure(4611686018427322369, 4096, 3391169269051246823);
}
