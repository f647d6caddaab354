//! Random products and sets of terms.
use driver::random::Random;
use driver::Kind;
use qoqo_calculator::{CalculatorComplex, CalculatorFloat};
use std::collections::HashMap;
use struqture::prelude::*;
use struqture::spins::*;

/// As many different ones of what is made.
pub fn different<T: PartialEq>(count: usize, mut make: impl FnMut() -> T) -> Vec<T> {
    let mut all = vec![];
    while all.len() < count {
        let one = make();
        if !all.contains(&one) {
            all.push(one);
        }
    }
    all
}
/// k sites below n, in any order.
pub fn sites(r: &mut Random, n: usize, k: usize) -> Vec<usize> {
    different(k, || r.below(n as u64) as usize)
}
/// Random letters on sites.
pub fn letters(r: &mut Random, sites: &[usize]) -> Vec<(usize, u8)> {
    sites.iter().map(|site| (*site, 1 + r.below(3) as u8)).collect()
}
pub fn made<K: Kind>(items: &[(usize, u8)]) -> K {
    items.iter().fold(K::new(), |p, (site, letter)| p.set_pauli(*site, K::letter(*letter)))
}
/// A product on k sites below n.
pub fn product<K: Kind>(r: &mut Random, n: usize, k: usize) -> K {
    let sites = sites(r, n, k);
    made(&letters(r, &sites))
}
/// A Hamiltonian and noise with terms of 1 to `most` sites below n; whole coefficients.
pub fn system(r: &mut Random, n: usize, terms: usize, most: usize) -> (PauliHamiltonian, PauliLindbladNoiseOperator) {
    let mut h = PauliHamiltonian::new();
    let mut noise = PauliLindbladNoiseOperator::new();
    let some = |r: &mut Random| 1 + r.below(most as u64) as usize;
    while h.len() < terms {
        let k = some(r);
        h.set(product(r, n, k), CalculatorFloat::from(1.0 + r.below(100) as f64)).unwrap();
    }
    while noise.len() < terms {
        let (j, k) = (some(r), some(r));
        noise.set((product(r, n, j), product(r, n, k)), CalculatorComplex::new(1.0, r.below(9) as f64)).unwrap();
    }
    (h, noise)
}
/// Each site to 30 less it.
pub fn reversed() -> HashMap<usize, usize> {
    (0..31).map(|i| (i, 30 - i)).collect()
}
