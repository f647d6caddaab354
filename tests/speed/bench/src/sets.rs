//! `get`, `set` and `add_operator_product` of each kind of set.
use crate::inputs::{different, product};
use crate::ours::*;
use crate::timing::{rounds, Lines};
use driver::random::Random;
use qoqo_calculator::{CalculatorComplex, CalculatorFloat};
use std::hint::black_box;
use struqture::prelude::*;
use struqture::spins::*;

/// A set of terms: what is timed of it in the Rust, and our call.
pub trait Terms: Clone {
    type Key: Clone + PartialEq;
    const NAME: &'static str;
    fn empty() -> Self;
    fn size(&self) -> usize;
    fn read(&self, key: &Self::Key);
    fn put(&mut self, key: Self::Key);
    fn add(&mut self, key: Self::Key);
    /// A key with k sites on each side.
    fn key(r: &mut Random, k: usize) -> Self::Key;
    fn flat(flat: Flat, keys: &[Self::Key]) -> Flat;
    fn ours(which: u8, input: &Flat) -> Ours;
}
macro_rules! terms {
    ($set:ty, $key:ty, $name:expr, $value:expr, $random:expr, $write:ident, $call:ident) => {
        impl Terms for $set {
            type Key = $key;
            const NAME: &'static str = $name;
            fn empty() -> Self {
                <$set>::new()
            }
            fn size(&self) -> usize {
                self.len()
            }
            fn read(&self, key: &$key) {
                black_box(self.get(key));
            }
            fn put(&mut self, key: $key) {
                black_box(self.set(key, $value).unwrap());
            }
            fn add(&mut self, key: $key) {
                self.add_operator_product(key, $value).unwrap();
            }
            fn key(r: &mut Random, k: usize) -> $key {
                $random(r, k)
            }
            fn flat(flat: Flat, keys: &[$key]) -> Flat {
                flat.$write(keys.iter().map(|key| (key, (1.5, 0.0))))
            }
            fn ours(which: u8, input: &Flat) -> Ours {
                Ours::new($call, which, input)
            }
        }
    };
}
fn one<K: driver::Kind>(r: &mut Random, k: usize) -> K {
    product(r, 31, k)
}
fn two(r: &mut Random, k: usize) -> Pair {
    (one(r, k), one(r, k))
}
fn number() -> CalculatorComplex {
    CalculatorComplex::new(2.5, 0.5)
}
terms!(PauliHamiltonian, PauliProduct, "Hamiltonian", CalculatorFloat::from(2.5), one, terms, timed_hamiltonian_terms);
terms!(PauliOperator, PauliProduct, "Pauli operator", number(), one, terms, timed_pauli_terms);
terms!(DecoherenceOperator, DecoherenceProduct, "decoherence operator", number(), one, terms, timed_decoherence_terms);
terms!(PauliLindbladNoiseOperator, Pair, "noise operator", number(), two, pairs, timed_noise_terms);

/// The calls on a set, with 64 keys of k sites.
pub fn set_lines<S: Terms>(r: &mut Random, lines: &Lines, k: usize) {
    let keys = different(64, || S::key(r, k));
    let mut full = S::empty();
    keys.iter().for_each(|key| full.put(key.clone()));
    let new = S::flat(S::flat(Flat::default(), &[]), &keys);
    let held = S::flat(S::flat(Flat::default(), &keys), &keys);
    let line = |group, input, flat, which, rust: &mut dyn FnMut(u64) -> u64| {
        lines.line(group, &format!("{}; {input}", S::NAME), k, rust, &S::ours(which, flat));
    };
    line("get", "one of 64", &held, 0, &mut rounds(|i| {
        black_box(&full).read(&keys[i % 64]);
        1 + full.size()
    }));
    let mut set = S::empty();
    line("set", "new keys", &new, 1, &mut rounds(|i| {
        if i % 64 == 0 {
            set = S::empty();
        }
        set.put(keys[i % 64].clone());
        set.size()
    }));
    let mut set = full.clone();
    line("set", "replacing one of 64", &held, 1, &mut rounds(|i| {
        set.put(keys[i % 64].clone());
        set.size()
    }));
    let mut set = full.clone();
    line("add_operator_product", "to one of 64", &held, 2, &mut rounds(|i| {
        set.add(keys[i % 64].clone());
        set.size()
    }));
}
