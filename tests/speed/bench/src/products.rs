//! Calls on products: 64 pairs with k sites on each side.
use crate::inputs::{letters, made, reversed, sites};
use crate::ours::*;
use crate::timing::{rounds, Lines};
use driver::random::Random;
use std::hint::black_box;
use struqture::prelude::*;
use struqture::spins::*;

pub struct Products {
    k: usize,
    paulis: Vec<(PauliProduct, PauliProduct)>,
    decoherences: Vec<Pair>,
}
impl Products {
    fn of(k: usize, mut pair: impl FnMut() -> (Vec<(usize, u8)>, Vec<(usize, u8)>)) -> Self {
        let pairs: Vec<_> = (0..64).map(|_| pair()).collect();
        let paulis = pairs.iter().map(|(a, b)| (made(a), made(b))).collect();
        let decoherences = pairs.iter().map(|(a, b)| (made(a), made(b))).collect();
        Products { k, paulis, decoherences }
    }
    pub fn new(r: &mut Random, k: usize) -> Self {
        let mut side = || {
            let sites = sites(r, 31, k);
            letters(r, &sites)
        };
        Products::of(k, || (side(), side()))
    }
    /// The sides of a pair share no site.
    pub fn disjoint(r: &mut Random, k: usize) -> Self {
        Products::of(k, || {
            let sites = sites(r, 31, 2 * k);
            (letters(r, &sites[..k]), letters(r, &sites[k..]))
        })
    }
    fn ours(&self, which: u8) -> Ours {
        let flat = Flat::default().pairs(self.decoherences.iter().map(|pair| (pair, (1.0, 0.0)))).targets();
        Ours::new(timed_products, which, &flat)
    }
    pub fn multiply(&self, lines: &Lines, group: &str) {
        let mut rust = rounds(|i| {
            let (a, b) = black_box(&self.paulis[i % 64]);
            black_box(PauliProduct::multiply(a.clone(), b.clone())).0.len()
        });
        lines.line(group, "Pauli", self.k, &mut rust, &self.ours(0));
        let mut rust = rounds(|i| {
            let (a, b) = black_box(&self.decoherences[i % 64]);
            black_box(DecoherenceProduct::multiply(a.clone(), b.clone())).0.len()
        });
        lines.line(group, "decoherence", self.k, &mut rust, &self.ours(1));
    }
    pub fn concatenate(&self, lines: &Lines) {
        let mut rust = rounds(|i| {
            let (a, b) = black_box(&self.paulis[i % 64]);
            black_box(a.concatenate(b.clone()).unwrap()).len()
        });
        lines.line("concatenate", "Pauli products without a common site", self.k, &mut rust, &self.ours(2));
    }
    pub fn set_pauli(&self, lines: &Lines) {
        let mut rust = rounds(|i| {
            let (a, _) = black_box(&self.paulis[i % 64]);
            black_box(a.clone().set_pauli(i % 31, SinglePauliOperator::Z)).len()
        });
        lines.line("set_pauli", "each site in turn", self.k, &mut rust, &self.ours(3));
    }
    pub fn remap(&self, lines: &Lines) {
        let map = reversed();
        let mut rust = rounds(|i| {
            let (a, _) = black_box(&self.paulis[i % 64]);
            black_box(a.remap_qubits(&map)).len()
        });
        lines.line("remap_qubits", "Pauli product", self.k, &mut rust, &self.ours(4));
    }
}
