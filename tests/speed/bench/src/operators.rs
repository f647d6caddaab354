//! Calls on whole operators, Hamiltonians and noise operators; all coefficients the same.
use crate::inputs::{different, product, reversed, system};
use crate::ours::*;
use crate::timing::{rounds, Lines};
use driver::random::Random;
use driver::Kind;
use qoqo_calculator::{CalculatorComplex, CalculatorFloat};
use std::hint::black_box;
use struqture::prelude::*;
use struqture::spins::*;

fn number() -> CalculatorComplex {
    CalculatorComplex::new(1.5, 0.5)
}
/// Products on k sites.
fn keys<K: Kind>(r: &mut Random, count: usize, k: usize) -> Vec<K> {
    different(count, || product(r, 31, k))
}
fn operator(keys: &[PauliProduct]) -> PauliOperator {
    keys.iter().map(|key| (key.clone(), number())).collect()
}
fn decoherence(keys: &[DecoherenceProduct]) -> DecoherenceOperator {
    keys.iter().map(|key| (key.clone(), number())).collect()
}
fn hamiltonian(keys: &[PauliProduct]) -> PauliHamiltonian {
    keys.iter().map(|key| (key.clone(), CalculatorFloat::from(1.5))).collect()
}
fn flat<K: Kind>(sets: &[&[K]], im: f64) -> Flat {
    sets.iter().fold(Flat::default(), |flat, keys| flat.terms(keys.iter().map(|key| (key, (1.5, im)))))
}

/// Products of sets with 8 terms each, on k sites.
pub fn pair_lines(r: &mut Random, lines: &Lines, k: usize) {
    let name = "8 by 8 terms";
    let (p, q) = (keys(r, 8, k), keys(r, 8, k));
    let (a, b) = (operator(&p), operator(&q));
    let mut rust = rounds(|_| black_box(black_box(&a).clone() * b.clone()).len());
    lines.line("operator times operator", name, k, &mut rust, &Ours::new(timed_operator_pairs, 0, &flat(&[&p, &q], 0.5)));
    let (a, b) = (hamiltonian(&p), hamiltonian(&q));
    let mut rust = rounds(|_| black_box(black_box(&a).clone() * b.clone()).len());
    lines.line("Hamiltonian times Hamiltonian", name, k, &mut rust, &Ours::new(timed_hamiltonian_pairs, 0, &flat(&[&p, &q], 0.0)));
    let (p, q) = (keys(r, 8, k), keys(r, 8, k));
    let (a, b) = (decoherence(&p), decoherence(&q));
    let mut rust = rounds(|_| {
        let mut noise = PauliLindbladNoiseOperator::new();
        noise.add_noise_from_full_operators(black_box(&a), &b, number()).unwrap();
        black_box(noise).len()
    });
    lines.line("add_noise_from_full_operators", name, k, &mut rust, &Ours::new(timed_operator_pairs, 1, &flat(&[&p, &q], 0.5)));
}

/// Conjugation and conversion of sets with 64 terms on k sites.
pub fn single_lines(r: &mut Random, lines: &Lines, k: usize) {
    let p = keys(r, 64, k);
    let a = operator(&p);
    let ours = |which| Ours::new(timed_operators, which, &flat(&[&p], 0.5));
    let mut rust = rounds(|_| black_box(black_box(&a).hermitian_conjugate()).len());
    lines.line("hermitian_conjugate", "Pauli operator; 64 terms", k, &mut rust, &ours(0));
    let mut rust = rounds(|_| black_box(DecoherenceOperator::from(black_box(&a).clone())).len());
    lines.line("conversion", "Pauli operator to decoherence operator; 64 terms", k, &mut rust, &ours(2));
    let h = hamiltonian(&p);
    let ours = |which| Ours::new(timed_hamiltonians, which, &flat(&[&p], 0.0));
    let mut rust = rounds(|_| black_box(PauliOperator::from(black_box(&h).clone())).len());
    lines.line("conversion", "Hamiltonian to Pauli operator; 64 terms", k, &mut rust, &ours(0));
    let mut rust = rounds(|_| black_box(black_box(&h).hermitian_conjugate()).len());
    lines.line("hermitian_conjugate", "Hamiltonian; 64 terms", k, &mut rust, &ours(1));
    let p = keys(r, 64, k);
    let a = decoherence(&p);
    let mut rust = rounds(|_| black_box(black_box(&a).hermitian_conjugate()).len());
    lines.line("hermitian_conjugate", "decoherence operator; 64 terms", k, &mut rust, &Ours::new(timed_operators, 1, &flat(&[&p], 0.5)));
}

/// Grouping terms of one or two sites with as many pairs.
pub fn group_line(r: &mut Random, lines: &Lines, terms: usize) {
    let (h, noise) = system(r, 31, terms, 2);
    let mut rust = rounds(|_| black_box(PauliLindbladOpenSystem::group(black_box(&h).clone(), noise.clone()).unwrap()).noise().len());
    let flat = Flat::default().hamiltonian(&h).noise(&noise).targets();
    lines.line("group", &format!("{terms} + {terms} terms; 1 to 2 sites"), 0, &mut rust, &Ours::new(timed_noise, 0, &flat));
}

/// Remapping noise with 64 pairs on k sites.
pub fn noise_remap_line(r: &mut Random, lines: &Lines, k: usize) {
    let mut noise = PauliLindbladNoiseOperator::new();
    while noise.len() < 64 {
        noise.set((product(r, 31, k), product(r, 31, k)), number()).unwrap();
    }
    let map = reversed();
    let mut rust = rounds(|_| black_box(black_box(&noise).remap_qubits(&map)).len());
    let flat = Flat::default().hamiltonian(&PauliHamiltonian::new()).noise(&noise).targets();
    lines.line("remap_qubits", "noise operator; 64 pairs", k, &mut rust, &Ours::new(timed_noise, 1, &flat));
}
