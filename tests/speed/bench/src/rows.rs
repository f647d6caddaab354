//! Rows of open systems and of Hamiltonians.
use crate::inputs::system;
use crate::ours::*;
use crate::timing::{rounds, Lines};
use driver::random::Random;
use std::hint::black_box;
use struqture::prelude::*;
use struqture::spins::*;

pub struct System {
    n: usize,
    system: PauliLindbladOpenSystem,
    rows: Vec<usize>,
}
impl System {
    pub fn new(r: &mut Random, n: usize, terms: usize, most: usize) -> Self {
        let (h, noise) = system(r, n, terms, most);
        let rows = (0..16).map(|_| r.next() as usize & ((1 << (2 * n)) - 1)).collect();
        System { n, system: PauliLindbladOpenSystem::group(h, noise).unwrap(), rows }
    }
    fn flat(&self) -> Flat {
        Flat::default().hamiltonian(self.system.system()).noise(self.system.noise()).rows(self.n, &self.rows)
    }
    pub fn open_row(&self, lines: &Lines, group: &str, name: &str, x: usize) {
        let mut rust = rounds(|i| black_box(&self.system).sparse_matrix_superoperator_entries_on_row(self.rows[i % 16], self.n).unwrap().len());
        lines.line(group, name, x, &mut rust, &Ours::new(timed_system_rows, 0, &self.flat()));
    }
    pub fn exact_row(&self, lines: &Lines, name: &str) {
        lines.ours_alone("exact row", name, 0, &Ours::new(timed_system_rows, 1, &self.flat()));
    }
    pub fn operator_row(&self, lines: &Lines, name: &str) {
        let h = self.system.system();
        let rows: Vec<_> = self.rows.iter().map(|row| row & ((1 << self.n) - 1)).collect();
        let mut rust = rounds(|i| black_box(h).sparse_matrix_entries_on_row(rows[i % 16]).unwrap().len());
        let flat = Flat::default().hamiltonian(h).rows(self.n, &rows);
        lines.line("operator row", name, 0, &mut rust, &Ours::new(timed_hamiltonian_rows, 0, &flat));
    }
}
