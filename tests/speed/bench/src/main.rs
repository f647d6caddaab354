//! speed [FILTER [TRIALS]]
//! Times the Rust and the proved library on the same inputs in one process. One line of output for each case whose text
//! `group,name,x` contains FILTER: group, name, x (what grows), nanoseconds a call of the Rust, of ours; the least of TRIALS (25).
mod inputs;
mod operators;
mod ours;
mod products;
mod rows;
mod sets;
mod timing;
use driver::random::Random;
use operators::{group_line, noise_remap_line, pair_lines, single_lines};
use products::Products;
use rows::System;
use sets::set_lines;
use struqture::spins::*;
use timing::Lines;

fn row_cases(r: &mut Random, lines: &Lines) {
    for (n, terms, most) in [(31, 64, 31), (31, 64, 2), (6, 64, 6), (6, 64, 2), (1, 1, 1)] {
        let name = format!("n = {n}; {terms} + {terms} terms; 1 to {most} sites");
        let system = System::new(r, n, terms, most);
        system.open_row(lines, "open-system row", &name, 0);
        system.exact_row(lines, &name);
        system.operator_row(lines, &name);
    }
}

fn product_cases(r: &mut Random, lines: &Lines) {
    for k in [2, 8, 31] {
        let products = Products::new(r, k);
        products.multiply(lines, "product times product");
        products.set_pauli(lines);
        products.remap(lines);
    }
    for k in [2, 8, 15] {
        Products::disjoint(r, k).concatenate(lines);
    }
}

fn set_cases(r: &mut Random, lines: &Lines) {
    for k in [2, 15] {
        set_lines::<PauliHamiltonian>(r, lines, k);
        set_lines::<PauliOperator>(r, lines, k);
        set_lines::<DecoherenceOperator>(r, lines, k);
        set_lines::<PauliLindbladNoiseOperator>(r, lines, k);
    }
    for k in [2, 15] {
        pair_lines(r, lines, k);
        single_lines(r, lines, k);
        noise_remap_line(r, lines, k);
    }
    for terms in [1, 64] {
        group_line(r, lines, terms);
    }
}

fn growth(r: &mut Random, lines: &Lines) {
    for terms in [1, 2, 4, 8, 16, 32, 64] {
        System::new(r, 31, terms, 31).open_row(lines, "growth with terms", "1 to 31 sites; n = 31", terms);
        System::new(r, 31, terms, 2).open_row(lines, "growth with terms", "1 to 2 sites; n = 31", terms);
    }
    for most in [1, 2, 4, 8, 16, 31] {
        System::new(r, 31, 32, most).open_row(lines, "growth with sites", "32 + 32 terms; n = 31", most);
    }
    for n in [3, 4, 6, 8, 12, 16, 24, 31] {
        System::new(r, n, 32, 3).open_row(lines, "growth with n", "32 + 32 terms; 1 to 3 sites", n);
    }
    for k in [1, 2, 4, 8, 16, 31] {
        Products::new(r, k).multiply(lines, "growth of products");
    }
}

fn main() {
    let mut words = std::env::args().skip(1);
    let filter = words.next().unwrap_or_default();
    let trials = words.next().map_or(25, |word| word.parse().expect("TRIALS is a number"));
    let lines = Lines { filter, trials };
    let mut r = Random::new(1976);
    row_cases(&mut r, &lines);
    product_cases(&mut r, &lines);
    set_cases(&mut r, &lines);
    growth(&mut r, &lines);
}
