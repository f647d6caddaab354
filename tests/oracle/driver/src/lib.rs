//! One question, one answer, asked of the original Rust. Words are separated by blanks; `text` has their forms.
pub mod cases;
pub mod questions;
pub mod random;
mod text;
pub use text::*;

use struqture::prelude::*;
use struqture::spins::*;

fn product<K: Kind>(w: &[&str]) -> String {
    let a = K::read(w[1]);
    match w[0] {
        "set" => a.set_pauli(w[2].parse().unwrap(), K::letter(w[3].parse().unwrap())).show(),
        "get" => a.get(&w[2].parse().unwrap()).map_or(0, |letter| K::code(*letter)).to_string(),
        "mul" => {
            let (p, factor) = K::multiply(a, K::read(w[2]));
            format!("{} {}", p.show(), show_complex(factor))
        }
        "cat" => a.concatenate(K::read(w[2])).map_or_else(show_refusal, |p| p.show()),
        "cmp" => (a.cmp(&K::read(w[2])) as i8).to_string(),
        "conj" => {
            let (p, sign) = a.hermitian_conjugate();
            format!("{} {}", p.show(), show_number(sign))
        }
        "remap" => a.remap_qubits(&read_targets(w[2])).show(),
        _ => panic!("no such question"),
    }
}

fn pauli_letter(w: &[&str]) -> String {
    let code = |i: usize| pl(w[i].parse().unwrap());
    match w[0] {
        "mul" => {
            let (letter, factor) = SinglePauliOperator::multiply(code(1), code(2));
            format!("{} {}", letter as u8, show_complex(factor))
        }
        "toD" => {
            let (letter, factor) = SingleDecoherenceOperator::spin_to_decoherence(code(1));
            format!("{} {}", letter as u8, show_complex(factor))
        }
        _ => panic!("no such question"),
    }
}
fn decoherence_letter(w: &[&str]) -> String {
    let code = |i: usize| dl(w[i].parse().unwrap());
    match w[0] {
        "mul" => {
            let (letter, sign) = SingleDecoherenceOperator::multiply(code(1), code(2));
            format!("{} {}", letter as u8, show_number(sign))
        }
        "conj" => {
            let (letter, sign) = code(1).hermitian_conjugate();
            format!("{} {}", letter as u8, show_number(sign))
        }
        "toP" => {
            let (letter, factor) = SingleDecoherenceOperator::decoherence_to_spin(code(1));
            format!("{} {}", letter as u8, show_complex(factor))
        }
        _ => panic!("no such question"),
    }
}

/// VERB KEY RE IM on one set.
fn call<T: Terms>(set: &mut T, w: &[&str]) -> String {
    let key = T::key(w[1]);
    match w[0] {
        "set" => set.put(key, w[2], w[3]).unwrap_or_else(show_refusal),
        "add" => set.add(key, w[2], w[3]).map_or_else(show_refusal, |_| "ok".into()),
        "get" => set.look(key),
        _ => panic!("no such call"),
    }
}
/// Calls joined by semicolons, their parts by bars.
fn split(calls: &str) -> impl Iterator<Item = Vec<&str>> {
    calls.split(';').map(|c| c.split('|').collect())
}
/// The answers of all calls, then the terms.
fn calls_on<T: Terms>(mut set: T, calls: &str) -> String {
    let answers = split(calls).map(|w| call(&mut set, &w)).collect();
    format!("{} {}", or_dash(answers, ";"), set.show())
}
/// H or N before a call; F LEFT RIGHT RE IM adds noise from full operators.
fn listed(ham: &mut PauliHamiltonian, noise: &mut PauliLindbladNoiseOperator, w: &[&str]) -> String {
    match w[0] {
        "H" => call(ham, &w[1..]),
        "N" => call(noise, &w[1..]),
        "F" => {
            let (left, right) = (DecoherenceOperator::read(w[1]), DecoherenceOperator::read(w[2]));
            let done = noise.add_noise_from_full_operators(&left, &right, read_complex(w[3], w[4]));
            done.map_or_else(show_refusal, |_| "ok".into())
        }
        _ => panic!("no such call"),
    }
}

pub fn answer(question: &str) -> String {
    let w: Vec<&str> = question.split_whitespace().collect();
    match w[0] {
        "P" => product::<PauliProduct>(&w[1..]),
        "D" => product::<DecoherenceProduct>(&w[1..]),
        "P1" => pauli_letter(&w[1..]),
        "D1" => decoherence_letter(&w[1..]),
        "toP" => {
            let (p, factor) = DecoherenceProduct::decoherence_to_spin(Kind::read(w[1]));
            format!("{} {}", p.show(), show_complex(factor))
        }
        "toD" => {
            let (p, factor) = DecoherenceProduct::spin_to_decoherence(Kind::read(w[1]));
            format!("{} {}", p.show(), show_complex(factor))
        }
        name if name.contains("row") => row(&w),
        _ => set(&w),
    }
}

fn set(w: &[&str]) -> String {
    // an operator times a number, the only one that may hold zeros
    let scaled = || PauliOperator::read(w[1]) * read_complex(w[2], w[3]);
    match w[0] {
        "opsP" => calls_on(PauliOperator::default(), w[1]),
        "opsH" => calls_on(PauliHamiltonian::default(), w[1]),
        "opsD" => calls_on(DecoherenceOperator::default(), w[1]),
        "opsN" => calls_on(PauliLindbladNoiseOperator::default(), w[1]),
        "mulP" => (PauliOperator::read(w[1]) * PauliOperator::read(w[2])).show(),
        "mulH" => (PauliHamiltonian::read(w[1]) * PauliHamiltonian::read(w[2])).show(),
        "mulD" => (DecoherenceOperator::read(w[1]) * DecoherenceOperator::read(w[2])).show(),
        "conjP" => PauliOperator::read(w[1]).hermitian_conjugate().show(),
        "conjH" => PauliHamiltonian::read(w[1]).hermitian_conjugate().show(),
        "conjD" => DecoherenceOperator::read(w[1]).hermitian_conjugate().show(),
        "PtoD" => DecoherenceOperator::from(PauliOperator::read(w[1])).show(),
        "HtoP" => PauliOperator::from(PauliHamiltonian::read(w[1])).show(),
        "remapN" => PauliLindbladNoiseOperator::read(w[1]).remap_qubits(&read_targets(w[2])).show(),
        "scaleP" => scaled().show(),
        "zopsP" => calls_on(scaled(), w[4]),
        "zmulP" => (scaled() * PauliOperator::read(w[4])).show(),
        "zconjP" => scaled().hermitian_conjugate().show(),
        "zPtoD" => DecoherenceOperator::from(scaled()).show(),
        // the answers, both sets, one row of the grouped system
        "list" => {
            let (mut ham, mut noise) = (PauliHamiltonian::new(), PauliLindbladNoiseOperator::new());
            let answers: Vec<String> = split(w[1]).map(|c| listed(&mut ham, &mut noise, &c)).collect();
            let held = format!("{} {} {}", answers.join(";"), ham.show(), noise.show());
            let system = PauliLindbladOpenSystem::group(ham, noise).unwrap();
            format!("{held} {}", superoperator_row(&system, w[2], w[3]))
        }
        _ => panic!("no such question"),
    }
}

fn superoperator_row<'a>(of: &'a impl ToSparseMatrixSuperOperator<'a>, n: &str, row: &str) -> String {
    let (n, row) = (n.parse().unwrap(), row.parse().unwrap());
    show_row(ToSparseMatrixSuperOperator::sparse_matrix_superoperator_entries_on_row(of, row, n))
}
fn row(w: &[&str]) -> String {
    let int = |i: usize| -> usize { w[i].parse().unwrap() };
    let scaled = || PauliOperator::read(w[1]) * read_complex(w[4], w[5]);
    match w[0] {
        // private in the Rust, so read out of the whole matrix
        "prow" => {
            let (values, (rows, columns)) = DecoherenceProduct::read(w[1]).to_coo(int(2)).unwrap();
            assert_eq!(rows[int(3)], int(3));
            format!("{}:{}", columns[int(3)], show_complex(values[int(3)]))
        }
        "orowP" => show_row(PauliOperator::read(w[1]).sparse_matrix_entries_on_row(int(3))),
        "orowH" => show_row(PauliHamiltonian::read(w[1]).sparse_matrix_entries_on_row(int(3))),
        "sorowP" => show_row(scaled().sparse_matrix_entries_on_row(int(3))),
        "crowP" => superoperator_row(&PauliOperator::read(w[1]), w[2], w[3]),
        "crowH" => superoperator_row(&PauliHamiltonian::read(w[1]), w[2], w[3]),
        "scrowP" => superoperator_row(&scaled(), w[2], w[3]),
        "nrow" => superoperator_row(&PauliLindbladNoiseOperator::read(w[1]), w[2], w[3]),
        "row" => {
            let system = PauliLindbladOpenSystem::group(Terms::read(w[1]), Terms::read(w[2])).unwrap();
            superoperator_row(&system, w[3], w[4])
        }
        _ => panic!("no such question"),
    }
}
