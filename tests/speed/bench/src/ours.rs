//! The proved calls, and their inputs in the flat form of tests/oracle.
use driver::Kind;
use struqture::prelude::*;
use struqture::spins::*;

type Call = unsafe extern "C" fn(*const u8, usize, u64) -> u64;
macro_rules! calls {
    ($($name:ident)*) => {
        extern "C" {
            $(pub fn $name(input: *const u8, length: usize, rounds: u64) -> u64;)*
        }
    };
}
calls! {
    timed_products
    timed_hamiltonian_terms timed_hamiltonians timed_hamiltonian_pairs
    timed_pauli_terms timed_decoherence_terms timed_operators timed_operator_pairs
    timed_noise_terms timed_noise
    timed_system_rows timed_hamiltonian_rows
}

/// A call on an input, which begins with 16 bytes that say which of the function's calls it is.
pub struct Ours {
    function: Call,
    input: Vec<u8>,
}
impl Ours {
    pub fn new(function: Call, which: u8, input: &Flat) -> Self {
        Ours { function, input: [&[which; 16], &input.0[..]].concat() }
    }
    pub fn call(&self, rounds: u64) -> u64 {
        unsafe { (self.function)(self.input.as_ptr(), self.input.len(), rounds) }
    }
}

/// Bytes in the flat form.
#[derive(Default, Clone)]
pub struct Flat(Vec<u8>);
impl Flat {
    pub fn product<K: Kind>(&mut self, p: &K) {
        self.0.push(p.iter().count() as u8);
        for (site, letter) in p.iter() {
            self.0.extend([*site as u8, K::code(*letter)]);
        }
    }
    fn number(&mut self, (re, im): (f64, f64)) {
        self.0.extend(re.to_bits().to_le_bytes());
        self.0.extend(im.to_bits().to_le_bytes());
    }
    pub fn terms<'a, K: Kind + 'a>(mut self, terms: impl ExactSizeIterator<Item = (&'a K, (f64, f64))>) -> Self {
        self.0.push(terms.len() as u8);
        for (key, value) in terms {
            self.product(key);
            self.number(value);
        }
        self
    }
    pub fn pairs<'a>(mut self, pairs: impl ExactSizeIterator<Item = (&'a Pair, (f64, f64))>) -> Self {
        self.0.push(pairs.len() as u8);
        for ((left, right), value) in pairs {
            self.product(left);
            self.product(right);
            self.number(value);
        }
        self
    }
    pub fn hamiltonian(self, h: &PauliHamiltonian) -> Self {
        self.terms(h.iter().map(|(key, value)| (key, (*value.float().unwrap(), 0.0))))
    }
    pub fn noise(self, noise: &PauliLindbladNoiseOperator) -> Self {
        self.pairs(noise.iter().map(|(key, value)| (key, (*value.re.float().unwrap(), *value.im.float().unwrap()))))
    }
    /// Each site to 30 less it.
    pub fn targets(mut self) -> Self {
        self.0.extend((0..31).rev());
        self
    }
    pub fn rows(mut self, spins: usize, rows: &[usize]) -> Self {
        self.0.push(spins as u8);
        for row in rows {
            self.0.extend((*row as u64).to_le_bytes());
        }
        self
    }
}
pub type Pair = (DecoherenceProduct, DecoherenceProduct);
