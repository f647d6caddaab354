//! The text forms of products, numbers, terms and rows.
//! A product is written 0X2Z (Y means iY in a decoherence product), the empty one I; a number as the 16 hex
//! digits of its bits; a term KEY:RE:IM, terms joined by commas, none as -; a noise key LEFT/RIGHT; a row's
//! entry COLUMN:RE:IM, entries by ascending column.
use num_complex::Complex64;
use qoqo_calculator::{CalculatorComplex, CalculatorFloat};
use std::collections::HashMap;
use struqture::prelude::*;
use struqture::spins::*;
use struqture::StruqtureError;

pub fn pl(code: u8) -> SinglePauliOperator {
    use SinglePauliOperator as S;
    [S::Identity, S::X, S::Y, S::Z][code as usize]
}
pub fn dl(code: u8) -> SingleDecoherenceOperator {
    use SingleDecoherenceOperator as S;
    [S::Identity, S::X, S::IY, S::Z][code as usize]
}

pub fn read_items(text: &str) -> Vec<(usize, u8)> {
    let mut items = vec![];
    let mut site = String::new();
    for c in text.chars().filter(|c| *c != 'I') {
        match "XYZ".find(c) {
            Some(place) => items.push((std::mem::take(&mut site).parse().unwrap(), place as u8 + 1)),
            None => site.push(c),
        }
    }
    items
}
pub fn show_items(items: impl IntoIterator<Item = (usize, u8)>) -> String {
    let text: String = items.into_iter().map(|(site, code)| format!("{site}{}", [' ', 'X', 'Y', 'Z'][code as usize])).collect();
    if text.is_empty() { "I".into() } else { text }
}

/// Both kinds of product by letter codes.
pub trait Kind: SpinIndex + Ord {
    fn letter(code: u8) -> Self::SingleSpinType;
    fn code(letter: Self::SingleSpinType) -> u8;
    fn read(text: &str) -> Self {
        read_items(text).into_iter().fold(Self::new(), |p, (site, code)| p.set_pauli(site, Self::letter(code)))
    }
    fn show(&self) -> String {
        show_items(self.iter().map(|(site, letter)| (*site, Self::code(*letter))))
    }
}
impl Kind for PauliProduct {
    fn letter(code: u8) -> SinglePauliOperator {
        pl(code)
    }
    fn code(letter: SinglePauliOperator) -> u8 {
        letter as u8
    }
}
impl Kind for DecoherenceProduct {
    fn letter(code: u8) -> SingleDecoherenceOperator {
        dl(code)
    }
    fn code(letter: SingleDecoherenceOperator) -> u8 {
        letter as u8
    }
}

pub fn read_number(text: &str) -> f64 {
    f64::from_bits(u64::from_str_radix(text, 16).unwrap())
}
pub fn show_number(x: f64) -> String {
    format!("{:016x}", x.to_bits())
}
pub fn read_complex(re: &str, im: &str) -> CalculatorComplex {
    CalculatorComplex::new(read_number(re), read_number(im))
}
pub fn show_complex(x: Complex64) -> String {
    format!("{}:{}", show_number(x.re), show_number(x.im))
}
pub fn or_dash(parts: Vec<String>, joint: &str) -> String {
    if parts.is_empty() { "-".into() } else { parts.join(joint) }
}

/// The four sets under one roof: keys and coefficients as text.
pub trait Terms: Default {
    type Key;
    fn key(text: &str) -> Self::Key;
    fn put(&mut self, key: Self::Key, re: &str, im: &str) -> Result<String, StruqtureError>;
    fn add(&mut self, key: Self::Key, re: &str, im: &str) -> Result<(), StruqtureError>;
    fn look(&self, key: Self::Key) -> String;
    fn show(&self) -> String;
    /// Built by `set`, in the order written.
    fn read(text: &str) -> Self {
        let mut set = Self::default();
        for term in text.split(',').filter(|t| *t != "-") {
            let part: Vec<&str> = term.split(':').collect();
            set.put(Self::key(part[0]), part[1], part[2]).unwrap();
        }
        set
    }
}
macro_rules! terms {
    ($set:ty, $key:ty, $read_key:expr, $show_key:expr, $read:expr, $show:expr) => {
        impl Terms for $set {
            type Key = $key;
            fn key(text: &str) -> $key {
                $read_key(text)
            }
            fn put(&mut self, key: $key, re: &str, im: &str) -> Result<String, StruqtureError> {
                Ok(self.set(key, $read(re, im))?.map_or("free".into(), |old| $show(&old)))
            }
            fn add(&mut self, key: $key, re: &str, im: &str) -> Result<(), StruqtureError> {
                self.add_operator_product(key, $read(re, im))
            }
            fn look(&self, key: $key) -> String {
                $show(self.get(&key))
            }
            fn show(&self) -> String {
                or_dash(self.iter().map(|(key, value)| format!("{}:{}", $show_key(key), $show(value))).collect(), ",")
            }
        }
    };
}
type Pair = (DecoherenceProduct, DecoherenceProduct);
fn read_pair(text: &str) -> Pair {
    let (left, right) = text.split_once('/').unwrap();
    (Kind::read(left), Kind::read(right))
}
fn show_pair(pair: &Pair) -> String {
    format!("{}/{}", pair.0.show(), pair.1.show())
}
fn show_coefficient(x: &CalculatorComplex) -> String {
    show_complex(Complex64::new(*x.re.float().unwrap(), *x.im.float().unwrap()))
}
fn read_real(re: &str, _: &str) -> CalculatorFloat {
    CalculatorFloat::from(read_number(re))
}
fn show_real(x: &CalculatorFloat) -> String {
    show_complex(Complex64::new(*x.float().unwrap(), 0.0))
}
terms!(PauliOperator, PauliProduct, Kind::read, Kind::show, read_complex, show_coefficient);
terms!(PauliHamiltonian, PauliProduct, Kind::read, Kind::show, read_real, show_real);
terms!(DecoherenceOperator, DecoherenceProduct, Kind::read, Kind::show, read_complex, show_coefficient);
terms!(PauliLindbladNoiseOperator, Pair, read_pair, show_pair, read_complex, show_coefficient);

pub fn show_refusal(error: StruqtureError) -> String {
    match error {
        StruqtureError::ProductIndexAlreadyOccupied { index } => format!("no3@{index}"),
        StruqtureError::InvalidLindbladTerms => "no4".into(),
        other => panic!("{other:?}"),
    }
}
pub fn show_row(row: Result<HashMap<usize, Complex64>, StruqtureError>) -> String {
    let mut entries: Vec<_> = row.unwrap().into_iter().collect();
    entries.sort_by_key(|entry| entry.0);
    or_dash(entries.into_iter().map(|(column, x)| format!("{column}:{}", show_complex(x))).collect(), ",")
}
/// 31 targets, joined by commas; spin number i goes to the i-th.
pub fn read_targets(text: &str) -> HashMap<usize, usize> {
    text.split(',').enumerate().map(|(spin, target)| (spin, target.parse().unwrap())).collect()
}
