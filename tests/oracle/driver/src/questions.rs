//! Random questions inside document 01's limits: sites to 30, at most 64 terms at every step, coefficients given
//! or held within 2^300, terms below n in rows. So none of them may be refused but under numbers 3 and 4.
use crate::random::Part::{Complex, Real};
use crate::random::{Part, Random};
use crate::show_number;

/// How often each question is asked in one round.
const MIX: [(&str, usize); 49] = [
    ("P set", 2), ("P get", 1), ("P mul", 4), ("P cat", 3), ("P cmp", 4), ("P conj", 1), ("P remap", 2),
    ("D set", 2), ("D get", 1), ("D mul", 4), ("D cat", 3), ("D cmp", 4), ("D conj", 2), ("D remap", 2),
    ("P1 mul", 1), ("P1 toD", 1), ("D1 mul", 1), ("D1 conj", 1), ("D1 toP", 1),
    ("toP", 2), ("toD", 2), ("prow", 4), ("opsP", 4), ("opsH", 4), ("opsD", 4), ("opsN", 4),
    ("mulP", 3), ("mulH", 3), ("mulD", 3), ("scaleP", 2), ("zopsP", 3), ("zmulP", 2), ("zconjP", 1), ("zPtoD", 1),
    ("conjP", 2), ("conjH", 1), ("conjD", 2), ("PtoD", 2), ("HtoP", 2), ("remapN", 3),
    ("orowP", 4), ("orowH", 4), ("sorowP", 2), ("crowP", 4), ("crowH", 4), ("scrowP", 2), ("nrow", 6), ("row", 8), ("list", 8),
];
/// The names of one round, each as often as `MIX` says.
pub fn round() -> Vec<&'static str> {
    MIX.iter().flat_map(|(name, times)| std::iter::repeat(*name).take(*times)).collect()
}

// Sizes 2^k of coefficients such that what is held at the end stays within 2^300: sums of coefficients,
// of products of two, of products of three.
const SUMS: i32 = 290;
const PRODUCTS: i32 = 140;
const TRIPLES: i32 = 90;

impl Random {
    /// The question with random arguments.
    pub fn question(&mut self, name: &str) -> String {
        self.choose_numbers();
        let arguments = match name.split_once(' ') {
            Some((kind, _)) if kind.ends_with('1') => self.letters(name),
            Some((_, call)) => self.products(call),
            None if name.contains("row") => self.rows(name),
            None => self.sets(name),
        };
        format!("{name} {arguments}")
    }
    fn letters(&mut self, name: &str) -> String {
        match name.ends_with("mul") {
            true => format!("{} {}", self.below(4), self.below(4)),
            false => self.below(4).to_string(),
        }
    }
    fn products(&mut self, call: &str) -> String {
        let n = self.width();
        let mask = self.next();
        let a = if self.once_in(2) { self.flipping(n, 0, mask) } else { self.product(n, 0) };
        match call {
            "set" => format!("{a} {} {}", self.site(n), self.below(4)),
            "get" => format!("{a} {}", self.site(n)),
            "conj" => a,
            "remap" => format!("{a} {}", self.targets(&a)),
            _ => {
                let b = match self.below(4) {
                    0 => self.near(&a, n),
                    1..=2 if call == "cmp" => self.rival(&a, n),
                    _ => self.product(n, 0),
                };
                format!("{a} {b}")
            }
        }
    }
    fn sets(&mut self, name: &str) -> String {
        let (n, count) = (self.width(), self.count());
        match name {
            "toP" | "toD" => self.product(n, 0),
            "opsP" | "opsD" => self.calls(n, Complex, false),
            "opsH" => self.calls(n, Real, false),
            "opsN" => self.calls(n, Complex, true),
            "mulP" | "mulD" => self.factors(Complex),
            "mulH" => self.factors(Real),
            "conjP" | "conjD" | "PtoD" => self.terms(n, count, Complex, SUMS),
            "conjH" | "HtoP" => self.terms(n, count, Real, SUMS),
            "scaleP" | "zconjP" | "zPtoD" => format!("{} {}", self.terms(n, count, Complex, PRODUCTS), self.factor(TRIPLES)),
            "zopsP" => {
                let a = self.terms(n, count.min(12), Complex, PRODUCTS);
                format!("{a} {} {}", self.factor(TRIPLES), self.calls_on(&a, n))
            }
            "zmulP" => {
                let (a, b) = (self.terms(n, 6, Complex, TRIPLES), self.terms(n, 6, Complex, TRIPLES));
                format!("{a} {} {b}", self.factor(TRIPLES))
            }
            "remapN" => {
                let pairs = if self.once_in(2) { self.keys(n, count, 1, true) } else { self.single_sites(count) };
                let targets = self.targets_of_pairs(&pairs);
                format!("{} {targets}", self.with_coefficients(pairs, Complex, SUMS))
            }
            _ => {
                let n = self.one_of(&[1, 1, 2, 2, 3, 4, 6, 31]);
                format!("{} {n} {}", self.list(n), self.row(2 * n))
            }
        }
    }
    fn rows(&mut self, name: &str) -> String {
        let (n, count) = (self.spins(), self.count());
        match name {
            "prow" => {
                let n = n.min(12);
                format!("{} {n} {}", self.product(n, 0), self.row(n))
            }
            "orowP" => format!("{} {n} {}", self.terms(n, count, Complex, SUMS), self.row(n)),
            "orowH" => format!("{} {n} {}", self.terms(n, count, Real, SUMS), self.row(n)),
            "crowP" => format!("{} {n} {}", self.terms(n, count, Complex, SUMS), self.row(2 * n)),
            "crowH" => format!("{} {n} {}", self.terms(n, count, Real, SUMS), self.row(2 * n)),
            "sorowP" => format!("{} {n} {} {}", self.terms(n, count, Complex, PRODUCTS), self.row(n), self.factor(TRIPLES)),
            "scrowP" => format!("{} {n} {} {}", self.terms(n, count, Complex, PRODUCTS), self.row(2 * n), self.factor(TRIPLES)),
            "nrow" => format!("{} {n} {}", self.noise(n, count, SUMS), self.row(2 * n)),
            _ => {
                let pairs = if count > 12 { 64 } else { self.one_of(&[0, 1, 2, 4, 8, 12]) };
                format!("{} {} {n} {}", self.terms(n, count, Real, SUMS), self.noise(n, pairs, SUMS), self.row(2 * n))
            }
        }
    }

    /// Calls on a set with keys from few, zero coefficients among them; or first the set filled.
    fn calls(&mut self, n: u64, part: Part, pairs: bool) -> String {
        let full = self.once_in(40);
        let many = if full { self.one_of(&[30, 63, 64]) } else { 1 + self.below(5) as usize };
        let least = if pairs && (full || !self.once_in(4)) { 1 } else { 0 };
        let keys = self.keys(n, many, least, pairs);
        let mut calls: Vec<String> = vec![];
        if full {
            calls = keys.iter().map(|key| (key, self.coefficient(part, SUMS))).map(|(key, x)| show_call("set", key, x)).collect();
        }
        for _ in 0..1 + self.below(12) {
            let verb = self.one_of(&["set", "add", "add", "get"]);
            let key = &keys[self.below(keys.len() as u64) as usize];
            let x = match self.below(5) {
                0 => (0.0, if part == Real { 0.0 } else { self.one_of(&[0.0, -0.0]) }),
                _ => self.coefficient(part, SUMS),
            };
            calls.push(show_call(verb, key, x));
        }
        calls.join(";")
    }
    /// Calls on a scaled operator: more often than not on a key that it holds, perhaps with zero.
    fn calls_on(&mut self, terms: &str, n: u64) -> String {
        let held: Vec<&str> = terms.split(',').filter(|t| *t != "-").map(|t| t.split(':').next().unwrap()).collect();
        let calls: Vec<String> = (0..1 + self.below(5))
            .map(|_| {
                let verb = self.one_of(&["set", "add", "get"]);
                let fresh = self.product(n, 0);
                let key = if held.is_empty() || self.once_in(3) { &fresh } else { self.one_of(&held) };
                let x = if self.once_in(2) { (0.0, -0.0) } else { self.coefficient(Complex, TRIPLES) };
                show_call(verb, key, x)
            })
            .collect();
        calls.join(";")
    }
    /// Calls on a Hamiltonian and a noise set. At most 54 pairs are ever held.
    fn list(&mut self, n: u64) -> String {
        let calls: Vec<String> = (0..1 + self.below(6))
            .map(|_| {
                let verb = self.one_of(&["set", "add"]);
                match self.below(3) {
                    0 => {
                        let (key, x) = (self.product(n, 0), self.coefficient(Real, SUMS));
                        format!("H|{}", show_call(verb, &key, x))
                    }
                    1 => {
                        let least = if self.once_in(4) { 0 } else { 1 };
                        let (left, right) = (self.product(n, least), self.product(n, least));
                        format!("N|{}", show_call(verb, &format!("{left}/{right}"), self.coefficient(Complex, SUMS)))
                    }
                    _ => {
                        let (l, r) = (self.one_of(&[0, 1, 2, 3, 3]), self.one_of(&[0, 1, 2, 3, 3]));
                        let (left, right) = (self.terms(n, l, Complex, TRIPLES), self.terms(n, r, Complex, TRIPLES));
                        let (re, im) = self.coefficient(Complex, TRIPLES);
                        format!("F|{left}|{right}|{}|{}", show_number(re), show_number(im))
                    }
                }
            })
            .collect();
        calls.join(";")
    }
    /// Two operators whose product has at most 64 terms: few terms each, or more on at most three spins.
    fn factors(&mut self, part: Part) -> String {
        let (n, most) = if self.once_in(10) { (self.one_of(&[2, 3]), 20) } else { (self.width(), self.one_of(&[2, 4, 6])) };
        let (left, right) = (1 + self.below(most) as usize, self.below(most + 1) as usize);
        format!("{} {}", self.terms(n, left, part, PRODUCTS), self.terms(n, right, part, PRODUCTS))
    }
}
fn show_call(verb: &str, key: &str, x: (f64, f64)) -> String {
    format!("{verb}|{key}|{}|{}", show_number(x.0), show_number(x.1))
}
