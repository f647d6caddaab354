//! Random numbers, products, keys and terms.
use crate::{read_items, show_items, show_number};

#[derive(Clone, Copy)]
enum Numbers {
    /// Whole numbers and halves.
    Plain,
    /// All bits in use, sizes close to each other: sums are rounded.
    Dense,
    /// All of these, and up to the largest and down to the smallest size.
    Wide,
}
/// Which coefficients a term may have.
#[derive(Clone, Copy, PartialEq)]
pub enum Part {
    Real,
    Complex,
}

pub struct Random {
    state: u64,
    numbers: Numbers,
}
impl Random {
    pub fn new(seed: u64) -> Self {
        Random { state: seed, numbers: Numbers::Plain }
    }
    /// Splitmix64.
    pub fn next(&mut self) -> u64 {
        self.state = self.state.wrapping_add(0x9e3779b97f4a7c15);
        let mut z = self.state;
        z = (z ^ (z >> 30)).wrapping_mul(0xbf58476d1ce4e5b9);
        z = (z ^ (z >> 27)).wrapping_mul(0x94d049bb133111eb);
        z ^ (z >> 31)
    }
    pub fn below(&mut self, n: u64) -> u64 {
        self.next() % n
    }
    pub fn once_in(&mut self, n: u64) -> bool {
        self.below(n) == 0
    }
    pub fn one_of<T: Copy>(&mut self, from: &[T]) -> T {
        from[self.below(from.len() as u64) as usize]
    }

    /// Which numbers the next question has.
    pub fn choose_numbers(&mut self) {
        use Numbers::*;
        self.numbers = self.one_of(&[Plain, Plain, Plain, Plain, Dense, Dense, Wide]);
    }
    /// Any bits, a size from 2^low to 2^high.
    fn with_size(&mut self, low: i32, high: i32) -> f64 {
        let exponent = low + self.below((high - low) as u64) as i32;
        f64::from_bits(self.next() >> 12 | ((1023 + exponent) as u64) << 52 | self.below(2) << 63)
    }
    fn number(&mut self, size: i32) -> f64 {
        match (self.numbers, self.below(8)) {
            (Numbers::Dense, _) | (Numbers::Wide, 0..=1) => self.with_size(-4, 4),
            (Numbers::Wide, 2..=4) => self.with_size(-size, size),
            (Numbers::Wide, 5) => self.one_of(&[5e-324, -5e-324, 1e-308, -0.0]),
            (Numbers::Wide, 6) => self.one_of(&[1.0, -1.0]) * self.one_of(&[2f64.powi(size), 2f64.powi(53), 1.0 + f64::EPSILON]),
            (_, 0..=1) => (self.below(41) as f64 - 20.0) / 2.0,
            _ => self.below(9) as f64 - 4.0,
        }
    }
    /// The two parts, not both zero.
    pub fn coefficient(&mut self, part: Part, size: i32) -> (f64, f64) {
        loop {
            let x = (self.number(size), if part == Part::Real || self.once_in(3) { 0.0 } else { self.number(size) });
            if x != (0.0, 0.0) {
                return x;
            }
        }
    }
    /// A factor that often is zero, or makes small numbers zero.
    pub fn factor(&mut self, size: i32) -> String {
        let (re, im) = match self.below(4) {
            0 => (0.0, 0.0),
            1 => (5e-324, 0.0),
            2 => self.coefficient(Part::Complex, size),
            _ => (self.below(9) as f64 / 4.0 - 1.0, self.below(9) as f64 - 4.0),
        };
        format!("{} {}", show_number(re), show_number(im))
    }

    /// A product on spins below n with at least so many sites (fewer only where n is 0).
    pub fn product(&mut self, n: u64, least: usize) -> String {
        let rare = self.one_of(&[1, 2, n.max(2), n.max(2)]);
        self.product_of(n, least, |r, _| if r.once_in(rare) { 1 + r.below(3) as u8 } else { 0 })
    }
    /// One that flips just the spins of a mask: X or Y there, Z or nothing elsewhere.
    pub fn flipping(&mut self, n: u64, least: usize, mask: u64) -> String {
        self.product_of(n, least, |r, site| match mask >> site & 1 {
            1 => 1 + r.below(2) as u8,
            _ => if r.once_in(4) { 3 } else { 0 },
        })
    }
    fn product_of(&mut self, n: u64, least: usize, mut letter: impl FnMut(&mut Self, u64) -> u8) -> String {
        loop {
            let items: Vec<_> = (0..n).map(|site| (site as usize, letter(self, site))).filter(|(_, l)| *l > 0).collect();
            if items.len() >= least || n == 0 {
                return show_items(items);
            }
        }
    }
    /// A product that differs from the given one in few places, or not at all.
    pub fn near(&mut self, product: &str, n: u64) -> String {
        let mut items = read_items(product);
        for _ in 0..self.below(3) {
            let site = self.below(n) as usize;
            items.retain(|(s, _)| *s != site);
            if !self.once_in(3) {
                items.push((site, 1 + self.below(3) as u8));
            }
        }
        items.sort();
        show_items(items)
    }
    /// As many sites, one of them moved where there is room, some with another letter.
    pub fn rival(&mut self, product: &str, n: u64) -> String {
        let mut items = read_items(product);
        let free: Vec<usize> = (0..n as usize).filter(|s| items.iter().all(|item| item.0 != *s)).collect();
        if !items.is_empty() && !free.is_empty() {
            let moved = self.below(items.len() as u64) as usize;
            items[moved].0 = self.one_of(&free);
        }
        for item in &mut items {
            if self.once_in(3) {
                item.1 = 1 + self.below(3) as u8;
            }
        }
        items.sort();
        show_items(items)
    }
    /// Different keys, `count` of them or as many as were found: of any letters, or of few flips, so that
    /// many terms meet in one column.
    pub fn keys(&mut self, n: u64, count: usize, least: usize, pairs: bool) -> Vec<String> {
        let masks = [self.next(), self.next()];
        let (few_flips, mut keys) = (self.once_in(2), Vec::new());
        for _ in 0..4 * count {
            let side = |r: &mut Self| match few_flips {
                true => {
                    let mask = r.one_of(&[0, masks[0], masks[1], masks[0] ^ masks[1]]);
                    r.flipping(n, least, mask)
                }
                false => r.product(n, least),
            };
            let key = if pairs { format!("{}/{}", side(self), side(self)) } else { side(self) };
            if keys.len() < count && !keys.contains(&key) && !(pairs && n == 0) {
                keys.push(key);
            }
        }
        keys
    }
    /// Different pairs of products with one site each.
    pub fn single_sites(&mut self, count: usize) -> Vec<String> {
        let mut keys: Vec<String> = (0..count)
            .map(|_| {
                let letters = [self.one_of(&["X", "Y"]), self.one_of(&["X", "Z"])];
                format!("{}{}/{}{}", self.below(6), letters[0], self.below(6), letters[1])
            })
            .collect();
        keys.sort();
        keys.dedup();
        keys
    }
    pub fn with_coefficients(&mut self, keys: Vec<String>, part: Part, size: i32) -> String {
        let term = |key: String| {
            let (re, im) = self.coefficient(part, size);
            format!("{key}:{}:{}", show_number(re), show_number(im))
        };
        crate::or_dash(keys.into_iter().map(term).collect(), ",")
    }
    /// An operator or a Hamiltonian.
    pub fn terms(&mut self, n: u64, count: usize, part: Part, size: i32) -> String {
        let keys = self.keys(n, count, 0, false);
        self.with_coefficients(keys, part, size)
    }
    pub fn noise(&mut self, n: u64, count: usize, size: i32) -> String {
        let keys = self.keys(n, count, 1, true);
        self.with_coefficients(keys, Part::Complex, size)
    }
    /// How many terms: seldom many, up to the limit.
    pub fn count(&mut self) -> usize {
        if self.once_in(12) { self.one_of(&[40, 64, 64]) } else { self.one_of(&[0, 1, 2, 3, 4, 6, 9, 12]) }
    }
    pub fn width(&mut self) -> u64 {
        self.one_of(&[1, 2, 3, 6, 12, 31])
    }
    pub fn site(&mut self, width: u64) -> u64 {
        let width = self.one_of(&[width, width, 31]);
        self.below(width)
    }
    pub fn spins(&mut self) -> u64 {
        self.one_of(&[0, 1, 1, 2, 2, 3, 3, 3, 4, 4, 5, 6, 6, 12, 31, 31, 31])
    }
    /// A row below 2^bits, often a corner.
    pub fn row(&mut self, bits: u64) -> u64 {
        match self.below(8) {
            0 => 0,
            1 => (1 << bits) - 1,
            _ => self.below(1 << bits),
        }
    }

    /// 31 targets, all different.
    fn shuffled(&mut self) -> Vec<u64> {
        let mut targets: Vec<u64> = (0..31).collect();
        for i in (1..31).rev() {
            targets.swap(i, self.below(i as u64 + 1) as usize);
        }
        targets
    }
    /// 31 targets: all different, or different for the occupied spins and anything for the free ones.
    pub fn targets(&mut self, product: &str) -> String {
        let mut targets = self.shuffled();
        if self.once_in(2) {
            let occupied = read_items(product);
            for spin in (0..31).filter(|s| occupied.iter().all(|item| item.0 != *s)) {
                targets[spin] = self.below(256);
            }
        }
        show_targets(&targets)
    }
    /// 31 targets, different within each product; two products may come to meet.
    pub fn targets_of_pairs(&mut self, pairs: &[String]) -> String {
        for _ in 0..20 {
            let most = self.one_of(&[2, 4, 31]);
            let targets: Vec<u64> = (0..31).map(|_| self.below(most)).collect();
            let differ = |product: &str| {
                let met: Vec<u64> = read_items(product).iter().map(|item| targets[item.0]).collect();
                met.iter().enumerate().all(|(i, t)| !met[..i].contains(t))
            };
            if pairs.iter().flat_map(|key| key.split('/')).all(differ) {
                return show_targets(&targets);
            }
        }
        let targets = self.shuffled();
        show_targets(&targets)
    }
}
fn show_targets(targets: &[u64]) -> String {
    targets.iter().map(|t| t.to_string()).collect::<Vec<_>>().join(",")
}
