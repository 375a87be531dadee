//! Both blocks of a gadget side by side: each origin value with shares that join to it.

use crate::maps::{Map, FIPS, SQUARING};
use crate::random::Random;

/// Stems of names; the sets use the same ones, since they are separate.
const STEMS: [&str; 9] = ["t", "v", "x", "f", "q", "set", "a_b", "r9_", "long_name"];

/// An operand of the origin block, the operands that share it, and about how many terms it has.
#[derive(Clone)]
pub struct Shared {
    pub name: String,
    pub shares: Vec<String>,
    pub size: usize,
}

/// The blocks under construction.
pub struct Pairing<'r> {
    pub random: &'r mut Random,
    pub shares: usize,
    pub variables: usize,
    pub maps: Vec<(String, Map)>,
    pub values: Vec<Shared>,
    pub origin: Vec<String>,
    pub masked: Vec<String>,
    stem: &'static str,
    count: usize,
}

/// A map of one of several kinds.
pub fn draw_map(random: &mut Random) -> Map {
    let mut map = Map {
        constant: random.byte(),
        columns: [(); 8].map(|_| random.byte()),
    };
    match random.below(8) {
        0 | 1 => map = FIPS,
        2 => map = SQUARING,
        3 => map.constant = 0,
        4 => map.columns = [0; 8],
        5 => {
            let zeros = random.below(8);
            map.columns[..zeros].fill(0);
        }
        6 => {
            let mut list = [0; 8];
            list[random.below(8)] = random.byte();
            list[random.below(8)] = random.byte();
            map = Map::of_coefficients(map.constant, &list);
        }
        _ => {}
    }
    map
}

impl<'r> Pairing<'r> {
    /// Blocks that begin with so many inputs.
    pub fn new(random: &'r mut Random, shares: usize, inputs: usize, maps: usize) -> Self {
        let stem = *random.pick(&STEMS);
        let input = |i: usize| {
            let name = format!("{stem}i{i}");
            let parts = (0..shares).map(|share| format!("{name}.{share}")).collect();
            Shared {
                name,
                shares: parts,
                size: shares,
            }
        };
        let values = (0..inputs).map(input).collect();
        let maps = (0..maps).map(|i| (format!("{stem}{i}"), draw_map(random)));
        Pairing {
            maps: maps.collect(),
            random,
            shares,
            variables: shares * inputs,
            values,
            origin: vec![],
            masked: vec![],
            stem,
            count: 0,
        }
    }

    /// A name that no other statement has.
    pub fn fresh(&mut self) -> String {
        self.count += 1;
        format!("{}{}", self.stem, self.count)
    }

    /// One of the values, or seldom a constant.
    pub fn draw_operand(&mut self) -> Shared {
        if self.values.is_empty() || self.random.one_in(6) {
            let byte = *self.random.pick(&[0, 1, 2, 0x53, 0xff]);
            return self.constant(byte);
        }
        let recent = self.values.len().saturating_sub(3);
        let from = if self.random.one_in(2) { recent } else { 0 };
        let at = self.random.between(from, self.values.len() - 1);
        self.values[at].clone()
    }

    /// A constant, which one share carries.
    fn constant(&mut self, byte: u8) -> Shared {
        let mut shares = vec!["#00".to_string(); self.shares];
        let carrier = self.random.below(self.shares);
        shares[carrier] = format!("#{byte:02x}");
        Shared {
            name: format!("#{byte:02x}"),
            shares,
            size: (byte != 0) as usize,
        }
    }

    /// Adds a statement of the masked block; answers the name that it gives.
    pub fn masked(&mut self, word: &str, operands: &str) -> String {
        let name = self.fresh();
        self.masked.push(format!("{word} {name} {operands}"));
        name
    }

    /// Adds the same statement for each share; the answer is the list of names.
    fn each_share(&mut self, word: &str, operands: impl Fn(usize) -> String) -> Vec<String> {
        let operands: Vec<String> = (0..self.shares).map(operands).collect();
        let dotted = self.random.one_in(2).then(|| self.fresh());
        let mut names = vec![];
        for (share, operands) in operands.iter().enumerate() {
            let name = match &dotted {
                Some(stem) => format!("{stem}.{share}"),
                None => self.fresh(),
            };
            self.masked.push(format!("{word} {name} {operands}"));
            names.push(name);
        }
        names
    }

    /// Adds an origin statement and the value that it gives.
    fn give(&mut self, word: &str, operands: &str, shares: Vec<String>, size: usize) {
        let name = self.fresh();
        self.origin.push(format!("{word} {name} {operands}"));
        self.values.push(Shared { name, shares, size });
    }

    /// A copy of a value.
    pub fn set(&mut self, a: Shared) {
        let names = self.each_share("set", |i| a.shares[i].clone());
        self.give("set", &a.name, names, a.size);
    }

    /// The sum, share by share.
    pub fn xor(&mut self, a: Shared, b: Shared) {
        let names = self.each_share("xor", |i| format!("{} {}", a.shares[i], b.shares[i]));
        let operands = format!("{} {}", a.name, b.name);
        self.give("xor", &operands, names, a.size + b.size);
    }

    /// The map on each share; at an even number of shares the constant is added once more.
    pub fn app(&mut self, f: usize, a: Shared) {
        let (f, map) = self.maps[f].clone();
        let mut names = self.each_share("app", |i| format!("{f} {}", a.shares[i]));
        if self.shares.is_multiple_of(2) && map.constant != 0 {
            let carrier = self.random.below(self.shares);
            let operands = format!("{} #{:02x}", names[carrier], map.constant);
            names[carrier] = self.masked("xor", &operands);
        }
        let nonzero = map.coefficients().iter().filter(|l| **l != 0).count();
        let size = nonzero * a.size + (map.constant != 0) as usize;
        self.give("app", &format!("{f} {}", a.name), names, size);
    }

    /// The product: each share of a times the joined b, or all pairs with fresh rands.
    pub fn mul(&mut self, a: Shared, b: Shared) {
        let names = match self.shares <= 4 && self.random.one_in(2) {
            true => self.product_by_pairs(&a, &b),
            false => {
                let joined = self.joined(&b.shares);
                self.each_share("mul", |i| format!("{} {joined}", a.shares[i]))
            }
        };
        let operands = format!("{} {}", a.name, b.name);
        self.give("mul", &operands, names, a.size * b.size);
    }

    /// The XOR of some operands.
    fn joined(&mut self, shares: &[String]) -> String {
        let mut sum = shares[0].clone();
        for share in &shares[1..] {
            sum = self.masked("xor", &format!("{sum} {share}"));
        }
        sum
    }

    /// The product by all pairs of shares, with a rand for a pair where one is free.
    fn product_by_pairs(&mut self, a: &Shared, b: &Shared) -> Vec<String> {
        let product = |i: usize, j: usize| format!("{} {}", a.shares[i], b.shares[j]);
        let mut sums: Vec<String> = (0..self.shares)
            .map(|i| self.masked("mul", &product(i, i)))
            .collect();
        for i in 0..self.shares {
            for j in i + 1..self.shares {
                let p = self.masked("mul", &product(i, j));
                let q = self.masked("mul", &product(j, i));
                let mut cross = self.masked("xor", &format!("{p} {q}"));
                if let Some(r) = self.rand() {
                    cross = self.masked("xor", &format!("{cross} {r}"));
                    sums[i] = self.masked("xor", &format!("{} {r}", sums[i]));
                }
                sums[j] = self.masked("xor", &format!("{} {cross}", sums[j]));
            }
        }
        sums
    }

    /// A rand, where one more variable is allowed.
    fn rand(&mut self) -> Option<String> {
        if self.variables == 16 || self.random.one_in(3) {
            return None;
        }
        self.variables += 1;
        let name = self.fresh();
        self.masked.push(format!("rand {name}"));
        Some(name)
    }

    /// A rand added to two shares of a value.
    pub fn refresh(&mut self, value: usize) {
        if self.shares < 2 {
            return;
        }
        if let Some(r) = self.rand() {
            let (i, j) = (
                self.random.below(self.shares),
                self.random.below(self.shares - 1),
            );
            let j = j + (j >= i) as usize;
            for share in [i, j] {
                let operands = format!("{} {r}", self.values[value].shares[share]);
                let name = self.masked("xor", &operands);
                self.values[value].shares[share] = name;
            }
        }
    }
}
