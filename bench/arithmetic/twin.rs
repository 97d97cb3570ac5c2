//! The twin of `pami_bench` over `num-rational`: the same list of operations with checked arithmetic, and the same line.

use num_rational::Ratio;
use num_traits::{CheckedAdd, CheckedDiv, CheckedMul, CheckedSub, One, Zero};

type Frac = Ratio<i128>;

struct Draws {
    state: u64,
}

impl Draws {
    fn next(&mut self) -> i128 {
        self.state = self.state.wrapping_mul(6_364_136_223_846_793_005).wrapping_add(1_442_695_040_888_963_407);
        i128::from(self.state >> 32)
    }

    fn long(&mut self, parts: u32) -> i128 {
        let mut number: i128 = 1;
        for _ in 0..parts {
            number = number.wrapping_mul(1 << 30).wrapping_add(self.next() % (1 << 30));
        }
        number
    }
}

fn numbers(kind: &str, first: bool, draws: &mut Draws) -> (i128, i128) {
    match kind {
        "small" => (draws.next() % 2001 - 1000, draws.next() % 1000 + 1),
        "word" => (draws.long(2) - (1 << 60), draws.long(2)),
        "wide" if first => (draws.long(4) - (1 << 120), draws.next() % 15 + 1),
        "wide" => (draws.next() % 31 - 15, draws.next() % 15 + 1),
        _ => match draws.next() % 10 {
            0 | 1 | 2 | 3 => (0, 1),
            4 | 5 | 6 => (draws.next() % 21 - 10, 1),
            _ => (draws.next() % 41 - 20, draws.next() % 12 + 1),
        },
    }
}

fn pool(kind: &str, first: bool, draws: &mut Draws) -> Vec<Frac> {
    (0..64)
        .map(|_| {
            let (above, below) = numbers(kind, first, draws);
            if below == 0 { Frac::one() } else { Frac::new(above, below) }
        })
        .collect()
}

struct Tally {
    sum: u128,
    refused: u64,
}

impl Tally {
    fn take(&mut self, result: Option<Frac>) {
        match result {
            Some(value) => {
                self.sum = self
                    .sum
                    .wrapping_mul(31)
                    .wrapping_add(value.numer().unsigned_abs())
                    .wrapping_add(value.denom().unsigned_abs());
            }
            None => self.refused += 1,
        }
    }

    fn operate(&mut self, p: &Frac, q: &Frac) {
        self.take(p.checked_add(q));
        self.take(p.checked_sub(q));
        self.take(p.checked_mul(q));
        if !q.is_zero() {
            self.take(p.checked_div(q));
        }
    }
}

fn main() {
    let words: Vec<String> = std::env::args().collect();
    let (kind, rounds): (&str, u32) = (&words[1], words[2].parse().unwrap());
    let mut draws = Draws { state: 1 };
    let first = pool(kind, true, &mut draws);
    let second = pool(kind, false, &mut draws);
    let mut tally = Tally { sum: 0, refused: 0 };
    for round in 0..rounds {
        let (front, back) = second.split_at((round % 64) as usize);
        for (p, q) in first.iter().zip(back.iter().chain(front.iter())) {
            tally.operate(p, q);
        }
    }
    println!("{} {}", tally.sum, tally.refused);
}
