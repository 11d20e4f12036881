//! Constraints drawn at random.

use crate::draft::{Node, Sum};
use crate::random::Random;

/// Grows constraints over variables with these values; many of their sums are tuned to lie at a border there.
pub struct Trees<'a> {
    pub random: &'a mut Random,
    pub values: &'a [i32],
    /// Whether numbers at the ends of their ranges are frequent.
    pub wild: bool,
}

impl Trees<'_> {
    /// A constraint of exactly so many nodes (below 2 to the power of `depth`), no deeper than `depth`.
    pub fn sized(&mut self, nodes: usize, depth: usize) -> Node {
        if nodes == 1 {
            return self.leaf();
        }
        let room = (1 << (depth - 1)) - 1;
        if nodes == 2 || (nodes - 1 <= room && self.random.chance(25)) {
            return Node::Not(Box::new(self.sized(nodes - 1, depth - 1)));
        }
        let least = (nodes - 1).saturating_sub(room).max(1);
        let most = room.min(nodes - 2);
        let left = self.random.between(least as i64, most as i64) as usize;
        let (a, b) = (self.sized(left, depth - 1), self.sized(nodes - 1 - left, depth - 1));
        Node::Join(self.random.pick(&[4, 5]), Box::new(a), Box::new(b))
    }

    /// A constraint of exactly this depth.
    pub fn deep(&mut self, depth: usize) -> Node {
        if depth == 1 {
            return self.leaf();
        }
        let below = Box::new(self.deep(depth - 1));
        match self.random.below(4) {
            0 | 1 => Node::Not(below),
            2 => Node::Join(self.random.pick(&[4, 5]), below, Box::new(self.leaf())),
            _ => Node::Join(self.random.pick(&[4, 5]), Box::new(self.leaf()), below),
        }
    }

    pub fn leaf(&mut self) -> Node {
        match self.random.below(8) {
            0 => Node::True,
            1 | 2 => Node::Compare(1, self.sum()),
            3..=5 => Node::Compare(2, self.sum()),
            _ => self.remainder(),
        }
    }

    fn remainder(&mut self) -> Node {
        let sum = self.sum();
        let any = self.random.between(1, 65_535) as u16;
        let divisor = self.random.pick(&[1, 2, 3, 7, 32_768, 65_535, any]);
        // Tuned also where the sum is negative: the remainder is then false though the rest fits.
        let rest = if self.random.chance(60) {
            sum.of(self.values).rem_euclid(i64::from(divisor)) as u16
        } else {
            self.random.below(usize::from(divisor)) as u16
        };
        Node::Remainder(sum, divisor, rest)
    }

    fn sum(&mut self) -> Sum {
        let coefficients = (0..self.values.len()).map(|_| self.coefficient()).collect();
        let mut sum = Sum { coefficients, constant: 0 };
        let border = self.random.between(-1, 1) - sum.products(self.values);
        sum.constant = match i32::try_from(border) {
            Ok(tuned) if self.random.chance(60) => tuned,
            _ => self.constant(),
        };
        sum
    }

    fn coefficient(&mut self) -> i16 {
        if self.wild {
            let any = self.random.number() as i16;
            self.random.pick(&[i16::MIN, i16::MAX, -1, 0, 1, any])
        } else {
            self.random.between(-2, 2) as i16
        }
    }

    fn constant(&mut self) -> i32 {
        let small = self.random.between(-9, 9) as i32;
        if self.wild {
            let any = self.random.number() as i32;
            self.random.pick(&[i32::MIN, i32::MAX, small, any])
        } else {
            small
        }
    }
}
