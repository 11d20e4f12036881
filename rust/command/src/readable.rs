//! A constraint's bytes in a readable form.

/// The constraint of a clause with so many variables; the kit has judged its bytes before.
pub fn readable(part: &[u8], variables: usize) -> String {
    let mut reader = Reader { rest: part, variables };
    reader.node().0
}

struct Reader<'a> {
    rest: &'a [u8],
    variables: usize,
}

impl Reader<'_> {
    fn take<const N: usize>(&mut self) -> [u8; N] {
        let (front, rest) = self.rest.split_first_chunk().expect("a judged constraint is there in full");
        self.rest = rest;
        *front
    }

    /// A node, and whether it wants brackets inside another.
    fn node(&mut self) -> (String, bool) {
        let [kind] = self.take();
        match kind {
            0 => ("true".into(), false),
            1 => (format!("{} <= 0", self.sum()), false),
            2 => (format!("{} = 0", self.sum()), false),
            3 => (self.denied(), false),
            4 => (self.joined("and"), true),
            5 => (self.joined("or"), true),
            _ => (self.remainder(), true),
        }
    }

    fn denied(&mut self) -> String {
        match self.node().0 {
            it if it == "true" => "not true".into(),
            it => format!("not ({it})"),
        }
    }

    fn joined(&mut self, word: &str) -> String {
        let [left, right] = [self.node(), self.node()].map(|(it, wide)| if wide { format!("({it})") } else { it });
        format!("{left} {word} {right}")
    }

    fn remainder(&mut self) -> String {
        let sum = self.sum();
        let [divisor, remainder] = [u16::from_le_bytes(self.take()), u16::from_le_bytes(self.take())];
        format!("0 <= {sum} and ({sum}) mod {divisor} = {remainder}")
    }

    /// The constant, then each variable with its coefficient; what is 0 is left out.
    fn sum(&mut self) -> String {
        let coefficients: Vec<i32> = (0..self.variables).map(|_| i32::from(i16::from_le_bytes(self.take()))).collect();
        let constant = i32::from_le_bytes(self.take());
        let terms = coefficients.iter().enumerate().filter(|(_, factor)| **factor != 0);
        let mut sum = if constant == 0 { String::new() } else { constant.to_string() };
        for (variable, factor) in terms {
            let sign = match (sum.is_empty(), *factor < 0) {
                (true, false) => "",
                (true, true) => "-",
                (false, false) => " + ",
                (false, true) => " - ",
            };
            let times = if factor.abs() == 1 { String::new() } else { format!("{}*", factor.abs()) };
            sum += &format!("{sign}{times}y{variable}");
        }
        if sum.is_empty() {
            "0".into()
        } else {
            sum
        }
    }
}

#[cfg(test)]
mod tests {
    use super::*;

    #[test]
    fn sums_and_comparisons() {
        for (part, variables, words) in [
            (&[2, 1, 0, 0xfd, 0xff, 0xff, 0xff][..], 1, "-3 + y0 = 0"),
            (&[2, 1, 0, 0xff, 0xff, 1, 0, 0, 0], 2, "1 + y0 - y1 = 0"),
            (&[1, 0xff, 0xff, 2, 0, 0, 0, 0, 0], 2, "-y0 + 2*y1 <= 0"),
            (&[1, 0, 0x80, 0, 0, 0, 0x80], 1, "-2147483648 - 32768*y0 <= 0"),
            (&[2, 0, 0, 0xff, 0x7f, 0, 0, 0, 0], 2, "32767*y1 = 0"),
            (&[2, 0, 0, 0, 0, 0, 0], 1, "0 = 0"),
            (&[1, 0, 0, 0, 1], 0, "16777216 <= 0"),
            (&[0], 16, "true"),
        ] {
            assert_eq!(readable(part, variables), words);
        }
    }

    #[test]
    fn nodes_within_nodes() {
        let (equal, remainder) = ([2, 1, 0, 0, 0, 0, 0], [6, 1, 0, 1, 0, 0, 0, 3, 0, 2, 0]);
        let text = |parts: &[&[u8]]| readable(&parts.concat(), 1);
        assert_eq!(text(&[&[3, 0]]), "not true");
        assert_eq!(text(&[&[3], &equal]), "not (y0 = 0)");
        assert_eq!(text(&[&[4], &equal, &[0]]), "y0 = 0 and true");
        assert_eq!(text(&[&[5, 4], &equal, &[3, 0, 0]]), "(y0 = 0 and not true) or true");
        assert_eq!(text(&[&remainder]), "0 <= 1 + y0 and (1 + y0) mod 3 = 2");
        assert_eq!(text(&[&[5, 0], &remainder]), "true or (0 <= 1 + y0 and (1 + y0) mod 3 = 2)");
        assert_eq!(text(&[&[3], &remainder]), "not (0 <= 1 + y0 and (1 + y0) mod 3 = 2)");
    }
}
