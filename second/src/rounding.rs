//! Renders "Amount per person" of "Pricing": exact fractions and the four roundings.

use crate::values::WHOLE_DISCOUNT;

#[derive(Clone, Copy, Debug, PartialEq, Eq)]
pub enum Rounding {
    Up(u64),
    Down(u64),
    Nearest(u64),
    NearestCent,
}

impl Rounding {
    /// Only for a byte and factor that the verdict has let pass.
    pub fn of_accepted(byte: u8, factor: u64) -> Rounding {
        match byte {
            b'+' => Rounding::Up(factor),
            b'-' => Rounding::Down(factor),
            b'0' => Rounding::Nearest(factor),
            _ => Rounding::NearestCent,
        }
    }

    fn step(self) -> u64 {
        match self {
            Rounding::Up(factor) | Rounding::Down(factor) | Rounding::Nearest(factor) => factor,
            Rounding::NearestCent => 1,
        }
    }

    fn goes_up(self, remainder: u128, whole_step: u128) -> bool {
        match self {
            Rounding::Up(_) => remainder > 0,
            Rounding::Down(_) => false,
            Rounding::Nearest(_) | Rounding::NearestCent => 2 * remainder >= whole_step,
        }
    }
}

#[derive(Clone, Copy, Debug, PartialEq, Eq)]
pub struct Reduction {
    pub discount: u64,
    pub rounding: Rounding,
}

impl Reduction {
    pub fn apply(&self, amount: u64) -> u64 {
        let numerator = u128::from(amount) * u128::from(WHOLE_DISCOUNT - self.discount);
        round(numerator, u128::from(WHOLE_DISCOUNT), self.rounding)
    }
}

/// All discounts first and then the last rounding: no rule, but what a wrong one would give. None without reductions.
pub fn rounded_once(reductions: &[Reduction], amount: u64) -> Option<u64> {
    let last = reductions.last()?;
    let left = |reduction: &Reduction| u128::from(WHOLE_DISCOUNT - reduction.discount);
    let numerator: u128 = reductions.iter().map(left).product();
    let denominator = u128::from(WHOLE_DISCOUNT).pow(reductions.len() as u32);
    Some(round(
        u128::from(amount) * numerator,
        denominator,
        last.rounding,
    ))
}

fn round(numerator: u128, denominator: u128, rounding: Rounding) -> u64 {
    let step = u128::from(rounding.step());
    let whole_step = step * denominator;
    let steps_below = numerator / whole_step;
    let steps = steps_below + u128::from(rounding.goes_up(numerator % whole_step, whole_step));
    u64::try_from(steps * step).expect("an amount in cents")
}

#[cfg(test)]
mod tests {
    use super::*;

    fn reduced(amount: u64, discount: u64, byte: u8, factor: u64) -> u64 {
        let rounding = Rounding::of_accepted(byte, factor);
        Reduction { discount, rounding }.apply(amount)
    }

    /// Each case: amount, discount, rounding, factor and what is due.
    fn assert_reduced(cases: &[(u64, u64, u8, u64, u64)]) {
        for &(amount, discount, byte, factor, due) in cases {
            let told = reduced(amount, discount, byte, factor);
            assert_eq!(told, due, "{amount} at {discount}");
        }
    }

    #[test]
    fn figures_of_the_document() {
        assert_reduced(&[
            (1010, 25_000, b'N', 0, 758),
            (1010, 25_000, b'+', 10, 760),
            (1010, 25_000, b'-', 10, 750),
            (1010, 25_000, b'0', 5, 760),
            (1010, 25_000, b'0', 50, 750),
            (760, 30_000, b'+', 50, 550),
            (760, 30_000, b'-', 50, 500),
            (760, 30_000, b'N', 999, 532),
        ]);
    }

    #[test]
    fn a_whole_discount_is_zero_in_every_mode() {
        for byte in *b"+-0N" {
            for factor in [1, 2, 998, 999] {
                for amount in [0, 1, 1010, 999_999] {
                    assert_eq!(reduced(amount, 100_000, byte, factor), 0);
                }
            }
        }
    }

    #[test]
    fn the_greatest_fare_rounded_up_by_998() {
        assert_eq!(reduced(999_999, 0, b'+', 998), 1_000_994);
        let twice = reduced(1_000_994, 0, b'+', 997);
        assert!(twice <= 1_001_985);
    }

    #[test]
    fn both_discounts_are_rounded_in_turn() {
        let first = reduced(1010, 25_000, b'N', 0);
        assert_eq!(first, 758);
        assert_eq!(reduced(first, 30_000, b'N', 0), 531);
    }

    #[test]
    fn both_discounts_rounded_once_are_another_amount() {
        let by = |discount| Reduction {
            discount,
            rounding: Rounding::NearestCent,
        };
        assert_eq!(rounded_once(&[by(25_000), by(30_000)], 1010), Some(530));
        assert_eq!(rounded_once(&[], 1010), None);
    }

    #[test]
    fn multiples_of_the_factor_stay() {
        for byte in *b"+-0" {
            assert_eq!(reduced(1500, 0, byte, 50), 1500);
            assert_eq!(reduced(0, 0, byte, 999), 0);
        }
    }

    #[test]
    fn halves_go_up() {
        assert_reduced(&[
            (1, 50_000, b'N', 0, 1),
            (1, 50_001, b'N', 0, 0),
            (5, 0, b'0', 10, 10),
            (4, 0, b'0', 10, 0),
            (25, 0, b'0', 50, 50),
            (24, 0, b'0', 50, 0),
            (1, 0, b'0', 3, 0),
            (2, 0, b'0', 3, 3),
        ]);
    }

    #[test]
    fn each_rounding_keeps_its_definition() {
        let mut amount = 0;
        while amount <= 999_999 {
            for discount in [0, 1, 333, 24_999, 25_000, 50_001, 99_999, 100_000] {
                for factor in [1, 2, 3, 10, 50, 998, 999] {
                    assert_definitions(amount, discount, factor);
                }
            }
            amount = amount * 2 + 7;
        }
    }

    fn assert_definitions(amount: u64, discount: u64, factor: u64) {
        let exact = amount * (100_000 - discount);
        let step = factor * 100_000;
        let up = reduced(amount, discount, b'+', factor);
        let down = reduced(amount, discount, b'-', factor);
        let nearest = reduced(amount, discount, b'0', factor);
        let cent = reduced(amount, discount, b'N', factor);
        assert!([up, down, nearest]
            .iter()
            .all(|amount| amount.is_multiple_of(factor)));
        assert!(up * 100_000 >= exact && up * 100_000 < exact + step);
        assert!(down * 100_000 <= exact && down * 100_000 + step > exact);
        assert!(2 * nearest * 100_000 <= 2 * exact + step);
        assert!(2 * nearest * 100_000 + step > 2 * exact);
        assert!(cent * 200_000 <= 2 * exact + 100_000);
        assert!(cent * 200_000 + 100_000 > 2 * exact);
    }
}
