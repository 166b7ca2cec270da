//! Renders the periods of "The bundle": the days from a first to a last, both inside.

#[derive(Clone, Copy, Debug, PartialEq, Eq, Hash, PartialOrd, Ord)]
pub struct Period {
    pub first: u64,
    pub last: u64,
}

impl Period {
    pub fn of(first: u64, last: u64) -> Period {
        Period { first, last }
    }

    pub fn holds(&self, day: u64) -> bool {
        self.first <= day && day <= self.last
    }

    pub fn shares_a_day_with(&self, other: &Period) -> bool {
        self.first <= other.last && other.first <= self.last
    }
}

#[cfg(test)]
mod tests {
    use super::*;

    #[test]
    fn both_ends_are_inside() {
        let june = Period::of(20240601, 20240630);
        assert!(june.holds(20240601) && june.holds(20240630));
        assert!(!june.holds(20240531) && !june.holds(20240701));
    }

    #[test]
    fn one_day_in_both_is_shared() {
        let june = Period::of(20240601, 20240630);
        for (first, last, shares) in [
            (20240501, 20240531, false),
            (20240501, 20240601, true),
            (20240630, 20240731, true),
            (20240701, 20240731, false),
            (20240610, 20240610, true),
            (20240501, 20240731, true),
            (20240601, 20240630, true),
        ] {
            let other = Period::of(first, last);
            assert_eq!(june.shares_a_day_with(&other), shares, "{other:?}");
            assert_eq!(other.shares_a_day_with(&june), shares, "{other:?}");
        }
    }
}
