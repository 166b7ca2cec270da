//! Renders R-2 as the ways in which two periods share days.

use super::periods::days_after;
use super::random::Random;
use super::valid::drawn_day;
use crate::calendar::{day_after, day_before, is_real_day, FIRST_DAY, LAST_DAY};
use crate::period::Period;

/// How a period lies upon an earlier record's.
#[derive(Clone, Copy, Debug, PartialEq, Eq)]
pub enum Overlap {
    Equal,
    OnItsFirstDay,
    OnItsLastDay,
    FromItsFirstDay,
    ToItsLastDay,
    Within,
    Around,
    OverItsFront,
    OverItsEnd,
}

impl Overlap {
    pub const ALL: [Overlap; 9] = [
        Overlap::Equal,
        Overlap::OnItsFirstDay,
        Overlap::OnItsLastDay,
        Overlap::FromItsFirstDay,
        Overlap::ToItsLastDay,
        Overlap::Within,
        Overlap::Around,
        Overlap::OverItsFront,
        Overlap::OverItsEnd,
    ];

    pub fn word(self) -> &'static str {
        match self {
            Overlap::Equal => "equal",
            Overlap::OnItsFirstDay => "one day at the front",
            Overlap::OnItsLastDay => "one day at the end",
            Overlap::FromItsFirstDay => "same first day",
            Overlap::ToItsLastDay => "same last day",
            Overlap::Within => "nested in",
            Overlap::Around => "nests",
            Overlap::OverItsFront => "days at the front",
            Overlap::OverItsEnd => "days at the end",
        }
    }

    /// None where no day is shared.
    pub fn of(period: &Period, earlier: &Period) -> Option<Overlap> {
        if !period.shares_a_day_with(earlier) {
            return None;
        }
        let starts_before = period.first < earlier.first;
        let ends_behind = period.last > earlier.last;
        Some(match (starts_before, ends_behind) {
            _ if period == earlier => Overlap::Equal,
            (true, false) if period.last == earlier.first => Overlap::OnItsFirstDay,
            (false, true) if period.first == earlier.last => Overlap::OnItsLastDay,
            _ if period.first == earlier.first => Overlap::FromItsFirstDay,
            _ if period.last == earlier.last => Overlap::ToItsLastDay,
            (false, false) => Overlap::Within,
            (true, true) => Overlap::Around,
            (true, false) => Overlap::OverItsFront,
            (false, true) => Overlap::OverItsEnd,
        })
    }

    /// None where the room has no such period.
    pub fn drawn(self, random: &mut Random, room: &Room) -> Option<Period> {
        let Period { first, last } = room.taken;
        let (start, end) = match self {
            Overlap::Equal => (first, last),
            Overlap::OnItsFirstDay => (room.before(random)?, first),
            Overlap::OnItsLastDay => (last, room.behind(random)?),
            Overlap::FromItsFirstDay if random.one_in(2) => (first, room.behind(random)?),
            Overlap::FromItsFirstDay => (first, day_between(random, day_before(first), last)?),
            Overlap::ToItsLastDay if random.one_in(2) => (room.before(random)?, last),
            Overlap::ToItsLastDay => (day_between(random, first, day_after(last))?, last),
            Overlap::Within => room.two_inside(random)?,
            Overlap::Around => (room.before(random)?, room.behind(random)?),
            Overlap::OverItsFront => (room.before(random)?, day_between(random, first, last)?),
            Overlap::OverItsEnd => (day_between(random, first, last)?, room.behind(random)?),
        };
        let drawn = Period::of(start, end);
        (Overlap::of(&drawn, &room.taken) == Some(self)).then_some(drawn)
    }
}

/// A period, and the days about it that no other of its key has.
pub struct Room {
    pub taken: Period,
    pub free_from: u64,
    pub free_to: u64,
}

impl Room {
    /// Between its neighbours in time.
    pub fn of(taken: Period, before: Option<&Period>, behind: Option<&Period>) -> Room {
        Room {
            taken,
            free_from: before.map_or(FIRST_DAY, |before| day_after(before.last)),
            free_to: behind.map_or(LAST_DAY, |behind| day_before(behind.first)),
        }
    }

    fn before(&self, random: &mut Random) -> Option<u64> {
        day_between(random, day_before(self.free_from), self.taken.first)
    }

    fn behind(&self, random: &mut Random) -> Option<u64> {
        day_between(random, self.taken.last, day_after(self.free_to))
    }

    fn two_inside(&self, random: &mut Random) -> Option<(u64, u64)> {
        let Period { first, last } = self.taken;
        let one = day_between(random, first, last)?;
        let other = day_between(random, first, last)?;
        Some((one.min(other), one.max(other)))
    }
}

/// Neither of the two; often the next to one of them.
fn day_between(random: &mut Random, before: u64, behind: u64) -> Option<u64> {
    let (first, last) = (day_after(before), day_before(behind));
    if first > last {
        return None;
    }
    Some(match random.below(4) {
        0 => first,
        1 => last,
        2 => days_after(first, random.below(20)).min(last),
        _ => drawn_day(random, first, last),
    })
}

/// One that shares a day with this, in any way that there is; the same where this is none.
pub fn sharing_a_day(random: &mut Random, taken: Period) -> Period {
    if !is_real(&taken) {
        return taken;
    }
    let room = Room::of(taken, None, None);
    let overlap = random.pick(&Overlap::ALL);
    overlap.drawn(random, &room).unwrap_or(taken)
}

fn is_real(period: &Period) -> bool {
    is_real_day(period.first) && is_real_day(period.last) && period.first <= period.last
}

#[cfg(test)]
mod tests {
    use super::*;
    use crate::generate::periods::timetable;

    #[test]
    fn ways_to_share_days() {
        let june = Period::of(20240601, 20240630);
        for (first, last, due) in [
            (20240501, 20240531, None),
            (20240501, 20240601, Some(Overlap::OnItsFirstDay)),
            (20240501, 20240602, Some(Overlap::OverItsFront)),
            (20240501, 20240630, Some(Overlap::ToItsLastDay)),
            (20240501, 20240701, Some(Overlap::Around)),
            (20240601, 20240601, Some(Overlap::FromItsFirstDay)),
            (20240601, 20240630, Some(Overlap::Equal)),
            (20240601, 20240701, Some(Overlap::FromItsFirstDay)),
            (20240602, 20240629, Some(Overlap::Within)),
            (20240629, 20240701, Some(Overlap::OverItsEnd)),
            (20240630, 20240630, Some(Overlap::ToItsLastDay)),
            (20240630, 20240701, Some(Overlap::OnItsLastDay)),
            (20240701, 20240731, None),
        ] {
            let period = Period::of(first, last);
            assert_eq!(Overlap::of(&period, &june), due, "{period:?}");
        }
    }

    #[test]
    fn an_overlap_is_drawn_as_it_is_named_and_meets_no_neighbour() {
        let mut random = Random::from_seed(93);
        for overlap in Overlap::ALL {
            let mut times = 0;
            for _ in 0..300 {
                let periods = timetable(&mut random, 3);
                let room = Room::of(periods[1], Some(&periods[0]), Some(&periods[2]));
                let Some(drawn) = overlap.drawn(&mut random, &room) else {
                    continue;
                };
                times += 1;
                assert!(is_real(&drawn));
                assert_eq!(Overlap::of(&drawn, &periods[1]), Some(overlap));
                assert!(!drawn.shares_a_day_with(&periods[0]));
                assert!(!drawn.shares_a_day_with(&periods[2]));
            }
            assert!(times > 30, "{overlap:?}: {times}");
        }
    }

    #[test]
    fn some_day_is_shared() {
        let mut random = Random::from_seed(94);
        for _ in 0..500 {
            let taken = timetable(&mut random, 1)[0];
            let drawn = sharing_a_day(&mut random, taken);
            assert!(drawn.shares_a_day_with(&taken) && is_real(&drawn));
        }
    }

    #[test]
    fn what_is_no_period_stays_as_it_is() {
        let mut random = Random::from_seed(95);
        for taken in [Period::of(0, 0), Period::of(20240630, 20240601)] {
            assert_eq!(sharing_a_day(&mut random, taken), taken);
        }
    }
}
