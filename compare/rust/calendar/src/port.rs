//! The port's calendar by its C names (crates/calendar_c).

/// How many groups of 400, 100, 4 and 1 years lie before a day's year.
#[derive(Clone, Copy, PartialEq, Eq, Debug, Default)]
pub struct Counts {
    pub n400: i32,
    pub n100: u32,
    pub n4: u32,
    pub n1: u32,
}

/// All that is asked of a day, by each of the two names: `None` where it says "outside". A day's place in its year and
/// its month are counted from 0.
#[derive(Clone, Copy, PartialEq, Eq, Debug)]
pub struct Answer {
    pub groups: Option<(Counts, u32)>,
    pub civil: Option<(i32, u32)>,
}

impl Answer {
    pub const OUTSIDE: Answer = Answer { groups: None, civil: None };
}

unsafe extern "C" {
    fn calendar_year_groups(
        day: i32,
        n400: &mut i32,
        n100: &mut u32,
        n4: &mut u32,
        n1: &mut u32,
        place: &mut u32,
    ) -> u32;
    fn calendar_civil(day: i32, year: &mut i32, month0: &mut u32) -> u32;
}

pub fn ask(day: i32) -> Answer {
    let mut counts = Counts::default();
    let (mut place, mut year, mut month0) = (0, 0, 0);
    let Counts { n400, n100, n4, n1 } = &mut counts;
    // SAFETY: the names and types are those of crates/calendar_c, and each place is lent for the call alone.
    let inside = unsafe {
        [calendar_year_groups(day, n400, n100, n4, n1, &mut place), calendar_civil(day, &mut year, &mut month0)]
    };
    let [groups, civil] = inside.map(|number| number == 1);
    Answer { groups: groups.then_some((counts, place)), civil: civil.then_some((year, month0)) }
}
