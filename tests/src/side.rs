//! The two sides on which the times can be asked for: request T-02.

/// Among the best timetables, the one with the greatest time of each event, or the one with the least.
#[derive(Clone, Copy, Debug, PartialEq, Eq)]
pub enum Side {
    Latest,
    Earliest,
}

pub const BOTH: [Side; 2] = [Side::Latest, Side::Earliest];

impl Side {
    /// The first word that asks the programs for this side. The latest times are given where nothing is asked for.
    pub fn word(self) -> Option<&'static str> {
        match self {
            Side::Latest => None,
            Side::Earliest => Some("earliest"),
        }
    }
}

/// A thing of each side.
#[derive(Clone, Debug, PartialEq, Eq)]
pub struct Sides<T> {
    pub latest: T,
    pub earliest: T,
}

impl<T> Sides<T> {
    pub fn on(&self, side: Side) -> &T {
        match side {
            Side::Latest => &self.latest,
            Side::Earliest => &self.earliest,
        }
    }

    /// The same thing on both sides.
    pub fn alike(thing: T) -> Sides<T>
    where
        T: Clone,
    {
        Sides { latest: thing.clone(), earliest: thing }
    }

    /// Made side by side, unless one of them fails; the failure names its side.
    pub fn made(make: impl Fn(Side) -> Result<T, String>) -> Result<Sides<T>, String> {
        let make = |side| make(side).map_err(|why| format!("{side:?} times: {why}"));
        Ok(Sides { latest: make(Side::Latest)?, earliest: make(Side::Earliest)? })
    }
}
