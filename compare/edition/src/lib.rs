//! Our stand-in for the crate `edition`: only what the compared modules name.
//! Later editions are greater.

#[derive(Clone, Copy, Debug, PartialEq, Eq, PartialOrd, Ord)]
pub enum Edition {
    Edition2015,
    Edition2018,
    Edition2021,
    Edition2024,
}

impl Edition {
    pub const LATEST: Edition = Edition::Edition2024;

    pub fn at_least_2024(self) -> bool {
        self >= Edition::Edition2024
    }
}
