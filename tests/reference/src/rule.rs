//! The two rules of where a file ends: that of MP/M II, and that of CP/M 2.2, which had no byte 35.

#[derive(Clone, Copy, Debug, PartialEq, Eq, PartialOrd, Ord)]
pub enum Rule {
    MpmII,
    Cpm22,
}

impl Rule {
    pub const ALL: [Rule; 2] = [Rule::MpmII, Rule::Cpm22];

    /// The rule that a routine without a list is told: anything but 1 is that of MP/M II.
    pub fn told(number: u32) -> Rule {
        match number {
            1 => Rule::Cpm22,
            _ => Rule::MpmII,
        }
    }

    /// The rule that a list chooses, or that Start is given; None for a number above 1.
    pub fn chosen(number: u32) -> Option<Rule> {
        (number < 2).then(|| Rule::told(number))
    }

    pub fn number(self) -> u32 {
        match self {
            Rule::MpmII => 0,
            Rule::Cpm22 => 1,
        }
    }

    /// One past the last record that a file can have.
    pub fn record_limit(self) -> u32 {
        match self {
            Rule::MpmII => 262_144,
            Rule::Cpm22 => 65_536,
        }
    }

    /// One past the highest module that an entry can have.
    pub fn module_limit(self) -> u8 {
        match self {
            Rule::MpmII => 64,
            Rule::Cpm22 => 16,
        }
    }
}
