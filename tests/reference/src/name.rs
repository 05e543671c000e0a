pub const NAME_LENGTH: usize = 11;
pub const HIGH_BIT: u8 = 0x80;

const BLANK: u8 = 32;
const LAST_PRINTABLE: u8 = 126;
const ANY: u8 = b'?';

/// A legal name, high bits clear.
#[derive(Clone, Copy, Debug, PartialEq, Eq, PartialOrd, Ord)]
pub struct Name([u8; NAME_LENGTH]);

impl Name {
    /// The name in these bytes, whatever their high bits; None if it is illegal.
    pub fn read(bytes: &[u8]) -> Option<Name> {
        let bytes: [u8; NAME_LENGTH] = bytes.try_into().ok()?;
        let low = bytes.map(|byte| byte & !HIGH_BIT);
        let legal = low.iter().all(|&byte| is_legal(byte)) && low[0] != BLANK;
        legal.then_some(Name(low))
    }

    pub fn bytes(self) -> [u8; NAME_LENGTH] {
        self.0
    }
}

/// What a search looks for: in each place of a name this byte, or any where there is none.
#[derive(Clone, Copy, Debug, PartialEq, Eq)]
pub struct Pattern([Option<u8>; NAME_LENGTH]);

impl Pattern {
    /// Any bytes are a pattern, an illegal name too; high bits take no part.
    pub fn read(bytes: [u8; NAME_LENGTH]) -> Pattern {
        let wanted = |byte: u8| Some(byte & !HIGH_BIT).filter(|low| *low != ANY);
        Pattern(bytes.map(wanted))
    }

    pub fn matches(&self, name: Name) -> bool {
        let places = self.0.iter().zip(name.0);
        places
            .into_iter()
            .all(|(wanted, has)| wanted.is_none_or(|byte| byte == has))
    }
}

fn is_legal(low: u8) -> bool {
    (BLANK..=LAST_PRINTABLE).contains(&low) && low != ANY
}

#[derive(Clone, Copy, Debug, PartialEq, Eq, PartialOrd, Ord)]
pub struct File {
    pub user: u8,
    pub name: Name,
}
