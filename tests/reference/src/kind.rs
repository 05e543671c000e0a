//! The two kinds of drive, and the sizes that they differ in.

pub const ENTRY: usize = 32;
pub const RECORD: usize = 128;
pub const RECORDS_PER_EXTENT: u32 = 128;

const DIRECTORY_BLOCKS: usize = 2;
const MAP: usize = 16;

#[derive(Clone, Copy, Debug, PartialEq, Eq, PartialOrd, Ord)]
pub enum Kind {
    First,
    Second,
}

impl Kind {
    pub const ALL: [Kind; 2] = [Kind::First, Kind::Second];

    /// The kind that the host tells by this number; None for an unknown one.
    pub fn told(number: u32) -> Option<Kind> {
        match number {
            0 => Some(Kind::First),
            1 => Some(Kind::Second),
            _ => None,
        }
    }

    pub fn number(self) -> u32 {
        match self {
            Kind::First => 0,
            Kind::Second => 1,
        }
    }

    pub fn other(self) -> Kind {
        match self {
            Kind::First => Kind::Second,
            Kind::Second => Kind::First,
        }
    }

    /// The length of a block.
    pub fn block(self) -> usize {
        match self {
            Kind::First => 1_024,
            Kind::Second => 2_048,
        }
    }

    pub fn fewest_blocks(self) -> usize {
        match self {
            Kind::First => 3,
            Kind::Second => 257,
        }
    }

    pub fn most_blocks(self) -> usize {
        match self {
            Kind::First => 256,
            Kind::Second => 4_096,
        }
    }

    /// The bytes of a block number.
    pub fn number_width(self) -> usize {
        match self {
            Kind::First => 1,
            Kind::Second => 2,
        }
    }

    /// The length of the allocation vector: a bit for each block that a drive of this kind can have.
    pub fn vector(self) -> usize {
        self.most_blocks() / 8
    }

    /// The length of the directory.
    pub fn directory(self) -> usize {
        DIRECTORY_BLOCKS * self.block()
    }

    pub fn entries(self) -> usize {
        self.directory() / ENTRY
    }

    pub fn numbers_per_entry(self) -> usize {
        MAP / self.number_width()
    }

    pub fn records_per_block(self) -> u32 {
        RECORDS_PER_EXTENT / self.numbers_per_entry() as u32
    }

    /// How many blocks an image of this length has; None if this kind does not have the length.
    pub fn blocks_of(self, length: usize) -> Option<usize> {
        let blocks = length / self.block();
        let fits = (self.fewest_blocks()..=self.most_blocks()).contains(&blocks);
        (length.is_multiple_of(self.block()) && fits).then_some(blocks)
    }

    /// The block numbers in the sixteen map bytes of an entry.
    pub fn numbers(self, map: &[u8]) -> impl Iterator<Item = u16> + '_ {
        map.chunks_exact(self.number_width())
            .map(|bytes| u16::from_le_bytes([bytes[0], bytes.get(1).copied().unwrap_or(0)]))
    }

    /// Puts a block number into the sixteen map bytes of an entry.
    pub fn put_number(self, map: &mut [u8], index: usize, block: u16) {
        let width = self.number_width();
        map[width * index..width * (index + 1)].copy_from_slice(&block.to_le_bytes()[..width]);
    }
}
