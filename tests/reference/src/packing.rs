//! Packing: the same files with their entries at the lowest places and their blocks from 2 on.

use crate::drive::{EMPTY, FIRST_DATA_BLOCK};
use crate::kind::{Kind, ENTRY};

const MAP: usize = 16;

/// A sound image packed: entries and blocks in the order in which a walk over the directory meets them.
pub fn packed(kind: Kind, image: &[u8]) -> Vec<u8> {
    let (block, directory) = (kind.block(), kind.directory());
    let (mut entries, mut blocks) = (Vec::new(), Vec::new());
    let used = image[..directory].chunks_exact(ENTRY);
    for old in used.filter(|entry| entry[0] != EMPTY) {
        let mut entry = old.to_vec();
        for (index, number) in kind.numbers(&old[MAP..]).enumerate() {
            if number == 0 {
                continue;
            }
            let next = FIRST_DATA_BLOCK + blocks.len() / block;
            kind.put_number(&mut entry[MAP..], index, next as u16);
            let at = block * usize::from(number);
            blocks.extend(&image[at..at + block]);
        }
        entries.extend(entry);
    }
    entries.resize(directory, EMPTY);
    blocks.resize(image.len() - directory, 0);
    entries.extend(blocks);
    entries
}
