//! What a book holds, wherever its entries and blocks stand: two images hold the same book where this is the same.

use crate::drive::Drive;
use crate::name::{File, NAME_LENGTH};
use std::collections::BTreeMap;

/// A file's attributes, and the bytes of each block that it has, by the place of the block in the file.
#[derive(Debug, PartialEq, Eq)]
pub struct Contents<'a> {
    attributes: [u8; NAME_LENGTH],
    blocks: BTreeMap<u32, &'a [u8]>,
}

/// All files of a drive with what they hold.
pub fn book<'a>(drive: &Drive, image: &'a [u8]) -> BTreeMap<File, Contents<'a>> {
    let contents = |file: File| {
        let blocks = drive.blocks_of(&file).into_iter();
        let contents = Contents {
            attributes: drive.attributes(&file),
            blocks: blocks
                .map(|(place, block)| (place, &image[drive.block_part(block)]))
                .collect(),
        };
        (file, contents)
    };
    drive.files().map(contents).collect()
}
