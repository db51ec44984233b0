//! Memory files for the plain programs: the pages are in an ordered map, each in a box of its own. Nothing is tested that a
//! sound memory file meets.
use std::collections::BTreeMap;

pub const PAGE: usize = 4096;
const SLOT: usize = 8 + PAGE;
const HEAD: usize = 16;

pub type Page = [u8; PAGE];

pub type Pages = BTreeMap<u64, Box<Page>>;

pub static ZEROS: Page = [0; PAGE];

/// The pages of a memory file.
pub fn read(file: &[u8]) -> Pages {
    let slots = file[HEAD..].chunks_exact(SLOT).map(|slot| slot.split_at(8));
    let pages = slots.map(|(number, page)| {
        let number = u64::from_le_bytes(number.try_into().unwrap());
        (number, Box::new(page.try_into().unwrap()))
    });
    pages.collect()
}

/// The memory file of the pages that are not all zeros.
pub fn file(pages: &Pages) -> Vec<u8> {
    let stored: Vec<_> = pages
        .iter()
        .filter(|(_, page)| page[..] != ZEROS[..])
        .collect();
    let mut file = Vec::with_capacity(HEAD + stored.len() * SLOT);
    file.extend(b"KXMEM001");
    file.extend((stored.len() as u64).to_le_bytes());
    for (number, page) in stored {
        file.extend(number.to_le_bytes());
        file.extend(&page[..]);
    }
    file
}

/// A page that is held: one of zeros, where it was not held before.
pub fn held(pages: &mut Pages, number: u64) -> &mut Page {
    pages.entry(number).or_insert_with(|| Box::new(ZEROS))
}
