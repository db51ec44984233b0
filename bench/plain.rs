//! What `trace` does, as a plain Rust program: what the measured trace can be compared with.
//!
//!     plain MEMORY OUT HEAD LIMIT [SWAP]
//!
//! Runs the list that begins with the word HEAD (hexadecimal) over the memory file MEMORY by at most LIMIT steps (decimal),
//! and writes the memory file OUT of the pages that are not all zeros. SWAP, an address, makes it kept mode. What a word
//! does and how a page is moved is as docs/DEFINITIONS.md says; the pages are in an ordered map, each in a box of its own.
//! Nothing is tested that a sound memory file meets.
mod plain_memory;

use plain_memory::{file, held, read, Page, Pages, PAGE, ZEROS};
use std::{env, fs, process};

const ADDRESS_LIMIT: u64 = 1 << 46;

struct Memory {
    pages: Pages,
}

impl Memory {
    fn page(&self, number: u64) -> &Page {
        self.pages.get(&number).map_or(&ZEROS, |page| page)
    }

    fn word(&self, address: u64) -> u64 {
        let place = address as usize % PAGE;
        u64::from_le_bytes(
            self.page(address / PAGE as u64)[place..place + 8]
                .try_into()
                .unwrap(),
        )
    }

    fn copy(&mut self, destination: u64, source: u64) {
        let page = *self.page(source);
        *held(&mut self.pages, destination) = page;
    }
}

fn run(memory: &mut Memory, head: u64, limit: u64, swap: Option<u64>) -> String {
    let (mut word, mut cursor, mut destination) = (head, 0, 0);
    for steps in 0..limit {
        if steps > 0 {
            if cursor >= ADDRESS_LIMIT {
                return format!("off {cursor:x} after {steps}\n");
            }
            word = memory.word(cursor);
            cursor += 8;
        }
        let address = word & !0xfff;
        if word & 1 != 0 {
            destination = address;
        } else if word & 2 != 0 {
            cursor = address;
        } else if word & 4 != 0 {
            return format!("done {}\n", steps + 1);
        } else if word & 8 != 0 {
            if let Some(off) = [address, destination]
                .into_iter()
                .find(|it| *it >= ADDRESS_LIMIT)
            {
                return format!("off {off:x} after {steps}\n");
            }
            let (to, from) = (destination / PAGE as u64, address / PAGE as u64);
            match swap {
                None => memory.copy(to, from),
                Some(swap) => {
                    memory.copy(swap, from);
                    memory.copy(from, to);
                    memory.copy(to, swap);
                }
            }
            destination += PAGE as u64;
        }
    }
    format!("running {limit}\n")
}

fn main() {
    let words: Vec<String> = env::args().skip(1).collect();
    if words.len() < 4 {
        eprintln!("usage: plain MEMORY OUT HEAD LIMIT [SWAP]");
        process::exit(2);
    }
    let hexadecimal = |word: &String| u64::from_str_radix(word, 16).unwrap();
    let pages = read(&fs::read(&words[0]).unwrap());
    let mut memory = Memory { pages };
    let swap = words.get(4).map(|word| hexadecimal(word) / PAGE as u64);
    let outcome = run(
        &mut memory,
        hexadecimal(&words[2]),
        words[3].parse().unwrap(),
        swap,
    );
    fs::write(&words[1], file(&memory.pages)).unwrap();
    print!("{outcome}");
}
