//! What `drill` does, as a plain Rust program: what the measured drill can be compared with.
//!
//!     plain_drill MEMORY POOL OUT EVENTS
//!
//! Applies the events of the file EVENTS over the memory file MEMORY and the pool file POOL, prints the reply to each, and
//! writes the memory file OUT. It knows what is measured, and no more: stores, and loads in plain mode of one segment that
//! one caller opens, writes, and installs or cancels, where no page of the pool is one of the segment's. The pages are in an ordered map,
//! each in a box of its own. Nothing is tested that sound files meet.
mod plain_memory;

use plain_memory::{file, held, read, Pages, PAGE};
use std::collections::{HashSet, VecDeque};
use std::fmt::Write;
use std::ops::RangeInclusive;
use std::{env, fs};

struct Segment {
    first: u64,
    count: usize,
    bytes: Vec<u8>,
}

/// A load that is written, or the installed image.
struct Image {
    pages: Vec<u64>,
    set: HashSet<u64>,
}

#[derive(Default)]
struct Slots {
    memory: Pages,
    pool: VecDeque<u64>,
    load: Option<Segment>,
    written: Option<Image>,
    image: Option<Image>,
}

fn hexadecimal(text: &str) -> u64 {
    u64::from_str_radix(text, 16).unwrap()
}

// The pages of a line of the pool: one, or the first and the last of a run.
fn pages_of(line: &str) -> RangeInclusive<u64> {
    let (first, last) = line.split_once('-').unwrap_or((line, line));
    hexadecimal(first)..=hexadecimal(last)
}

fn bytes_of(text: &str) -> Vec<u8> {
    let digits = if text == "-" { "" } else { text };
    let pairs = (0..digits.len()).step_by(2);
    pairs
        .map(|at| hexadecimal(&digits[at..at + 2]) as u8)
        .collect()
}

impl Slots {
    fn put(&mut self, page: u64, bytes: &[u8]) {
        let held = held(&mut self.memory, page);
        held[..bytes.len()].copy_from_slice(bytes);
        held[bytes.len()..].fill(0);
    }

    fn touches(&self, page: u64) -> bool {
        let images = [&self.written, &self.image];
        images
            .into_iter()
            .flatten()
            .any(|it| it.set.contains(&page))
    }

    // The list has a word for the segment, one for each page, and the done word: up to 510 pages on one list page.
    fn write(&mut self) {
        let segment = self.load.take().unwrap();
        let pages: Vec<u64> = self.pool.drain(..segment.count + 2).collect();
        let mut list = vec![segment.first * PAGE as u64 + 1];
        list.extend(pages[2..].iter().map(|page| page * PAGE as u64 + 8));
        list.push(4);
        let list: Vec<u8> = list.iter().flat_map(|word| word.to_le_bytes()).collect();
        self.put(pages[1], &list);
        for (number, page) in pages[2..].iter().enumerate() {
            let start = segment.bytes.len().min(number * PAGE);
            let end = segment.bytes.len().min(start + PAGE);
            self.put(*page, &segment.bytes[start..end]);
        }
        let set = pages.iter().copied().collect();
        self.written = Some(Image { pages, set });
    }

    fn reply(&mut self, line: &str, text: &mut String) {
        let words: Vec<&str> = line.split(' ').collect();
        match words[0] {
            "store" => {
                let page = hexadecimal(words[1]);
                if self.touches(page) {
                    write!(text, "touched {page:x}").unwrap();
                    return;
                }
                self.put(page, &bytes_of(words[2]));
            }
            "add" => {
                self.load = Some(Segment {
                    first: hexadecimal(words[2]) / PAGE as u64,
                    count: hexadecimal(words[3]) as usize / PAGE,
                    bytes: bytes_of(words[4]),
                });
            }
            "write" => self.write(),
            "install" => {
                if let Some(old) = self.image.take() {
                    self.pool.extend(old.pages);
                }
                self.image = self.written.take();
            }
            "cancel" => self.pool.extend(self.written.take().unwrap().pages),
            _ => (),
        }
        text.push_str("done");
    }
}

fn main() {
    let words: Vec<String> = env::args().skip(1).collect();
    let pool = fs::read_to_string(&words[1]).unwrap();
    let mut slots = Slots {
        memory: read(&fs::read(&words[0]).unwrap()),
        pool: pool.lines().flat_map(pages_of).collect(),
        ..Slots::default()
    };
    let mut text = String::new();
    for (number, line) in fs::read_to_string(&words[3]).unwrap().lines().enumerate() {
        write!(text, "{} ", number + 1).unwrap();
        slots.reply(line, &mut text);
        text.push('\n');
    }
    fs::write(&words[2], file(&slots.memory)).unwrap();
    print!("{text}");
}
