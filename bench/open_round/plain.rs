//! An open round of tones in plain Rust: pages in a vector, and a map of their places by address. Each line of standard
//! input is an edit, and is answered by a write of its own.

use std::collections::HashMap;
use std::fs::File;
use std::io::{self, BufRead, Write};
use std::os::fd::AsFd;

struct Page {
    address: u32,
    #[allow(dead_code)]
    function: u8,
    payload: Vec<u32>,
}

#[derive(Clone, Copy, Default)]
struct Class {
    count: u32,
    turns: u32,
}

struct Book {
    pages: Vec<Page>,
    places: HashMap<u32, usize>,
    for_open: [Class; 136],
    for_closed: [Class; 136],
}

/// The class of a page, for the open or the closed end.
fn class_of(page: &Page, closed: bool) -> usize {
    let frame = page.address as usize % 8;
    let length = 1 + page.payload.len();
    if closed && length == 1 { 128 + frame } else { 16 * frame + length % 16 }
}

impl Book {
    fn count(&mut self, page: &Page, by: i32) {
        let turns = (1 + page.payload.len() as i32) / 16;
        for (table, closed) in [(&mut self.for_open, false), (&mut self.for_closed, true)] {
            let class = &mut table[class_of(page, closed)];
            class.count = class.count.wrapping_add_signed(by);
            class.turns = class.turns.wrapping_add_signed(by * turns);
        }
    }

    fn add(&mut self, page: Page) -> bool {
        if page.address > 2_097_151 || self.pages.len() >= 20_000 || self.places.contains_key(&page.address) {
            return false;
        }
        self.count(&page, 1);
        self.places.insert(page.address, self.pages.len());
        self.pages.push(page);
        true
    }

    fn cancel(&mut self, address: u32) -> Option<Page> {
        let place = self.places.remove(&address)?;
        let page = self.pages.remove(place);
        for (behind, other) in self.pages.iter().enumerate().skip(place) {
            self.places.insert(other.address, behind);
        }
        self.count(&page, -1);
        Some(page)
    }
}

/// What a line asks for, and whether it was done.
fn edit(book: &mut Book, line: &str) -> bool {
    let fields: Vec<&str> = line.split(',').collect();
    match fields[..] {
        ["add", address, "tone0", ""] => match address.parse() {
            Ok(address) => book.add(Page { address, function: 0, payload: Vec::new() }),
            Err(_) => false,
        },
        ["cancel", address] => address.parse().is_ok_and(|address| book.cancel(address).is_some()),
        _ => false,
    }
}

fn main() -> io::Result<()> {
    let mut book = Book {
        pages: Vec::new(),
        places: HashMap::new(),
        for_open: [Class::default(); 136],
        for_closed: [Class::default(); 136],
    };
    let mut out = File::from(io::stdout().as_fd().try_clone_to_owned()?);
    for line in io::stdin().lock().lines() {
        let answer = if edit(&mut book, &line?) { format!("ok {}\n", book.pages.len()) } else { "refused\n".to_string() };
        out.write_all(answer.as_bytes())?;
    }
    Ok(())
}
