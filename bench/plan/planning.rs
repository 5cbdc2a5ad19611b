//! Plans of rounds and the bytes that are written of them, in plain Rust.

use crate::codewords::{IDLE, SYNC, check_bits};
use crate::promised::Found;
use crate::reading::Page;
use crate::slots::{self, CLASSES, Classes, End};
use crate::touring::Step;
use std::io::{self, Write};

const PIECE: usize = 4_352;

fn length(page: &Page) -> u32 {
    1 + page.items.len() as u32
}

/// The places of the pages of the runs, the pages of a class in the order of the round.
fn order_of(pages: &[Page], steps: &[Step]) -> Vec<u32> {
    let class = |page: &Page| (16 * (page.address % 8) + length(page) % 16) as usize;
    let mut next = [0; CLASSES + 1];
    for page in pages {
        next[class(page) + 1] += 1;
    }
    for class in 0..CLASSES {
        next[class + 1] += next[class];
    }
    let mut cursor = next;
    let mut sorted = vec![0; pages.len()];
    for (place, page) in pages.iter().enumerate() {
        sorted[cursor[class(page)] as usize] = place as u32;
        cursor[class(page)] += 1;
    }
    let mut order = Vec::with_capacity(pages.len());
    for step in steps {
        if let Step::Run { class, .. } = *step {
            order.push(sorted[next[usize::from(class)] as usize]);
            next[usize::from(class)] += 1;
        }
    }
    order
}

struct Sender<W> {
    tx: W,
    piece: Vec<u8>,
    slot: u32,
}

impl<W: Write> Sender<W> {
    fn put(&mut self, data: u32) -> io::Result<()> {
        self.put_word(data << 11 | check_bits(data))
    }

    fn put_word(&mut self, word: u32) -> io::Result<()> {
        if self.piece.len() > PIECE - 8 {
            self.tx.write_all(&self.piece)?;
            self.piece.clear();
        }
        if self.slot == 0 {
            self.piece.extend_from_slice(&SYNC.to_be_bytes());
        }
        self.piece.extend_from_slice(&word.to_be_bytes());
        self.slot = (self.slot + 1) % 16;
        Ok(())
    }
}

fn write_transmission<W: Write>(tx: W, pages: &[Page], steps: &[Step], order: &[u32]) -> io::Result<()> {
    let mut sender = Sender { tx, piece: Vec::with_capacity(PIECE), slot: 0 };
    sender.piece.resize(72, 0xaa);
    let mut places = order.iter();
    for step in steps {
        if *step == Step::Idle {
            sender.put_word(IDLE)?;
            continue;
        }
        let page = &pages[*places.next().expect("a page for each run") as usize];
        sender.put(page.address / 8 << 2 | page.function)?;
        for item in &page.items {
            sender.put(1 << 20 | item)?;
        }
    }
    sender.tx.write_all(&sender.piece)
}

/// The class table of the pages, for the open end.
pub fn classes_of(pages: &[Page]) -> Classes {
    let kinds: Vec<slots::Page> = pages.iter().map(|page| slots::Page { frame: page.address % 8, length: length(page) }).collect();
    slots::classes_of(&kinds, End::Open)
}

/// Writes the transmission of the tour and then the certificate of its tree.
pub fn write<T: Write, C: Write>(pages: &[Page], found: &Found, tx: T, cert: &mut C) -> io::Result<()> {
    let order = order_of(pages, &found.steps);
    write_transmission(tx, pages, &found.steps, &order)?;
    cert.write_all(&found.tree.certificate(End::Open, found.batches))
}
