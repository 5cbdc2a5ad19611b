//! Listings of 100 MB of idle batches, of long messages and of short pages, beside those of a plain decoder that
//! takes pieces and makes the same checks, with the same tables.

use crate::codewords::{IDLE, SYNC, check_bits};
use crate::library;
use crate::listing::{Page, listing};
use crate::timing::{beside, print_speeds};

const BATCHES: usize = 1_500_000;
const RUNS: u32 = 5;
const BATCH: u64 = 17;

#[inline(always)]
fn is_codeword(number: u32) -> bool {
    number % 2048 == check_bits(number / 2048)
}

#[derive(Clone, Copy, PartialEq, Debug)]
enum Fault {
    ShortPreamble,
    NoSync(u64),
    BadWord(u64),
    Orphan(u64),
    Truncated,
    NoBatch,
    Failed,
}

struct Decoder {
    failed: bool,
    leading: u64,
    place: u64,
    carry: Vec<u8>,
    pages: Vec<Page>,
    current: Option<Page>,
}

impl Decoder {
    fn new() -> Decoder {
        Decoder { failed: false, leading: 0, place: 0, carry: Vec::with_capacity(4), pages: Vec::new(), current: None }
    }

    fn feed(&mut self, piece: &[u8]) -> Result<(), Fault> {
        if self.failed {
            return Err(Fault::Failed);
        }
        let result = self.take(piece);
        self.failed = result.is_err();
        result
    }

    fn take(&mut self, piece: &[u8]) -> Result<(), Fault> {
        let mut rest = piece;
        if self.place == 0 && self.carry.is_empty() {
            let count = rest.iter().take_while(|b| **b == 0xAA).count();
            self.leading += count as u64;
            rest = &rest[count..];
        }
        if rest.is_empty() {
            return Ok(());
        }
        if self.leading < 72 {
            return Err(Fault::ShortPreamble);
        }
        while !self.carry.is_empty() && !rest.is_empty() {
            self.byte(rest[0])?;
            rest = &rest[1..];
        }
        let words = rest.chunks_exact(4);
        let tail = words.remainder();
        for word in words {
            self.word(u32::from_be_bytes([word[0], word[1], word[2], word[3]]))?;
        }
        for byte in tail {
            self.byte(*byte)?;
        }
        Ok(())
    }

    fn byte(&mut self, byte: u8) -> Result<(), Fault> {
        self.carry.push(byte);
        if self.carry.len() == 4 {
            let word = u32::from_be_bytes([self.carry[0], self.carry[1], self.carry[2], self.carry[3]]);
            self.carry.clear();
            self.word(word)?;
        }
        Ok(())
    }

    #[inline]
    fn word(&mut self, word: u32) -> Result<(), Fault> {
        let slot = self.place % BATCH;
        if slot == 0 {
            if word != SYNC {
                return Err(Fault::NoSync(self.place / BATCH));
            }
        } else {
            self.codeword(word, slot)?;
        }
        self.place += 1;
        Ok(())
    }

    #[inline]
    fn codeword(&mut self, word: u32, slot: u64) -> Result<(), Fault> {
        if !is_codeword(word) {
            return Err(Fault::BadWord(self.place - self.place / BATCH - 1));
        }
        let data = word / 2048;
        if word == IDLE {
            self.close();
        } else if data < 1 << 20 {
            self.close();
            let address = 8 * (data / 4) + (slot - 1) as u32 / 2;
            self.current = Some(Page { address, function: (data % 4) as u8, items: Vec::new() });
        } else {
            match &mut self.current {
                Some(page) => page.items.push(data - (1 << 20)),
                None => return Err(Fault::Orphan(self.place - self.place / BATCH - 1)),
            }
        }
        Ok(())
    }

    fn close(&mut self) {
        if let Some(page) = self.current.take() {
            self.pages.push(page);
        }
    }

    fn finish(&mut self) -> Result<Vec<Page>, Fault> {
        if self.failed {
            return Err(Fault::Failed);
        }
        self.failed = true;
        if self.leading < 72 {
            return Err(Fault::ShortPreamble);
        }
        if self.place == 0 && self.carry.is_empty() {
            return Err(Fault::NoBatch);
        }
        if self.place % BATCH != 0 || !self.carry.is_empty() {
            return Err(Fault::Truncated);
        }
        self.close();
        Ok(std::mem::take(&mut self.pages))
    }
}

fn decode(bytes: &[u8]) -> Result<Vec<Page>, Fault> {
    let mut decoder = Decoder::new();
    decoder.feed(bytes)?;
    decoder.finish()
}

fn encoded(data: u32) -> u32 {
    data << 11 | check_bits(data)
}

fn transmission(page: usize) -> Vec<u8> {
    let mut bytes = vec![0xAA; 72];
    let mut left = 0;
    for index in 0..16 * BATCHES {
        if index % 16 == 0 {
            bytes.extend_from_slice(&SYNC.to_be_bytes());
        }
        let word = if page == 0 {
            IDLE
        } else if left == 0 {
            encoded(4 * (index as u32 / 16 % 200_000) + 3)
        } else {
            encoded(1 << 20 | (index as u32).wrapping_mul(2_654_435_761) >> 12)
        };
        left = if left == 0 { page.max(1) - 1 } else { left - 1 };
        bytes.extend_from_slice(&word.to_be_bytes());
    }
    bytes
}

/// Times the listing of batches of idles, of pages of 1,407 codewords and of pages of 16 codewords.
pub fn run() {
    let mut buffer = vec![0; 256 << 20];
    for (part, page) in [("decode, idle batches", 0), ("decode, long messages", 1407), ("decode, short pages", 16)] {
        let bytes = transmission(page);
        let wanted = listing(&decode(&bytes).expect("pages"));
        let len = library::decode(&bytes, &mut buffer);
        assert!(buffer[..len] == wanted, "the listings differ");
        let plain = || listing(&decode(&bytes).expect("pages")).len();
        print_speeds(part, bytes.len(), beside(RUNS, plain, || library::decode(&bytes, &mut buffer)));
    }
}
