//! Hearings of a transmission of 100 MB with 0 and with 2 wrong bits in each word, beside those of a plain pager, by
//! the same tables.

use crate::codewords::{FAR, IDLE, SYNC, check_bits, errors, syndrome};
use crate::library;
use crate::listing::{Page, listing};
use crate::random::Random;
use crate::timing::{beside, print_speeds};

const BATCHES: usize = 1_470_587;
const ADDRESS: u32 = 1_234_567;
const RUNS: u32 = 9;

struct Pager<'a> {
    errors: &'a [u32; 2048],
    open: Option<Page>,
    pages: Vec<Page>,
}

impl Pager<'_> {
    /// Hears a word, which is in the frame of the address or not.
    fn hear(&mut self, word: u32, own: bool) {
        let error = self.errors[syndrome(word) as usize];
        if error == FAR {
            self.pages.extend(self.open.take());
            return;
        }
        let word = word ^ error;
        if word != IDLE && word >> 31 == 1 {
            if let Some(page) = &mut self.open {
                page.items.push(word >> 11 & 0xF_FFFF);
            }
            return;
        }
        self.pages.extend(self.open.take());
        if own && word != IDLE && word >> 13 == ADDRESS / 8 {
            self.open = Some(Page { address: ADDRESS, function: (word >> 11 & 3) as u8, items: Vec::new() });
        }
    }
}

fn hear_all(errors: &[u32; 2048], bytes: &[u8]) -> Option<Vec<Page>> {
    let count = bytes.iter().take_while(|&&byte| byte == 0xAA).count();
    let rest = &bytes[count..];
    if count < 72 || rest.is_empty() || rest.len() % 68 != 0 {
        return None;
    }
    let mut pager = Pager { errors, open: None, pages: Vec::new() };
    let frame = 1 + 2 * (ADDRESS as usize % 8);
    for batch in rest.chunks_exact(68) {
        let word = |place: usize| u32::from_be_bytes(batch[4 * place..4 * place + 4].try_into().unwrap());
        if pager.open.is_some() {
            for place in 1..frame {
                pager.hear(word(place), false);
            }
        }
        pager.hear(word(frame), true);
        pager.hear(word(frame + 1), true);
        if pager.open.is_some() {
            for place in frame + 2..17 {
                pager.hear(word(place), false);
            }
        }
    }
    pager.pages.extend(pager.open.take());
    Some(pager.pages)
}

fn any_word(random: &mut Random) -> u32 {
    let data = if random.below(10) == 0 {
        4 * random.below(1 << 18) + random.below(4)
    } else {
        1 << 20 | random.below(1 << 20)
    };
    data << 11 | check_bits(data)
}

fn transmission(wrong: u32) -> Vec<u8> {
    let mut random = Random::new();
    let mut bytes = vec![0xAA; 72];
    for batch in 0..BATCHES {
        bytes.extend_from_slice(&(SYNC ^ random.error(wrong)).to_be_bytes());
        for slot in 0..16 {
            let word = if batch % 1000 == 0 && slot == 2 * (ADDRESS % 8) {
                let data = ADDRESS / 8 * 4 + 3;
                data << 11 | check_bits(data)
            } else {
                any_word(&mut random)
            };
            bytes.extend_from_slice(&(word ^ random.error(wrong)).to_be_bytes());
        }
    }
    bytes
}

/// Times the listing of what the pager of one address shows.
pub fn run() {
    let errors = errors();
    let mut buffer = vec![0; 1 << 20];
    for (part, wrong) in [("hear, no wrong bit", 0), ("hear, 2 wrong bits in each word", 2)] {
        let bytes = transmission(wrong);
        let wanted = listing(&hear_all(&errors, &bytes).expect("batches"));
        let len = library::hear(ADDRESS, &bytes, &mut buffer);
        assert!(buffer[..len] == wanted, "the listings differ");
        let plain = || listing(&hear_all(&errors, &bytes).expect("batches")).len();
        print_speeds(part, bytes.len(), beside(RUNS, plain, || library::hear(ADDRESS, &bytes, &mut buffer)));
    }
}
