//! Page files in plain Rust: records, checks and packed messages.

use std::collections::BTreeSet;

pub struct Page {
    pub address: u32,
    pub function: u32,
    pub items: Vec<u32>,
}

/// The fields of one record after the other, by commas, double quotes and line feeds; one buffer holds them.
struct Records<'a> {
    bytes: &'a [u8],
    place: usize,
    text: Vec<u8>,
    ends: Vec<usize>,
}

impl Records<'_> {
    /// Reads a record that is not empty, where there is one.
    fn next(&mut self) -> bool {
        self.text.clear();
        self.ends.clear();
        let (mut quoted, mut some) = (false, false);
        while let Some(byte) = self.bytes.get(self.place).copied() {
            self.place += 1;
            match byte {
                b'"' if quoted && self.bytes.get(self.place) == Some(&b'"') => {
                    self.text.push(b'"');
                    self.place += 1;
                }
                b'"' if quoted => quoted = false,
                b'"' if self.text.len() == self.ends.last().copied().unwrap_or(0) => {
                    quoted = true;
                    some = true;
                }
                b',' if !quoted => {
                    self.ends.push(self.text.len());
                    some = true;
                }
                b'\n' | b'\r' if !quoted => {
                    if some {
                        break;
                    }
                }
                byte => {
                    self.text.push(byte);
                    some = true;
                }
            }
        }
        self.ends.push(self.text.len());
        some
    }

    fn field(&self, place: usize) -> &[u8] {
        let start = if place == 0 { 0 } else { self.ends[place - 1] };
        &self.text[start..self.ends[place]]
    }
}

const fn mirrored() -> [u8; 128] {
    let mut table = [0; 128];
    let mut code = 0;
    while code < 128 {
        table[code] = (code as u8).reverse_bits();
        code += 1;
    }
    table
}

static MIRRORED: [u8; 128] = mirrored();

/// Items of twenty bits, of codes of so many bits with the lowest first.
fn pack(width: u32, count: usize, codes: impl Iterator<Item = u8>) -> Vec<u32> {
    let (mut held, mut waiting, mut items) = (0u32, 0, Vec::with_capacity((count * width as usize).div_ceil(20)));
    for code in codes {
        held = held << width | u32::from(MIRRORED[usize::from(code)] >> (8 - width));
        waiting += width;
        if waiting >= 20 {
            waiting -= 20;
            items.push(held >> waiting);
            held &= (1 << waiting) - 1;
        }
    }
    if waiting > 0 {
        items.push(held << (20 - waiting));
    }
    items
}

const fn numeric_codes() -> [u8; 256] {
    let (characters, mut table, mut code) = (b"0123456789*U -][", [16; 256], 0);
    while code < 16 {
        table[characters[code] as usize] = code as u8;
        code += 1;
    }
    table
}

static NUMERIC_CODES: [u8; 256] = numeric_codes();

fn numeric_code(byte: u8) -> Option<u8> {
    let code = NUMERIC_CODES[usize::from(byte)];
    (code < 16).then_some(code)
}

fn payload(kind: &[u8], text: &[u8]) -> (u32, Vec<u32>) {
    match kind {
        [b't', b'o', b'n', b'e', digit @ b'0'..=b'3'] => {
            assert!(text.is_empty(), "a tone page has no message");
            (u32::from(digit - b'0'), Vec::new())
        }
        b"numeric" => {
            assert!(!text.is_empty() && text.iter().all(|byte| numeric_code(*byte).is_some()), "bad text");
            let fill = (5 - text.len() % 5) % 5;
            let codes = text.iter().map(|byte| numeric_code(*byte).unwrap_or(12)).chain(std::iter::repeat_n(12, fill));
            (0, pack(4, text.len() + fill, codes))
        }
        b"alpha" => {
            assert!(!text.is_empty() && text.iter().all(|byte| *byte != 0 && *byte < 128), "bad text");
            (3, pack(7, text.len(), text.iter().copied()))
        }
        _ => panic!("unknown kind"),
    }
}

fn address_of(digits: &[u8]) -> u32 {
    assert!((1..=7).contains(&digits.len()) && digits.iter().all(u8::is_ascii_digit), "bad address");
    let address = digits.iter().fold(0, |value, digit| 10 * value + u32::from(digit - b'0'));
    assert!(address <= 2_097_151, "bad address");
    assert!(!matches!(address, 2_007_664..=2_007_671 | 2_045_056..=2_045_063), "reserved address");
    address
}

/// The pages of a page file.
pub fn pages_of(bytes: &[u8]) -> Vec<Page> {
    let mut records = Records { bytes, place: 0, text: Vec::new(), ends: Vec::new() };
    assert!(records.next() && records.text == b"addresskindmessage" && records.ends == [7, 11, 18], "bad header");
    let mut seen = BTreeSet::new();
    let mut pages = Vec::new();
    while records.next() {
        assert_eq!(records.ends.len(), 3, "three fields are wanted");
        let address = address_of(records.field(0));
        assert!(records.field(2).len() <= 4_000, "the message is too long");
        let (function, items) = payload(records.field(1), records.field(2));
        assert!(seen.insert(address), "the address is already there");
        assert!(pages.len() < 20_000, "too many pages");
        pages.push(Page { address, function, items });
    }
    assert!(!pages.is_empty(), "there are no pages");
    pages
}
