//! Rounds as page files, with the certificates that the search makes of them, for a comparison with those of
//! the proved program byte by byte.

use std::fs::write;

use crate::families::{FAMILIES, HARD, hard};
use crate::promised::search;
use crate::random::Random;
use crate::slots::{ENDS, Page, classes_of};

const HARD_LIMIT: u32 = 1_000_000;
const LIMIT: u32 = 100_000;

/// Writes the hard rounds and so many rounds of each family into the folder.
pub fn run(words: &[String]) {
    let (folder, rounds) = (&words[0], words[1].parse().expect("a count of rounds"));
    for (place, (_, pages)) in HARD.iter().enumerate() {
        write_round(&format!("{folder}/hard-{place}"), &hard(pages), HARD_LIMIT);
    }
    let mut random = Random::new();
    for (name, make) in FAMILIES {
        for place in 0..rounds {
            let name = name.replace(' ', "-").replace(',', "");
            write_round(&format!("{folder}/{name}-{place}"), &make(&mut random), LIMIT);
        }
    }
}

/// The page file, and for each end the certificate; none where the search stops at the limit.
fn write_round(path: &str, pages: &[Page], limit: u32) {
    write(format!("{path}.csv"), page_file(pages)).expect("a page file");
    for (word, end) in ENDS {
        let classes = classes_of(pages, end);
        if let Ok(found) = search(&classes, limit, end) {
            write(format!("{path}.{word}"), found.tree.certificate(end, found.batches)).expect("a certificate");
        }
    }
}

/// Numbers, and texts where a number would be longer than a message may be.
fn page_file(pages: &[Page]) -> String {
    let mut file = String::from("address,kind,message\n");
    for (place, page) in pages.iter().enumerate() {
        let address = 8 * place as u32 + page.frame;
        let items = page.length as usize - 1;
        file += &match items {
            0 => format!("{address},tone0,\n"),
            1..=800 => format!("{address},numeric,{}\n", "1".repeat(5 * items)),
            _ => format!("{address},alpha,{}\n", "a".repeat(20 * items / 7)),
        };
    }
    file
}
