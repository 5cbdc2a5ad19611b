//! Plans of small and of large rounds, and of hard ones with `always`, beside plain ones: the page file is read, the
//! round planned, and the transmission and the certificate written to memory.

use crate::families::{HARD, hard, round};
use crate::free::search_freely;
use crate::library;
use crate::planning::{classes_of, write};
use crate::promised::{SearchLimit, search};
use crate::random::Random;
use crate::reading::pages_of;
use crate::slots::{End, Page};
use crate::timing::{beside, print_speeds, print_times};

const LIMIT: u32 = 100_000;
const GREATEST_LIMIT: u32 = 1_000_000;
const SAMPLE: &[u8] = include_bytes!("../../examples/round.csv");

/// What a plan writes, or what the search knew at its limit.
type Planned = Result<(Vec<u8>, Vec<u8>), (u32, u32)>;

fn plan(pages: &[u8], limit: u32) -> Planned {
    let pages = pages_of(pages);
    match search(&classes_of(&pages), limit, End::Open) {
        Ok(found) => {
            let (mut tx, mut cert) = (Vec::new(), Vec::new());
            write(&pages, &found, &mut tx, &mut cert).expect("memory");
            Ok((tx, cert))
        }
        Err(SearchLimit { least, found, .. }) => Err((least, found)),
    }
}

fn plan_always(pages: &[u8]) -> (Vec<u8>, Vec<u8>) {
    let pages = pages_of(pages);
    let (mut tx, mut cert) = (Vec::new(), Vec::new());
    let Ok(found) = search_freely(&classes_of(&pages), LIMIT, End::Open).0 else { panic!("the limit") };
    write(&pages, &found, &mut tx, &mut cert).expect("memory");
    (tx, cert)
}

/// Buffers for the largest round.
struct Buffers {
    tx: Vec<u8>,
    cert: Vec<u8>,
}

impl Buffers {
    /// The lengths of both texts, of which the certificate is to be the same.
    fn planned(&mut self, pages: &[u8], limit: u32, always: bool) -> Result<(usize, usize), (u32, u32)> {
        library::plan(pages, &mut self.tx, &mut self.cert, limit, always)
    }

    fn assert_same(&mut self, pages: &[u8], always: bool, wanted: &(Vec<u8>, Vec<u8>)) {
        let (tx, cert) = self.planned(pages, LIMIT, always).expect("a plan");
        assert!(tx == wanted.0.len() && self.cert[..cert] == wanted.1, "the plans differ");
    }
}

/// A page file of these pages: numbers, and texts where a number would be longer than a message may be.
fn page_file(pages: &[Page]) -> Vec<u8> {
    let mut file = String::from("address,kind,message\n");
    for (place, page) in pages.iter().enumerate() {
        let address = 8 * place as u32 + page.frame;
        let items = page.length as usize - 1;
        file += &match items {
            0 => format!("{address},tone0,\n"),
            1..=800 => format!("{address},numeric,{}\n", "1".repeat(5 * items)),
            _ => format!("{address},alpha,{}\n", "a".repeat(20 * items / 7)),
        };
    }
    file.into_bytes()
}

fn long(_: &mut Random) -> u32 {
    1_401
}

fn one(_: &mut Random) -> u32 {
    1
}

fn time_round(part: &str, file: &[u8], calls: u32, runs: u32, buffers: &mut Buffers) {
    let wanted = plan(file, LIMIT).expect("a plan");
    buffers.assert_same(file, false, &wanted);
    let plain = || (0..calls).map(|_| plan(file, LIMIT).map_or(0, |texts| texts.0.len())).sum::<usize>();
    let times = beside(runs, plain, || (0..calls).map(|_| buffers.planned(file, LIMIT, false).map_or(0, |lens| lens.0)).sum());
    if wanted.0.len() < 1 << 20 {
        print_times(part, calls, times);
    } else {
        print_speeds(part, wanted.0.len(), times);
    }
}

fn time_hard(buffers: &mut Buffers) {
    for (name, pages) in HARD {
        let file = page_file(&hard(pages));
        buffers.assert_same(&file, true, &plan_always(&file));
        let calls = 200;
        let plain = || (0..calls).map(|_| plan_always(&file).0.len()).sum::<usize>();
        let library = || (0..calls).map(|_| buffers.planned(&file, LIMIT, true).map_or(0, |lens| lens.0)).sum();
        print_times(&format!("plan with always, {name}"), calls, beside(5, plain, library));
    }
}

/// A round that runs into the greatest limit: microseconds a node.
fn time_limit(buffers: &mut Buffers) {
    let (name, pages) = HARD[1];
    let file = page_file(&hard(pages));
    let plain = || plan(&file, GREATEST_LIMIT).map(|_| ());
    let times = beside(3, plain, || buffers.planned(&file, GREATEST_LIMIT, false).map(|_| ()));
    print_times(&format!("plan, {name}, a node up to the limit"), GREATEST_LIMIT, times);
}

pub fn run() {
    let mut buffers = Buffers { tx: vec![0; 256 << 20], cert: vec![0; 16 << 20] };
    time_round("plan, 6 pages of examples/round.csv", SAMPLE, 1_000, 5, &mut buffers);
    let mut random = Random::new();
    for (count, calls) in [(100, 100), (1_000, 20), (20_000, 1)] {
        let file = page_file(&round(&mut random, count, crate::families::mixed));
        time_round(&format!("plan, {count} mixed pages"), &file, calls, 5, &mut buffers);
    }
    time_round("plan, 20,000 tones", &page_file(&round(&mut random, 20_000, one)), 1, 5, &mut buffers);
    time_round("plan, 20,000 pages of 4,000 characters or so", &page_file(&round(&mut random, 20_000, long)), 1, 3, &mut buffers);
    time_hard(&mut buffers);
    time_limit(&mut buffers);
}
