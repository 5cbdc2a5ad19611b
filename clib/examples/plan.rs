//! Plans a page file and checks the certificate, in process:  plan PAGES.  Prints what it told.

#[repr(C)]
#[derive(Default)]
struct Place {
    record_number: u32,
    least: u32,
    found: u32,
    at: u64,
}

#[repr(C)]
#[derive(Default)]
struct PlanInfo {
    pages: u32,
    codewords: u32,
    in_order: u32,
    batches: u32,
    bound: u32,
    place: Place,
}

#[repr(C)]
#[derive(Default)]
struct CheckInfo {
    end: u32,
    batches: u32,
    place: Place,
}

extern "C" {
    fn pocsag_plan(
        pages: *const u8, pages_len: usize, tx: *mut u8, tx_size: usize, tx_len: *mut usize, cert: *mut u8,
        cert_size: usize, cert_len: *mut usize, limit: u32, end: u32, always: u32, info: *mut PlanInfo,
    ) -> u32;
    fn pocsag_check(pages: *const u8, pages_len: usize, cert: *const u8, cert_len: usize, info: *mut CheckInfo) -> u32;
}

/// The transmission, the certificate and what is told of them, or the status and the place of the fault.
fn plan(pages: &[u8]) -> Result<(Vec<u8>, Vec<u8>, PlanInfo), (u32, Place)> {
    let (mut tx, mut cert, mut info) = (vec![0; 65_536], vec![0; 65_536], PlanInfo::default());
    loop {
        let (mut tx_len, mut cert_len) = (0, 0);
        // Each pointer is that of a live slice or value of its own, with its length.
        let status = unsafe {
            pocsag_plan(
                pages.as_ptr(), pages.len(), tx.as_mut_ptr(), tx.len(), &mut tx_len, cert.as_mut_ptr(), cert.len(),
                &mut cert_len, 100_000, 0, 1, &mut info,
            )
        };
        tx.resize(tx_len, 0);
        cert.resize(cert_len, 0);
        match status {
            0 => return Ok((tx, cert, info)),
            7 | 8 => continue,
            _ => return Err((status, info.place)),
        }
    }
}

fn main() {
    let name = std::env::args().nth(1).expect("a page file");
    let pages = std::fs::read(name).expect("a page file");
    match plan(&pages) {
        Ok((tx, cert, info)) => {
            println!("pages {}\nbatches {}", info.pages, info.batches);
            println!("transmission {} bytes, certificate {} bytes", tx.len(), cert.len());
            let mut check = CheckInfo::default();
            let status = unsafe { pocsag_check(pages.as_ptr(), pages.len(), cert.as_ptr(), cert.len(), &mut check) };
            assert_eq!(status, 0);
            println!("at least {} batches", check.batches);
        }
        Err((status, place)) => {
            println!("status {status}, record {}", place.record_number);
            std::process::exit(1);
        }
    }
}
