//! The calls of the C library (`clib/pocsag.h`) for plain Rust.

#[repr(C)]
#[derive(Default)]
pub struct Place {
    pub record_number: u32,
    pub least: u32,
    pub found: u32,
    pub at: u64,
}

#[repr(C)]
#[derive(Default)]
pub struct PlanInfo {
    pub pages: u32,
    pub codewords: u32,
    pub in_order: u32,
    pub batches: u32,
    pub bound: u32,
    pub place: Place,
}

#[repr(C)]
#[derive(Default)]
pub struct CheckInfo {
    pub end: u32,
    pub batches: u32,
    pub place: Place,
}

extern "C" {
    fn pocsag_plan(
        pages: *const u8, pages_len: usize, tx: *mut u8, tx_size: usize, tx_len: *mut usize, cert: *mut u8,
        cert_size: usize, cert_len: *mut usize, limit: u32, end: u32, always: u32, info: *mut PlanInfo,
    ) -> u32;
    fn pocsag_check(pages: *const u8, pages_len: usize, cert: *const u8, cert_len: usize, info: *mut CheckInfo) -> u32;
    fn pocsag_decode(
        tx: *const u8, tx_len: usize, listing: *mut u8, listing_size: usize, listing_len: *mut usize, place: *mut Place,
    ) -> u32;
    fn pocsag_hear(
        address: u32, tx: *const u8, tx_len: usize, listing: *mut u8, listing_size: usize, listing_len: *mut usize,
        place: *mut Place,
    ) -> u32;
}

// Each pointer below is that of a live slice or value of its own, with its length.

/// The lengths of the transmission and the certificate that stand in the buffers, or what the search knew at its limit.
pub fn plan(pages: &[u8], tx: &mut [u8], cert: &mut [u8], limit: u32, always: bool) -> Result<(usize, usize), (u32, u32)> {
    let (mut tx_len, mut cert_len, mut info) = (0, 0, PlanInfo::default());
    let status = unsafe {
        pocsag_plan(
            pages.as_ptr(), pages.len(), tx.as_mut_ptr(), tx.len(), &mut tx_len, cert.as_mut_ptr(), cert.len(), &mut cert_len,
            limit, 0, u32::from(always), &mut info,
        )
    };
    match status {
        0 => Ok((tx_len, cert_len)),
        6 => Err((info.place.least, info.place.found)),
        _ => panic!("status {status}"),
    }
}

/// Whether the certificate shows its batches.
pub fn check(pages: &[u8], cert: &[u8]) -> bool {
    let mut info = CheckInfo::default();
    let status = unsafe { pocsag_check(pages.as_ptr(), pages.len(), cert.as_ptr(), cert.len(), &mut info) };
    assert!(status < 2, "status {status}");
    status == 0
}

/// The length of the listing that stands in the buffer.
pub fn decode(tx: &[u8], listing: &mut [u8]) -> usize {
    let (mut len, mut place) = (0, Place::default());
    let status = unsafe { pocsag_decode(tx.as_ptr(), tx.len(), listing.as_mut_ptr(), listing.len(), &mut len, &mut place) };
    assert_eq!(status, 0, "codeword {}", place.at);
    len
}

/// The same for what a pager shows.
pub fn hear(address: u32, tx: &[u8], listing: &mut [u8]) -> usize {
    let (mut len, mut place) = (0, Place::default());
    let status = unsafe { pocsag_hear(address, tx.as_ptr(), tx.len(), listing.as_mut_ptr(), listing.len(), &mut len, &mut place) };
    assert_eq!(status, 0);
    len
}
