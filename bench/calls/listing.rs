//! Listings of pages in plain Rust: a record for each page, as `decode` and `hear` of the program print them.

pub struct Page {
    pub address: u32,
    pub function: u8,
    pub items: Vec<u32>,
}

/// The codes of so many bits, each with its lowest bit first, that fill the items.
fn codes(items: &[u32], width: u32) -> Vec<u8> {
    let (mut held, mut waiting, mut codes) = (0u64, 0, Vec::with_capacity(items.len() * 20 / width as usize));
    for item in items {
        held = held << 20 | u64::from(*item);
        waiting += 20;
        while waiting >= width {
            waiting -= width;
            codes.push(((held >> waiting) as u8 & ((1 << width) - 1)).reverse_bits() >> (8 - width));
        }
        held &= (1 << waiting) - 1;
    }
    codes
}

fn without_last(mut text: Vec<u8>, fill: u8) -> Vec<u8> {
    let kept = text.iter().rposition(|byte| *byte != fill).map_or(0, |place| place + 1);
    text.truncate(kept);
    text
}

fn message(page: &Page) -> Vec<u8> {
    match page.function {
        _ if page.items.is_empty() => Vec::new(),
        0 => without_last(codes(&page.items, 4).iter().map(|code| b"0123456789*U -]["[usize::from(*code)]).collect(), b' '),
        3 => without_last(codes(&page.items, 7), 0),
        _ => page.items.iter().flat_map(|item| format!("{item:05X}").into_bytes()).collect(),
    }
}

fn put_field(field: &[u8], text: &mut Vec<u8>) {
    if !field.iter().any(|byte| matches!(byte, b',' | b'"' | b'\n' | b'\r')) {
        return text.extend_from_slice(field);
    }
    text.push(b'"');
    for byte in field {
        if *byte == b'"' {
            text.push(b'"');
        }
        text.push(*byte);
    }
    text.push(b'"');
}

/// The listing of the pages.
pub fn listing(pages: &[Page]) -> Vec<u8> {
    let mut text = b"address,kind,message\n".to_vec();
    for page in pages {
        text.extend_from_slice(page.address.to_string().as_bytes());
        let kinds: [&[u8]; 4] = match page.items.is_empty() {
            true => [b",tone0,", b",tone1,", b",tone2,", b",tone3,"],
            false => [b",numeric,", b",data1,", b",data2,", b",alpha,"],
        };
        text.extend_from_slice(kinds[usize::from(page.function)]);
        put_field(&message(page), &mut text);
        text.push(b'\n');
    }
    text
}
