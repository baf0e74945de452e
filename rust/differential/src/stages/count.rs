//! FORMAT.md, "Totals": the count of ones, in lines for the probe.
use crate::probe::Requests;
use model::random::Random;

/// Any bytes, and how many of their booleans are asked for: about as many as there are, mostly.
pub fn any(random: &mut Random) -> (Vec<u8>, u64) {
    let bytes: Vec<u8> = (0..random.below(40)).map(|_| random.byte()).collect();
    let booleans = 8 * bytes.len();
    let n = match random.below(16) {
        0 => random.any(),
        1..=3 => (booleans + random.below(3)) as u64,
        _ => random.below(booleans + 1) as u64,
    };
    (bytes, n)
}

/// Any count, as a line for the probe.
pub fn probe_line(requests: &mut Requests, random: &mut Random) {
    let (bytes, n) = any(random);
    requests.count(&bytes, n);
}

/// Every n up to more than there are, and the ends.
pub fn fixed_lines(requests: &mut Requests) {
    for bytes in [&[][..], &[0x80], &[0x01], &[0xFF, 0xFF], &[0xA1, 0x7F, 0x00], &[0x00, 0x00, 0xFF]] {
        for n in 0..8 * bytes.len() as u64 + 2 {
            requests.count(bytes, n);
        }
        // 8 times the bytes would wrap at 64 bits.
        for n in [u64::MAX, 1 << 63, 1 << 61, (1 << 61) + 1, (1 << 32) + 8] {
            requests.count(bytes, n);
        }
    }
    // The longest line has 32,759 bytes after its n.
    let longest: Vec<u8> = (0..32_759u32).map(|k| (k * k % 251) as u8).collect();
    requests.count(&longest, 262_071);
    for bad in ["10", "10000000000000", "100000000000000000f"] {
        requests.bad(bad);
    }
}
