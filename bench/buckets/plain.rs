//! The same look-ups in a map of plain Rust: rustc -O bench/buckets/plain.rs -o /tmp/plain && /tmp/plain
use std::collections::HashMap;
use std::time::Instant;

const KEYS: usize = 50_000;
const LOOKS: u64 = 5_000_000;

// The key of a number: its ten decimal digits.
fn key_of(number: usize) -> [u8; 10] {
    let mut key = [b'0'; 10];
    let mut rest = number;
    for i in (0..10).rev() {
        key[i] = b'0' + (rest % 10) as u8;
        rest /= 10;
    }
    key
}

fn look_up_all(counts: &mut HashMap<Vec<u8>, u64>, keys: &[[u8; 10]]) -> u64 {
    let mut found = 0;
    let mut at = 1u64;
    for _ in 0..LOOKS {
        at = at.wrapping_mul(6364136223846793005).wrapping_add(1442695040888963407);
        if let Some(count) = counts.get_mut(keys[(at >> 33) as usize % KEYS].as_slice()) {
            *count += 1;
            found += 1;
        }
    }
    found
}

fn main() {
    let keys: Vec<[u8; 10]> = (0..KEYS).map(key_of).collect();
    let mut counts: HashMap<Vec<u8>, u64> = keys.iter().map(|key| (key.to_vec(), 0)).collect();
    for _ in 0..3 {
        let start = Instant::now();
        let found = look_up_all(&mut counts, &keys);
        println!("{} ms, found {found}", start.elapsed().as_millis());
    }
}
