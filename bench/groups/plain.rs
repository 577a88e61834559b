//! The same groups in a map of plain Rust: rustc -O bench/groups/plain.rs -o /tmp/plain && /tmp/plain
use std::collections::HashMap;
use std::time::Instant;

const ROWS: u64 = 5_000_000;

// The ten decimal digits of a number.
fn key_of(number: usize) -> Vec<u8> {
    let mut key = vec![b'0'; 10];
    let mut rest = number;
    for i in (0..10).rev() {
        key[i] = b'0' + (rest % 10) as u8;
        rest /= 10;
    }
    key
}

fn main() {
    for keys in [50_000, 2_000_000] {
        let rows: Vec<Vec<u8>> = (0..keys).map(key_of).collect();
        for _ in 0..3 {
            let start = Instant::now();
            let mut counts: HashMap<Vec<u8>, i128> = HashMap::new();
            let mut at = 1u64;
            for _ in 0..ROWS {
                at = at.wrapping_mul(6364136223846793005).wrapping_add(1442695040888963407);
                let row = &rows[(at >> 33) as usize % keys];
                if let Some(count) = counts.get_mut(row.as_slice()) {
                    *count += 1;
                } else {
                    counts.insert(row.clone(), 1);
                }
            }
            let fed = start.elapsed().as_millis();
            let rows: i128 = counts.values().sum();
            println!("{fed} ms fed, {} ms in all", start.elapsed().as_millis());
            println!("{} groups of {rows} rows", counts.len());
        }
    }
}
