// The same as crates/bench does with a sparse canvas, with Rust's BTreeMap and a sorted Vec.
// rustc -O benches/canvas.rs -o /tmp/canvas-rust && /tmp/canvas-rust
use std::collections::BTreeMap;
use std::time::Instant;

const SEATS: u32 = 65_536;

fn shuffled(i: u32) -> u32 {
    let a = i.wrapping_mul(40_503).wrapping_add(12_345) & 0xffff;
    let b = a ^ (a >> 7);
    let c = b.wrapping_mul(25_173) & 0xffff;
    c ^ (c >> 9)
}

fn key(i: u32) -> (i32, i32) {
    let k = shuffled(i);
    ((k / 256) as i32, (k % 256) as i32)
}

fn main() {
    let start = Instant::now();
    let mut map = BTreeMap::new();
    for i in 0..SEATS {
        map.insert(key(i), (i % 15 + 1) as u8);
    }
    let filled = start.elapsed().as_micros();
    let again = Instant::now();
    let sum: u64 = (0..SEATS).map(|i| map[&key(i)] as u64).sum();
    println!("BTreeMap: fill {filled} us, look {} us, held {}, sum {sum}", again.elapsed().as_micros(), map.len());

    let start = Instant::now();
    let mut sorted: Vec<((i32, i32), u8)> = Vec::with_capacity(SEATS as usize);
    for i in 0..SEATS {
        match sorted.binary_search_by_key(&key(i), |r| r.0) {
            Ok(at) => sorted[at].1 = (i % 15 + 1) as u8,
            Err(at) => sorted.insert(at, (key(i), (i % 15 + 1) as u8)),
        }
    }
    let filled = start.elapsed().as_micros();
    let again = Instant::now();
    let sum: u64 = (0..SEATS).map(|i| sorted[sorted.binary_search_by_key(&key(i), |r| r.0).unwrap()].1 as u64).sum();
    println!("sorted Vec: fill {filled} us, look {} us, held {}, sum {sum}", again.elapsed().as_micros(), sorted.len());
}
