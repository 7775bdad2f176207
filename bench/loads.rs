// Eleven sequentially consistent loads, as a call without a page makes, and three more for a page: the nanoseconds that they take.
use std::hint::black_box;
use std::sync::atomic::{AtomicU64, Ordering::SeqCst};
use std::time::Instant;

const CALLS: u32 = 20_000_000;

fn measured(words: &[AtomicU64; 24], places: &[usize]) -> f64 {
    let begun = Instant::now();
    let mut sum = 0u64;
    for _ in 0..CALLS {
        for &place in places {
            sum = sum.wrapping_add(black_box(words)[place].load(SeqCst));
        }
    }
    black_box(sum);
    begun.elapsed().as_nanos() as f64 / f64::from(CALLS)
}

fn main() {
    let words: [AtomicU64; 24] = std::array::from_fn(|_| AtomicU64::new(1));
    let eleven = measured(&words, &[1, 2, 3, 4, 5, 6, 7, 8, 9, 1, 23]);
    let fourteen = measured(&words, &[1, 2, 3, 4, 5, 6, 7, 8, 9, 1, 23, 11, 12, 11]);
    println!("{eleven:.1} ns, with a page's three {fourteen:.1} ns");
}
