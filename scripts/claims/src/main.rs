// The same claims as crates/claim_bench makes, by `fetch_min` on words of an ordinary vector: `claims WORKERS WORDS OFFERS`.
use std::sync::atomic::{AtomicU64, Ordering};
use std::time::Instant;

struct Offer {
    word: u32,
    rank: u64,
}

fn main() {
    let numbers: Vec<u32> = std::env::args().skip(1).map(|word| word.parse().unwrap()).collect();
    let (workers, words, count) = (numbers[0], numbers[1], numbers[2]);
    let offers: Vec<Offer> = (0..count)
        .map(|i| Offer { word: i % words, rank: u64::from(i).wrapping_mul(0x9e37_79b9_7f4a_7c15) >> 8 })
        .collect();
    let row: Vec<AtomicU64> = (0..words).map(|_| AtomicU64::new(u64::MAX)).collect();
    let start = Instant::now();
    if workers == 1 {
        for offer in &offers {
            row[offer.word as usize].fetch_min(offer.rank, Ordering::SeqCst);
        }
    } else {
        std::thread::scope(|scope| {
            for piece in offers.chunks(offers.len().div_ceil(workers as usize)) {
                let row = &row;
                scope.spawn(move || {
                    for offer in piece {
                        row[offer.word as usize].fetch_min(offer.rank, Ordering::SeqCst);
                    }
                });
            }
        });
    }
    let taken = start.elapsed().as_nanos();
    let digest = row.iter().fold(0u64, |all, word| {
        all.wrapping_mul(31).wrapping_add(word.load(Ordering::SeqCst))
    });
    println!("claims {count} nanoseconds {taken} digest {digest}");
}
