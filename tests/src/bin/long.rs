//! long SECONDS [SEED]: random tables of every kind until the time is up, and one line of figures.

use panel_tests::cases::{faulty, large, small, Kind, Tally};
use panel_tests::catalogues;
use panel_tests::edits::{damaged, few, full, Met};
use panel_tests::random::Random;
use panel_tests::reasons;
use panel_tests::texts::{harmed, there_and_back};
use std::time::{Duration, Instant, SystemTime, UNIX_EPOCH};

fn main() {
    let mut words = std::env::args().skip(1);
    let seconds: u64 = words
        .next()
        .and_then(|w| w.parse().ok())
        .expect("long SECONDS [SEED]");
    let now = || {
        SystemTime::now()
            .duration_since(UNIX_EPOCH)
            .unwrap()
            .as_nanos() as u64
            >> 10
    };
    let first: u64 = words
        .next()
        .map_or_else(now, |w| w.parse().expect("the seed is no number"));
    let kinds: [(&str, Kind, usize); 12] = [
        ("small", small, 60),
        ("large", large, 4),
        ("refused", faulty, 12),
        ("text", there_and_back, 12),
        ("text", harmed, 24),
        ("edit", |random| full(random, &mut Met::default()), 1),
        ("edit", |random| few(random, &mut Met::default()), 12),
        ("edit", |random| damaged(random, &mut Met::default()), 24),
        ("catalogue", catalogues::any, 24),
        ("reason", reasons::small, 24),
        ("reason", reasons::large, 2),
        ("reason", reasons::faulty, 6),
    ];
    let mut tallies: [Tally; 12] = Default::default();
    let start = Instant::now();
    let mut seed = first;
    while start.elapsed() < Duration::from_secs(seconds) {
        for ((test, kind, times), tally) in kinds.iter().zip(&mut tallies) {
            for _ in 0..*times {
                match kind(&mut Random::new(seed)) {
                    Ok(name) => *tally.entry(name).or_insert(0) += 1,
                    Err(what) => {
                        println!("FAILED: {what}\nrepeat: SEED={seed} cargo test --release --offline --test {test}");
                        std::process::exit(1);
                    }
                }
                seed += 1;
            }
        }
    }
    let [small, large, refused, texts, wrong, full, few, damaged, catalogues, why @ ..] = tallies;
    println!("long: {} tables in {seconds} s from seed {first}, none fails: small {small:?}, large {large:?}, with faults {refused:?}, as text {texts:?}, as text with faults {wrong:?}, edited {full:?} {few:?} {damaged:?}, catalogues {catalogues:?}, why late {why:?}", seed - first);
}
