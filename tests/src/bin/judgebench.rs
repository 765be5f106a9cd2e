//! How long the judging of a full 32,768-byte model takes: the second kernel and, with the feature `proved`, the proved one;
//! with the feature `loops` also how long the proved check for loops without delay takes, beside the judging that it begins
//! with.

use second_kernel::cases::largest;
use second_kernel::model;
use std::hint::black_box;
use std::time::Instant;

/// The least seconds a round, of so many batches of rounds.
fn least(batches: usize, rounds: u32, round: &dyn Fn()) -> f64 {
    let mut best = f64::INFINITY;
    for _ in 0..batches {
        let start = Instant::now();
        for _ in 0..rounds {
            round();
        }
        best = best.min(start.elapsed().as_secs_f64() / rounds as f64);
    }
    best
}

fn time(name: &str, bytes: &[u8], judge: &dyn Fn(&[u8]) -> u32) -> f64 {
    assert_eq!(judge(bytes), 0, "{name} refuses the model");
    let best = least(5, 2000, &|| _ = black_box(judge(black_box(bytes))));
    println!(
        "judge {name:7} {:8.1} microseconds a model of {} bytes",
        best * 1e6,
        bytes.len()
    );
    best
}

/// The check on full models, beside the judging of the same ones.
#[cfg(all(feature = "proved", feature = "loops"))]
mod loops {
    use super::*;
    use second_kernel::cases::full_of_waits;
    use second_kernel::loops::WORDS;
    use second_kernel::{proved, proved_loops};

    pub fn run() {
        println!("microseconds a full model         judge    check  check / judge");
        for (name, set, chain) in [
            ("no chain, all edges up", all_before as fn(u16) -> u32, 0),
            ("a chain of the last alone", last_alone, 1),
            ("a chain of all 16", ring, 16),
        ] {
            let bytes = full_of_waits(set);
            let mut words = [0; WORDS];
            assert_eq!(proved_loops::check(&bytes, &mut words), 0, "{name}");
            assert_eq!(words[16], chain, "{name}");
            let judge = || _ = black_box(proved::judge(black_box(&bytes)));
            let check = || {
                let mut words = [0; WORDS];
                black_box(proved_loops::check(black_box(&bytes), &mut words));
                black_box(words);
            };
            // In turn, so that a slow moment meets both.
            let (mut judged, mut checked) = (f64::INFINITY, f64::INFINITY);
            for _ in 0..200 {
                judged = judged.min(least(1, 50, &judge));
                checked = checked.min(least(1, 50, &check));
            }
            let (judged, checked) = (judged * 1e6, checked * 1e6);
            println!(
                "{name:30}{judged:9.1}{checked:9.1}{:15.2}",
                checked / judged
            );
        }
    }

    fn all_before(p: u16) -> u32 {
        (1 << p) - 1
    }

    fn last_alone(p: u16) -> u32 {
        match p {
            15 => 1 << 15,
            _ => 0,
        }
    }

    fn ring(p: u16) -> u32 {
        1 << ((p + 15) % 16)
    }
}

fn main() {
    let bytes = largest();
    let second = time("second", &bytes, &model::judge);
    #[cfg(feature = "proved")]
    {
        let ours = time("proved", &bytes, &second_kernel::proved::judge);
        println!("judge ratio  {:6.2} (second / proved)", second / ours);
        if ours >= 1e-3 {
            eprintln!("judgebench: a full model takes a millisecond or more");
            std::process::exit(1);
        }
    }
    #[cfg(not(feature = "proved"))]
    let _ = second;
    #[cfg(all(feature = "proved", feature = "loops"))]
    loops::run();
}
