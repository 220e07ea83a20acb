// Times one slot of a channel under load, the test of its table and the step that is left, each as a difference of two runs of the static library `bench`.
// With arguments it makes one run and prints its digest, for counting instructions: `load ROUNDS SLOTS PICKS CHECKS`, `check KIND GROUPS TIMES`,
// `coming KIND GROUPS SLOTS TIMES`, `read TIMES` (minislots) or `index TIMES` (words).
use std::time::Instant;

unsafe extern "C" {
    fn bench_load(rounds: u64, slots: u64, picks: u64, checks: u64) -> u64;
    fn bench_check(kind: u64, groups: u8, times: u64) -> u64;
    fn bench_coming(kind: u64, groups: u8, slots: u64, times: u64) -> u64;
    fn bench_read(times: u64) -> u64;
    fn bench_index(times: u64) -> u64;
}

fn load(rounds: u64, slots: u64, picks: u64, checks: u64) -> u64 {
    // any numbers will do: the function has no `requires`
    unsafe { bench_load(rounds, slots, picks, checks) }
}

fn check(kind: u64, groups: u8, times: u64) -> u64 {
    // the same
    unsafe { bench_check(kind, groups, times) }
}

fn coming(kind: u64, groups: u8, slots: u64, times: u64) -> u64 {
    // the same
    unsafe { bench_coming(kind, groups, slots, times) }
}

fn read(times: u64) -> u64 {
    // the same
    unsafe { bench_read(times) }
}

fn index(times: u64) -> u64 {
    // the same
    unsafe { bench_index(times) }
}

fn nanoseconds(run: impl Fn() -> u64) -> f64 {
    let start = Instant::now();
    std::hint::black_box(run());
    start.elapsed().as_nanos() as f64
}

/// Nanoseconds of one more of what `run` repeats in each round: the shortest of 200 runs with few and of 200 with many, taken in turn.
fn cost(rounds: u64, again: u64, run: impl Fn(u64) -> u64) -> f64 {
    let (mut few, mut many) = (f64::INFINITY, f64::INFINITY);
    for _ in 0..200 {
        few = few.min(nanoseconds(|| run(1)));
        many = many.min(nanoseconds(|| run(1 + again)));
    }
    (many - few) / (rounds * again) as f64
}

fn main() {
    let words: Vec<String> = std::env::args().skip(1).collect();
    let numbers: Vec<u64> = words.iter().skip(1).map(|w| w.parse().expect("a number")).collect();
    match (words.first().map(String::as_str), numbers.as_slice()) {
        (Some("load"), &[rounds, slots, picks, checks]) => println!("{}", load(rounds, slots, picks, checks)),
        (Some("check"), &[kind, groups, times]) => println!("{}", check(kind, groups as u8, times)),
        (Some("coming"), &[kind, groups, slots, times]) => println!("{}", coming(kind, groups as u8, slots, times)),
        (Some("read"), &[times]) => println!("{}", read(times)),
        (Some("index"), &[times]) => println!("{}", index(times)),
        _ => {
            let (rounds, again) = (100, 20);
            let picks = cost(rounds, again, |k| load(rounds, 0, k, 0));
            let slot = cost(rounds, again, |k| load(rounds, k, 0, 0)) - picks;
            let test = cost(rounds, again, |k| load(rounds, 0, 0, k));
            println!("slot {slot:.0} ns, of which test {test:.0} ns, step {:.0} ns", slot - test);
            println!("coming slots {:.0} ns, of which test {:.0} ns", cost(1, 20, |k| coming(8, 1, 1024, k)), cost(1, 20, |k| check(8, 1, k)));
            println!("minislot read {:.1} ns", cost(1, 100_000, read));
            println!("index of a word {:.1} ns", cost(1, 100_000, index));
        }
    }
}
