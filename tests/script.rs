//! `script SEED UNITS`: a random script for the bench with about UNITS units fed
//! to the sink, the same for the same seed.

#[path = "../second/bench.rs"]
mod bench;
mod random;
mod scripts;
#[path = "../second/second.rs"]
mod second;

fn main() {
    let numbers: Vec<u64> = std::env::args().skip(1).filter_map(|text| text.parse().ok()).collect();
    match numbers[..] {
        [seed, units] if std::env::args().count() == 3 => {
            use std::io::Write;
            let text = scripts::script(seed, units as usize);
            if std::io::stdout().lock().write_all(&text).is_err() {
                std::process::exit(1);
            }
        }
        _ => {
            eprintln!("usage: script SEED UNITS");
            std::process::exit(2);
        }
    }
}
