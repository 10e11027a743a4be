// lines SEED COUNT: random order lines.
mod random;

use std::io::Write;

fn main() {
    let mut words = std::env::args().skip(1).map(|word| word.parse::<u64>().expect("a number"));
    let mut lines = random::Lines::from(words.next().expect("a seed"));
    let mut out = std::io::BufWriter::new(std::io::stdout());
    for _ in 0..words.next().expect("how many lines") {
        out.write_all(&lines.next()).unwrap();
        out.write_all(b"\n").unwrap();
    }
}
