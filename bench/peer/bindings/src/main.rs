// gimli_bindings_bench ROUNDS: bindings/rust and the peer in one process, rounds interleaved,
// best of N. gimli_bindings_bench one SIDE TASK: one run of one side (peer or ours), for counting
// instructions. CORPUS names the folder with the sections `info` and `abbrev`, in little endian.
use std::hint::black_box;
use std::time::Instant;

mod ours;
mod peer;
#[path = "../../src/values.rs"]
mod values;

// The name of a task and the two sides: each answers a sum over what it reads, and the number of
// rows.
type Side = fn(&[u8], &[u8]) -> (u64, u64);
const TASKS: [(&str, Side, Side); 2] = [
    ("attributes", peer::attributes, ours::attributes),
    ("rows", peer::rows, ours::rows),
];

fn main() {
    let words: Vec<String> = std::env::args().skip(1).collect();
    let corpus = std::env::var("CORPUS").expect("CORPUS names a folder with two sections");
    let info = std::fs::read(format!("{corpus}/info")).expect("the section info");
    let abbrev = std::fs::read(format!("{corpus}/abbrev")).expect("the section abbrev");
    if words[0] == "one" {
        if let Some((_, peer, ours)) = TASKS.iter().find(|task| task.0 == words[2]) {
            let side = if words[1] == "peer" { peer } else { ours };
            println!("{:016x}", side(&info, &abbrev).0);
        }
        return;
    }
    let rounds: usize = words[0].parse().expect("a number of rounds");
    println!("task          peer time / our time   million rows a second: peer, ours");
    for (name, peer, ours) in TASKS {
        let mut best = [f64::MAX; 2];
        let mut told = [(0, 0); 2];
        for _ in 0..rounds {
            for (side, work) in [peer, ours].into_iter().enumerate() {
                let start = Instant::now();
                told[side] = black_box(work(black_box(&info), black_box(&abbrev)));
                best[side] = best[side].min(start.elapsed().as_secs_f64());
            }
        }
        let rates = best.map(|seconds| told[0].1 as f64 / seconds * 1e-6);
        let same = if told[0] == told[1] { format!("sum {:016x}", told[0].0) } else { format!("DIFFERENT SUMS {told:x?}") };
        println!("{name:<14}{:>20.2}   {:>10.1} {:.1}   {same}", best[0] / best[1], rates[0], rates[1]);
    }
}
