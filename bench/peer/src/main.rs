// gimli_benches ROUNDS [TASK]: our libraries and the peer in one process, rounds interleaved, best of N.
// gimli_benches one SIDE TASK ORDER: one run of one side (peer or a library), for counting instructions.
// CORPUS names the folder with the sections `info` and `abbrev`, and `ranges`, `rnglists`, `loc`, `loclists`, `addr` and
// `aranges` if they are there.
use std::hint::black_box;
use std::time::Instant;

#[cfg(feature = "cursors")]
mod cursors;
mod inputs;
#[cfg(any(feature = "lists", feature = "locations"))]
mod lists;
mod peer;
#[cfg(feature = "trees")]
mod trees;
#[cfg(feature = "entries")]
mod units;
mod values;

include!(concat!(env!("OUT_DIR"), "/libraries.rs"));

const ORDERS: [&str; 5] = [
    "little",
    "big",
    "run-time little",
    "run-time big",
    "whole slice",
];

// The task of this number and those after it read sections of the corpus with words in them, which is little endian.
const FIRST_OF_ENTRIES: u64 = 8;

// Whether the peer's side of a task is built.
fn is_built(task: usize) -> bool {
    match task {
        0..=7 => true,
        8..=10 | 19 => cfg!(feature = "entries"),
        11..=14 => cfg!(feature = "cursors"),
        17 => cfg!(feature = "locations"),
        18 => cfg!(feature = "trees"),
        _ => cfg!(feature = "lists"),
    }
}

fn main() {
    let arguments: Vec<String> = std::env::args().skip(1).collect();
    let corpus = std::env::var("CORPUS").expect("CORPUS names a folder with two sections");
    let info = std::fs::read(format!("{corpus}/info")).expect("the section info");
    let abbrev = std::fs::read(format!("{corpus}/abbrev")).expect("the section abbrev");
    let optional = |name: &str| std::fs::read(format!("{corpus}/{name}")).unwrap_or_default();
    #[cfg(any(feature = "lists", feature = "locations"))]
    let [(lists, named), (locations, named_locations)] = {
        let addr = optional("addr");
        [
            (lists::Kind::Ranges, optional("ranges"), optional("rnglists")),
            (lists::Kind::Locations, optional("loc"), optional("loclists")),
        ]
        .map(|(kind, old, new)| lists::named(kind, [&info, &abbrev], [&old, &new, &addr]))
    };
    #[cfg(not(any(feature = "lists", feature = "locations")))]
    let [(lists, named), (locations, named_locations)]: [(Vec<u8>, Vec<u8>); 2] = Default::default();
    let aranges = optional("aranges");
    let aranges = aranges.repeat(1 + (1 << 20) / aranges.len().max(1));
    let offsets = inputs::tables(&abbrev);
    // each section several times, so that a round is not too short
    let again = 1 + (1 << 20) / abbrev.len();
    let offsets: Vec<u8> = (0..again)
        .flat_map(|_| offsets.iter().flat_map(|o| o.to_le_bytes()))
        .collect();
    let (numbers, words) = (inputs::leb128(1 << 21), inputs::words(1 << 21));
    // in the order of their numbers
    let tasks: [(&str, &[u8], &[u8]); 20] = [
        ("LEB128, sum", &numbers, &[]),
        ("words of 2", &words, &[]),
        ("words of 4", &words, &[]),
        ("words of 8", &words, &[]),
        ("records", &words, &[]),
        ("tables", &abbrev, &offsets),
        ("tables, first", &abbrev, &offsets),
        ("LEB128, twos", &numbers, &[]),
        ("entries", &info, &abbrev),
        ("attributes", &info, &abbrev),
        ("passing", &info, &abbrev),
        ("cursor, entries", &info, &abbrev),
        ("cursor, dfs", &info, &abbrev),
        ("cursor, values", &info, &abbrev),
        ("siblings", &info, &abbrev),
        ("range lists", &lists, &named),
        ("aranges", &aranges, &[]),
        ("location lists", &locations, &named_locations),
        ("trees", &info, &abbrev),
        ("check", &info, &abbrev),
    ];
    let run = |side: usize, task: u64, order: u64| {
        let (_, first, second) = tasks[task as usize];
        if side == 0 {
            peer::marks(task, order, first, second)
        } else {
            let (first_length, second_length) = (first.len(), second.len());
            unsafe {
                LIBRARIES[side - 1].1(
                    task,
                    order,
                    first.as_ptr(),
                    first_length,
                    second.as_ptr(),
                    second_length,
                )
            }
        }
    };
    if arguments[0] == "one" {
        let place = |name: &str| {
            LIBRARIES
                .iter()
                .position(|l| l.0 == name)
                .expect("no such library")
        };
        let side = if arguments[1] == "peer" {
            0
        } else {
            place(&arguments[1]) + 1
        };
        let task: usize = arguments[2].parse().unwrap();
        if task < tasks.len() {
            let order = arguments[3].parse().unwrap();
            println!("{:016x}", run(side, task as u64, order));
        }
        return;
    }
    let rounds: usize = arguments[0].parse().expect("a number of rounds");
    let only = arguments.get(1).cloned().unwrap_or_default();
    println!(
        "peer time / our time; {} tables, read {again} times a round",
        offsets.len() / 8 / again
    );
    let names: String = LIBRARIES.iter().map(|l| format!("{:>8}", l.0)).collect();
    println!("{:<17}{:<17}{names}", "task", "order");
    for (task, (name, _, _)) in tasks
        .iter()
        .enumerate()
        .filter(|(task, (name, _, _))| is_built(*task) && name.starts_with(&only))
    {
        for (order, order_name) in ORDERS.iter().enumerate() {
            if task as u64 >= FIRST_OF_ENTRIES && (order == 1 || order == 3) {
                continue;
            }
            let (task, order) = (black_box(task as u64), black_box(order as u64));
            let mut best = vec![f64::MAX; LIBRARIES.len() + 1];
            let mut sums = vec![0; best.len()];
            for _ in 0..rounds {
                for side in 0..best.len() {
                    let start = Instant::now();
                    sums[side] = black_box(run(side, task, order));
                    best[side] = best[side].min(start.elapsed().as_secs_f64());
                }
            }
            let ratios: String = best[1..]
                .iter()
                .map(|b| format!("{:>8.2}", best[0] / b))
                .collect();
            let same = sums.iter().all(|s| *s == sums[0]);
            let sum = if same {
                format!("sum {:016x}", sums[0])
            } else {
                format!("DIFFERENT SUMS {sums:016x?}")
            };
            println!("{name:<17}{order_name:<17}{ratios}  {sum}");
        }
    }
}
