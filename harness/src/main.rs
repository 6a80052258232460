#[cfg(feature = "library")]
mod calls;
mod case;
mod cases;
#[cfg(feature = "library")]
mod compare;
#[cfg(feature = "library")]
mod compare_counts;
#[cfg(feature = "library")]
mod crowded;
mod fuzz;
mod generate;
#[cfg(feature = "library")]
mod lent;
mod limits;
mod page;
mod pass;
mod plain;
mod repeat;
mod returns;
mod sheet;
mod wishes;

use case::{Case, ROOM};
use std::io::Write;

fn read_files() -> Case {
    let read = |name: &str| {
        std::fs::read(name).unwrap_or_else(|e| {
            eprintln!("{name}: {e}");
            std::process::exit(1)
        })
    };
    Case {
        name: String::new(),
        room: ROOM,
        text: read("recipe.cook"),
        units: read("units.tsv"),
        flags: read("flags"),
        sheet: read("events.tsv"),
    }
}

/// The files of the fixed list, in crates/replay/data.
const FILES: [&str; 4] = ["paper.txt", "decisions.txt", "generated.txt", "limits.txt"];

fn answers() -> std::path::PathBuf {
    std::path::Path::new(env!("CARGO_MANIFEST_DIR")).join("../crates/replay/data")
}

/// Prints each case with its answers, in the format of the list.
fn batch(file: &str) -> Vec<u8> {
    let mut out = Vec::new();
    for (c, _) in Case::read_all(&std::fs::read(file).unwrap()) {
        c.write(&mut out);
    }
    out
}

/// Writes the fixed list.
fn list() {
    std::fs::create_dir_all(answers()).unwrap();
    let (decisions, limits) = ([cases::decisions(), wishes::decisions()].concat(), [cases::limits(), wishes::limits()].concat());
    let all = [cases::paper(), decisions, generate::chosen(240, 2026), limits];
    let mut counts = fuzz::Counts::default();
    for (file, cases) in FILES.iter().zip(all) {
        let mut out = Vec::new();
        for c in &cases {
            counts.see(c);
            c.write(&mut out);
        }
        println!("{file}: {} cases, {} bytes", cases.len(), out.len());
        std::fs::write(answers().join(file), out).unwrap();
    }
    counts.print();
}

/// Runs the fixed list again and compares.
fn verify() -> Vec<u8> {
    let (mut cases, mut different) = (0, 0);
    for file in FILES {
        for (c, stored) in Case::read_all(&std::fs::read(answers().join(file)).unwrap()) {
            cases += 1;
            if stored != c.answers() {
                different += 1;
                println!("different: {file}: {}", c.name);
            }
        }
    }
    println!("{cases} cases, {different} different");
    std::process::exit((different > 0) as i32)
}

/// Says what was compared, keeps the cases that differ in a file, and leaves with 1 if there are any.
#[cfg(feature = "library")]
fn compared(counts: compare::Counts, start: std::time::Instant) -> ! {
    counts.print();
    let seconds = start.elapsed().as_secs_f64();
    println!("{seconds:.1} s, {:.0} sheets a second", counts.sheets as f64 / seconds);
    if !counts.kept.is_empty() {
        std::fs::write("different.txt", &counts.kept).unwrap();
        println!("the first of these cases are in different.txt");
    }
    std::process::exit(!counts.is_good() as i32)
}

#[cfg(feature = "library")]
fn compare(words: &[&str]) -> Vec<u8> {
    let (which, words) = match words {
        ["pages", rest @ ..] => (compare::Which { pages: true, forms: false }, rest),
        ["forms", rest @ ..] => (compare::Which { pages: false, forms: true }, rest),
        _ => (compare::Which { pages: true, forms: true }, words),
    };
    let start = std::time::Instant::now();
    let number = |w: &str| w.parse::<u64>().unwrap();
    match words {
        ["list"] => {
            let files = FILES.map(|f| answers().join(f).to_str().unwrap().to_string());
            compared(compare::compare_files(which, &files.each_ref().map(|f| &f[..])), start)
        }
        ["file", files @ ..] => compared(compare::compare_files(which, files), start),
        [n, seed] => compared(compare::compare(which, number(n) as usize, number(seed), 1), start),
        [n, seed, threads] => compared(compare::compare(which, number(n) as usize, number(seed), number(threads) as usize), start),
        _ => usage(),
    }
}

#[cfg(not(feature = "library"))]
fn compare(_: &[&str]) -> Vec<u8> {
    eprintln!("built without the library: cargo run --release --offline --features library -- compare ...");
    std::process::exit(2)
}

fn usage() -> ! {
    eprintln!(
        "usage: harness [collect | plain | batch FILE | fuzz COUNT SEED | sample COUNT SEED | list | verify
                | compare [pages | forms] COUNT SEED [THREADS] | compare [pages | forms] list
                | compare [pages | forms] file FILE... | repeat rust|library TIMES ROOM]"
    );
    std::process::exit(2)
}

fn main() {
    pass::quiet_panics();
    if std::panic::catch_unwind(run).is_err() {
        eprintln!("panic: {}", pass::last_panic());
        std::process::exit(101)
    }
}

fn run() {
    let args: Vec<String> = std::env::args().skip(1).collect();
    let words: Vec<&str> = args.iter().map(|s| s.as_str()).collect();
    let out = match words[..] {
        [] | ["collect"] => read_files().collect_answer(),
        ["plain"] => read_files().plain_answer(),
        ["fuzz", n, seed] => {
            let c = fuzz::fuzz(n.parse().unwrap(), seed.parse().unwrap());
            c.print();
            std::process::exit((c.uncaught > 0) as i32)
        }
        ["batch", file] => batch(file),
        ["sample", n, seed] => {
            let mut out = Vec::new();
            generate::chosen(n.parse().unwrap(), seed.parse().unwrap()).iter().for_each(|c| c.write(&mut out));
            out
        }
        ["list"] => {
            list();
            Vec::new()
        }
        ["verify"] => verify(),
        ["compare", ref rest @ ..] => compare(rest),
        ["repeat", side, times, room] => {
            repeat::repeat(&read_files(), side, times.parse().unwrap(), room.parse().unwrap());
            Vec::new()
        }
        _ => usage(),
    };
    std::io::stdout().write_all(&out).unwrap();
}
