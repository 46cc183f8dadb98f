//! The same work by the proved programs and by the model, interleaved, as a ratio.

use crate::archive::{decode, encode, Line, RECORD};
use crate::rng::Rng;
use std::fmt::Write;
use std::fs::{self, File};
use std::io;
use std::path::Path;
use std::process::{Command, Stdio};
use std::time::Instant;

const OWNERS: usize = 16;

// Sixteen owners; every month is read, billed, and corrected three times; the journal is full at the end.
pub fn workload(entries: usize) -> String {
    let months = ((entries - OWNERS) / (OWNERS + 3)).min(360);
    let mut rng = Rng::new(entries as u64);
    let mut text = String::from("owners 0 1 2 0 1 2 0 1 2 0 1 2 0 1 2 0\ncharge volumetric 8\n");
    text += "layer 8 32000000 0 8000000 0 0 100000 0 0 0 500000\n";
    writeln!(text, "journal {entries}\nroll {}", months * OWNERS * 4).unwrap();
    let mut used = 0;
    for owner in 0..OWNERS {
        let ehv = rng.range(1_000_000, 90_000_000);
        let load = rng.range(1_000_000, 9_000_000);
        writeln!(text, "file {owner} 0 359 {ehv} {} {load} 20000", ehv / 10).unwrap();
        used += 1;
    }
    let mut read = |text: &mut String, month: usize, owner: usize| {
        let load = rng.range(80_000, 700_000);
        writeln!(text, "read {month} {owner} {load} 1500").unwrap();
    };
    for month in 0..months {
        for owner in 0..OWNERS {
            read(&mut text, month, owner);
            used += 1;
        }
    }
    for round in 0..4 {
        if round > 0 {
            let left = (entries - used) / (4 - round);
            for i in 0..left {
                read(&mut text, i % months, (i / months + round) % OWNERS);
            }
            used += left;
        }
        for month in 0..months {
            writeln!(text, "open {month}\npost {month} {used}").unwrap();
        }
    }
    text
}

// The lines of the roll, added and read back; what their cents add up to.
pub fn lines(count: u32) -> i64 {
    let mut bytes = vec![0; count as usize * RECORD];
    for place in 0..count {
        let line = Line {
            month: (place % 360) as u16,
            owner: (place % 16) as u8,
            mark: place % 8192 + 1,
            cents: i64::from(place % 1_000_003) * 799_997 - 399_998_500_000,
        };
        let at = place as usize * RECORD;
        bytes[at..at + RECORD].copy_from_slice(&encode(&line));
    }
    let mut sum = 0i64;
    for record in bytes.chunks(RECORD) {
        if let Ok(line) = decode(record) {
            sum = sum.wrapping_add(line.cents);
        }
    }
    sum
}

fn archive(records: u32) -> Vec<u8> {
    (0..records)
        .flat_map(|place| {
            encode(&Line {
                month: (place % 360) as u16,
                owner: (place % 16) as u8,
                mark: place % 8192 + 1,
                cents: i64::from(place) - 1000,
            })
        })
        .collect()
}

// Seconds for so many runs of a program on a file.
fn time(program: &str, words: &[&str], input: &Path, times: usize) -> io::Result<f64> {
    let began = Instant::now();
    for _ in 0..times {
        let status = Command::new(program)
            .args(words)
            .stdin(File::open(input)?)
            .stdout(Stdio::null())
            .status()?;
        if !status.success() {
            return Err(io::Error::other(format!("{program} ended with {status}")));
        }
    }
    Ok(began.elapsed().as_secs_f64() / times as f64)
}

struct Work<'a> {
    name: String,
    ours: (&'a str, Vec<&'a str>),
    plain: (&'a str, Vec<&'a str>),
    input: std::path::PathBuf,
    times: usize,
}

fn told(mut seconds: Vec<f64>) -> (f64, String) {
    seconds.sort_by(f64::total_cmp);
    let median = seconds[seconds.len() / 2];
    let spread = format!(
        "{:.2} to {:.2}",
        seconds[0] * 1e3,
        seconds[seconds.len() - 1] * 1e3
    );
    (median, spread)
}

fn measure(work: &Work, runs: usize) -> io::Result<()> {
    let (mut ours, mut plain) = (Vec::new(), Vec::new());
    for _ in 0..runs {
        ours.push(time(work.ours.0, &work.ours.1, &work.input, work.times)?);
        plain.push(time(work.plain.0, &work.plain.1, &work.input, work.times)?);
    }
    let ((ours, ours_spread), (plain, plain_spread)) = (told(ours), told(plain));
    println!(
        "| {} | {:.2} ({ours_spread}) | {:.2} ({plain_spread}) | {:.2} |",
        work.name,
        ours * 1e3,
        plain * 1e3,
        ours / plain
    );
    Ok(())
}

pub fn bench(tacbook: &str, tacsum: &str, liner: &str, runs: usize) -> io::Result<bool> {
    let model = std::env::current_exe()?;
    let model = model
        .to_str()
        .ok_or_else(|| io::Error::other("a path without a name"))?;
    let place = std::env::temp_dir().join(format!("bench-{}", std::process::id()));
    fs::create_dir_all(&place)?;
    println!("| work | ours, ms: median (spread) | plain Rust, ms: median (spread) | ratio |\n|---|---|---|---|");
    for entries in [512, 2048, 8192] {
        let input = place.join(format!("{entries}.script"));
        fs::write(&input, workload(entries))?;
        let name = format!("every month billed and corrected three times, {entries} entries");
        measure(
            &Work {
                name,
                ours: (tacbook, vec![]),
                plain: (model, vec!["book"]),
                input,
                times: 1,
            },
            runs,
        )?;
    }
    let none = place.join("none");
    fs::write(&none, "")?;
    let name = String::from("1,000,000 lines added to an archive roll and read back");
    measure(
        &Work {
            name,
            ours: (liner, vec!["1000000"]),
            plain: (model, vec!["lines", "1000000"]),
            input: none,
            times: 1,
        },
        runs,
    )?;
    let input = place.join("archive");
    fs::write(&input, archive(2427))?;
    let name = String::from("tacsum over 65,529 bytes");
    measure(
        &Work {
            name,
            ours: (tacsum, vec![]),
            plain: (model, vec!["sum"]),
            input,
            times: 50,
        },
        runs,
    )?;
    fs::remove_dir_all(&place)?;
    Ok(true)
}
