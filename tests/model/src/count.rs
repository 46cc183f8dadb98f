//! How often each answer occurs.

use crate::archive::summary;
use crate::bytes::archive;
use crate::random::script;
use crate::script::{call_words, read_script, run};
use std::collections::BTreeMap;

type Counts = BTreeMap<String, usize>;

fn add(counts: &mut Counts, what: String) {
    *counts.entry(what).or_default() += 1;
}

// What is answered to each call of one script.
fn count_script(text: &[u8], counts: &mut Counts) {
    let outcome = run(text);
    let stdout = String::from_utf8(outcome.stdout).unwrap();
    let Ok(script) = read_script(text) else {
        return add(counts, "script: cannot be read".to_string());
    };
    if !outcome.granted {
        return add(counts, format!("script: {}", stdout.trim()));
    }
    add(counts, "script: answered".to_string());
    let refused = stdout
        .lines()
        .filter(|answer| answer.starts_with("refused"))
        .count();
    if refused * 5 <= script.calls.len() {
        add(counts, "script: four calls of five granted".to_string());
    }
    for (call, answer) in script.calls.iter().zip(stdout.lines()) {
        let name = call_words(call)[0].clone();
        let mut words = answer.split(' ');
        let first = words.next().unwrap();
        if first != "refused" {
            add(counts, format!("{name}: {first}"));
            continue;
        }
        let number: u32 = words.next().unwrap().parse().unwrap();
        let level = if answer.contains("level") {
            " of the charge"
        } else {
            ""
        };
        add(counts, format!("{name}: refused {number:2}{level}"));
        add(counts, format!("all: refused {number:2}"));
    }
}

fn tell(counts: &Counts) {
    for (what, count) in counts {
        println!("{count:8} {what}");
    }
}

pub fn count_one(text: &[u8]) {
    let mut counts = Counts::new();
    count_script(text, &mut counts);
    tell(&counts);
}

pub fn count_seeds(count: u64, first: u64) {
    let mut counts = Counts::new();
    for seed in first..first + count {
        count_script(&script(seed), &mut counts);
        let page = summary(&archive(seed));
        let last: Vec<&str> = page.lines().last().unwrap().split(' ').collect();
        let end = match last[..] {
            ["stop", _, number] => format!("archive: stop {number}"),
            ["end", _] => "archive: end".to_string(),
            _ => "archive: too long".to_string(),
        };
        add(&mut counts, end);
    }
    tell(&counts);
}
