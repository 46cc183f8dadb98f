//! Setting the two programs beside the model, seed by seed.

use crate::archive::summary;
use crate::bytes::archive;
use crate::random::script;
use crate::script::run;
use std::fs::{self, File};
use std::io;
use std::path::{Path, PathBuf};
use std::process::{Command, Output, Stdio};

struct Place(PathBuf);

impl Place {
    fn file(&self, name: &str) -> PathBuf {
        self.0.join(name)
    }
}

impl Drop for Place {
    fn drop(&mut self) {
        let _ = fs::remove_dir_all(&self.0);
    }
}

fn start(program: &str, input: &Path, words: &[&str]) -> io::Result<Output> {
    Command::new(program)
        .args(words)
        .stdin(File::open(input)?)
        .stdout(Stdio::piped())
        .stderr(Stdio::piped())
        .output()
        .map_err(|why| io::Error::new(why.kind(), format!("{program}: {why}")))
}

// A difference in text, told by diff.
fn diff(place: &Place, what: &str, expected: &[u8], found: &[u8]) -> io::Result<bool> {
    if expected == found {
        return Ok(false);
    }
    let (left, right) = (place.file("expected"), place.file("found"));
    fs::write(&left, expected)?;
    fs::write(&right, found)?;
    println!("{what}: the model (-) and the program (+)");
    let told = Command::new("diff")
        .args(["-a", "-U2", "--label", "model", "--label", "program"])
        .args([&left, &right])
        .output()?;
    println!("{}", String::from_utf8_lossy(&told.stdout));
    Ok(true)
}

fn hex(bytes: &Option<Vec<u8>>) -> Vec<u8> {
    let Some(bytes) = bytes else {
        return b"no archive\n".to_vec();
    };
    let mut text = format!("{} bytes\n", bytes.len());
    for record in bytes.chunks(27) {
        for byte in record {
            text += &format!("{byte:02X} ");
        }
        text += "\n";
    }
    text.into_bytes()
}

// The status, where a program ended by a signal never agrees.
fn status(output: &Output, granted: bool) -> bool {
    match output.status.code() {
        Some(code) if (code == 0) == granted => false,
        code => {
            println!(
                "status: the model {}, the program {code:?}",
                if granted { 0 } else { 1 }
            );
            true
        }
    }
}

fn complaint(output: &Output) {
    print!("{}", String::from_utf8_lossy(&output.stderr));
}

fn one_script(place: &Place, tacbook: &str, seed: u64) -> io::Result<bool> {
    let text = script(seed);
    let expected = run(&text);
    let input = place.file("script");
    let archive = place.file("archive");
    fs::write(&input, &text)?;
    let _ = fs::remove_file(&archive);
    let output = start(tacbook, &input, &["--archive", archive.to_str().unwrap()])?;
    let written = fs::read(&archive).ok();
    let mut differs = status(&output, expected.granted);
    differs |= diff(place, "standard output", &expected.stdout, &output.stdout)?;
    if written != expected.archive {
        differs |= diff(place, "archive", &hex(&expected.archive), &hex(&written))?;
    }
    // Now and then without an archive.
    if seed % 16 == 0 {
        let plain = start(tacbook, &input, &[])?;
        differs |= status(&plain, expected.granted);
        differs |= diff(
            place,
            "standard output without an archive",
            &expected.stdout,
            &plain.stdout,
        )?;
    }
    if differs {
        complaint(&output);
        println!("script {seed} differs (model script {seed})");
    }
    Ok(differs)
}

fn one_archive(place: &Place, tacsum: &str, seed: u64) -> io::Result<bool> {
    let bytes = archive(seed);
    let input = place.file("bytes");
    fs::write(&input, &bytes)?;
    let output = start(tacsum, &input, &[])?;
    let mut differs = status(&output, true);
    differs |= diff(
        place,
        "standard output",
        summary(&bytes).as_bytes(),
        &output.stdout,
    )?;
    if differs {
        complaint(&output);
        println!("archive {seed} differs (model archive {seed})");
    }
    Ok(differs)
}

// Whether the programs agree with the model on all seeds.
pub fn compare(tacbook: &str, tacsum: &str, count: u64, first: u64) -> io::Result<bool> {
    let place = Place(std::env::temp_dir().join(format!("model-compare-{}", std::process::id())));
    fs::create_dir_all(&place.0)?;
    for seed in first..first + count {
        if one_script(&place, tacbook, seed)? || one_archive(&place, tacsum, seed)? {
            return Ok(false);
        }
    }
    println!("{count} scripts and {count} archives without a difference");
    Ok(true)
}
