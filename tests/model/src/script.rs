//! Reading a script, answering it, and writing calls as words.

use crate::archive::encode;
use crate::book::{Book, Call, Filing, Reading, Setup, JOURNAL, ROLL};
use crate::rules::{Base, Charge, Fault, Layer};

pub struct Script {
    pub setup: Setup,
    pub calls: Vec<Call>,
}

pub struct Outcome {
    pub stdout: Vec<u8>,
    pub granted: bool,
    pub archive: Option<Vec<u8>>,
    pub message: String,
}

// The value of a number within the given bounds.
fn number(word: &[u8], low: i128, high: i128) -> Result<i128, String> {
    let text = String::from_utf8_lossy(word);
    let (minus, digits) = match word.strip_prefix(b"-") {
        Some(rest) => (true, rest),
        None => (false, word),
    };
    if digits.is_empty() || !digits.iter().all(u8::is_ascii_digit) {
        return Err(format!("'{text}' is no number"));
    }
    let mut value: i128 = 0;
    for digit in digits {
        // Far above every bound the size no longer matters.
        value = (value * 10 + (digit - b'0') as i128).min(1 << 100);
    }
    if minus {
        value = -value;
    }
    if value < low || value > high {
        return Err(format!("{text} does not fit"));
    }
    Ok(value)
}

fn u8_of(word: &[u8]) -> Result<u8, String> {
    Ok(number(word, 0, u8::MAX as i128)? as u8)
}

fn u16_of(word: &[u8]) -> Result<u16, String> {
    Ok(number(word, 0, u16::MAX as i128)? as u16)
}

fn u32_of(word: &[u8]) -> Result<u32, String> {
    Ok(number(word, 0, u32::MAX as i128)? as u32)
}

fn i64_of(word: &[u8]) -> Result<i64, String> {
    Ok(number(word, i64::MIN as i128, i64::MAX as i128)? as i64)
}

// A month that can be posted or withdrawn.
fn month_of(word: &[u8]) -> Result<u16, String> {
    Ok(number(word, 0, 359)? as u16)
}

fn once<T>(slot: &mut Option<T>, value: T) -> Result<(), String> {
    if slot.is_some() {
        return Err("said twice".to_string());
    }
    *slot = Some(value);
    Ok(())
}

#[derive(Default)]
struct Reader {
    areas: Option<Vec<u8>>,
    base: Option<Base>,
    layers: Vec<Layer>,
    journal: Option<usize>,
    roll: Option<usize>,
    calls: Vec<Call>,
}

impl Reader {
    fn line(&mut self, words: &[&[u8]]) -> Result<(), String> {
        let is_setup = matches!(
            words[0],
            b"owners" | b"charge" | b"layer" | b"journal" | b"roll"
        );
        if is_setup && !self.calls.is_empty() {
            return Err("set-up after a call".to_string());
        }
        if is_setup {
            return self.setup(words);
        }
        let call = call_of(words)?;
        if self.areas.is_none() || self.base.is_none() {
            return Err("a call before owners and charge".to_string());
        }
        self.calls.push(call);
        Ok(())
    }

    fn setup(&mut self, words: &[&[u8]]) -> Result<(), String> {
        match words {
            [b"owners", areas @ ..] => {
                let areas = areas
                    .iter()
                    .map(|word| u8_of(word))
                    .collect::<Result<_, _>>()?;
                once(&mut self.areas, areas)
            }
            [b"charge", b"volumetric", k] => once(&mut self.base, Base::Volumetric(u8_of(k)?)),
            [b"charge", b"hybrid", s] => once(&mut self.base, Base::Hybrid(u8_of(s)?)),
            [b"layer", k, words @ ..] => {
                if self.base.is_none() || self.layers.len() == 3 || words.len() > 16 {
                    return Err("no such layer".to_string());
                }
                let mut caps = [0; 16];
                for (cap, word) in caps.iter_mut().zip(words) {
                    *cap = u32_of(word)?;
                }
                self.layers.push(Layer { k: u8_of(k)?, caps });
                Ok(())
            }
            [b"journal", n] => once(&mut self.journal, u16_of(n)? as usize),
            [b"roll", n] => once(&mut self.roll, u16_of(n)? as usize),
            _ => Err("wrong words".to_string()),
        }
    }
}

fn call_of(words: &[&[u8]]) -> Result<Call, String> {
    Ok(match words {
        [b"file", owner, first, last, ehv, nhv, load, peak] => Call::File(Filing {
            owner: u8_of(owner)?,
            first: u16_of(first)?,
            last: u16_of(last)?,
            ehv: i64_of(ehv)?,
            nhv: i64_of(nhv)?,
            load: u32_of(load)?,
            peak: u32_of(peak)?,
        }),
        [b"read", month, owner, load, peak] => Call::Read(Reading {
            month: u16_of(month)?,
            owner: u8_of(owner)?,
            load: u32_of(load)?,
            peak: u32_of(peak)?,
        }),
        [b"open", month] => Call::Open(u16_of(month)?),
        [b"post", month, n] => Call::Post(month_of(month)?, u16_of(n)?),
        [b"withdraw", month, n] => Call::Withdraw(month_of(month)?, u16_of(n)?),
        [b"state", month] => Call::State(u16_of(month)?),
        _ => return Err("wrong words".to_string()),
    })
}

pub fn read_script(text: &[u8]) -> Result<Script, String> {
    let mut reader = Reader::default();
    let mut count = 0;
    for (i, line) in text.split(|&byte| byte == b'\n').enumerate() {
        count = i + 1;
        let words: Vec<&[u8]> = line
            .split(|&byte| byte == b' ')
            .filter(|word| !word.is_empty())
            .collect();
        if words.is_empty() || words[0][0] == b'#' {
            continue;
        }
        reader
            .line(&words)
            .map_err(|why| format!("line {count}: {why}"))?;
    }
    let (Some(areas), Some(base)) = (reader.areas, reader.base) else {
        return Err(format!("line {count}: no owners or no charge"));
    };
    let setup = Setup {
        areas,
        charge: Charge {
            base,
            layers: reader.layers,
        },
        journal: reader.journal.unwrap_or(JOURNAL),
        roll: reader.roll.unwrap_or(ROLL),
    };
    Ok(Script {
        setup,
        calls: reader.calls,
    })
}

fn refused(fault: &Fault) -> String {
    let mut text = format!("refused {}", fault.number);
    if let Some(place) = fault.place {
        text += &format!(" place {place}");
    }
    if let Some(level) = fault.level {
        text += &format!(" level {level}");
    }
    text
}

pub fn run(text: &[u8]) -> Outcome {
    let nothing = |stdout: String, message: String| Outcome {
        stdout: stdout.into_bytes(),
        granted: false,
        archive: None,
        message,
    };
    let script = match read_script(text) {
        Ok(script) => script,
        Err(message) => return nothing(String::new(), message),
    };
    let mut book = match Book::new(script.setup) {
        Ok(book) => book,
        Err(fault) => return nothing(format!("setup refused {}\n", fault.number), String::new()),
    };
    let mut stdout = String::new();
    for call in &script.calls {
        stdout += &book.answer(call).unwrap_or_else(|fault| refused(&fault));
        stdout += "\n";
    }
    stdout += &format!("lines {}\n", book.roll().len());
    for line in book.roll() {
        stdout += &format!(
            "{} {} {} {}\n",
            line.month, line.owner, line.mark, line.cents
        );
    }
    let archive = book.roll().iter().flat_map(encode).collect();
    Outcome {
        stdout: stdout.into_bytes(),
        granted: true,
        archive: Some(archive),
        message: String::new(),
    }
}

pub fn setup_words(setup: &Setup) -> Vec<Vec<String>> {
    let mut owners = vec!["owners".to_string()];
    owners.extend(setup.areas.iter().map(u8::to_string));
    let charge = match setup.charge.base {
        Base::Volumetric(k) => words("charge volumetric", &[k as i128]),
        Base::Hybrid(s) => words("charge hybrid", &[s as i128]),
    };
    let mut lines = vec![owners, charge];
    for layer in &setup.charge.layers {
        let mut figures = vec![layer.k as i128];
        figures.extend(layer.caps.iter().map(|&cap| cap as i128));
        // Caps of 0 at the end need not be said.
        while figures.len() > 1 && figures.last() == Some(&0) {
            figures.pop();
        }
        lines.push(words("layer", &figures));
    }
    if setup.journal != JOURNAL {
        lines.push(words("journal", &[setup.journal as i128]));
    }
    if setup.roll != ROLL {
        lines.push(words("roll", &[setup.roll as i128]));
    }
    lines
}

fn words(name: &str, figures: &[i128]) -> Vec<String> {
    let mut words: Vec<String> = name.split(' ').map(str::to_string).collect();
    words.extend(figures.iter().map(i128::to_string));
    words
}

pub fn call_words(call: &Call) -> Vec<String> {
    match *call {
        Call::File(f) => words(
            "file",
            &[
                f.owner as i128,
                f.first as i128,
                f.last as i128,
                f.ehv as i128,
                f.nhv as i128,
                f.load as i128,
                f.peak as i128,
            ],
        ),
        Call::Read(r) => words(
            "read",
            &[
                r.month as i128,
                r.owner as i128,
                r.load as i128,
                r.peak as i128,
            ],
        ),
        Call::Open(month) => words("open", &[month as i128]),
        Call::Post(month, n) => words("post", &[month as i128, n as i128]),
        Call::Withdraw(month, n) => words("withdraw", &[month as i128, n as i128]),
        Call::State(month) => words("state", &[month as i128]),
    }
}
