//! Random scripts: most sensible, some hostile, a few that cannot be read.

use crate::book::{Book, Call, Filing, Reading, Setup, JOURNAL, ROLL};
use crate::rng::Rng;
use crate::rules::{Base, Charge, Layer};
use crate::script::{call_words, setup_words};

const DOLLARS: i64 = 2_000_000_000;
const FILED_LOAD: i64 = 180_000_000;
const FILED_PEAK: i64 = 1_000_000;
const LOAD: i64 = 100_000_000;
const PEAK: i64 = 100_000;
const CAP: i64 = 60_000_000;

#[derive(Clone, Copy, PartialEq)]
enum Style {
    Tiny,
    Real,
    Huge,
    // Figures at their limits and one past them.
    Limits,
    // Rates at their limits.
    Rates,
    // Like Rates, but every second owner carries all.
    Pairs,
    // Bills a cent from their limit, where the hybrid charge has 99.
    Cent,
    // Hardly anything filed for use.
    Idle,
    // No owner has weight.
    Negative,
    // Whatever the words can hold.
    Wild,
}

const HOSTILE: [Style; 12] = [
    Style::Tiny,
    Style::Cent,
    Style::Idle,
    Style::Idle,
    Style::Limits,
    Style::Rates,
    Style::Rates,
    Style::Pairs,
    Style::Pairs,
    Style::Negative,
    Style::Negative,
    Style::Wild,
];

struct Filed {
    ehv: i64,
    nhv: i64,
    load: i64,
    peak: i64,
}

// A figure near or at a limit, or anything below it.
fn at_limit(rng: &mut Rng, limit: i64) -> i64 {
    match rng.below(12) {
        0 => limit,
        1 => limit - 1,
        2 => limit + 1,
        3 => 0,
        4 => 1,
        _ => rng.spread(limit),
    }
}

fn sign(rng: &mut Rng, percent: usize, value: i64) -> i64 {
    if rng.percent(percent) {
        -value
    } else {
        value
    }
}

struct Writer {
    rng: Rng,
    lines: Vec<Vec<u8>>,
    // How many lines the set-up has.
    heads: usize,
    book: Option<Book>,
    owners: usize,
    base: Base,
    style: Style,
    hostile: bool,
    months: Vec<u16>,
    openings: Vec<(u16, u16)>,
    unit: i64,
    // Whether to fill the whole journal.
    stuff: bool,
}

pub fn script(seed: u64) -> Vec<u8> {
    let mut rng = Rng::new(seed);
    let hostile = rng.percent(30);
    let size = match rng.below(200) {
        0..=69 => rng.range(4, 40),
        70..=149 => rng.range(40, 160),
        150..=193 => rng.range(160, 600),
        194..=198 => rng.range(1000, 3000),
        _ => rng.range(8500, 9500),
    } as usize;
    // What is wrong with a whole script is mostly shown by short ones.
    let short = size < 40;
    let bad_setup = rng.percent(if short { 10 } else { 2 });
    let most = if hostile { 16 } else { (size / 5).clamp(1, 16) };
    let owners = if rng.percent(30) {
        most
    } else {
        1 + rng.below(most)
    };
    let style = if hostile {
        rng.pick(&HOSTILE)
    } else {
        rng.pick(&[Style::Tiny, Style::Real, Style::Huge])
    };
    let focus = 1 + rng.below(if size > owners * 8 { 4 } else { 1 });
    let months = (0..focus)
        .map(|_| match rng.below(8) {
            0 => 0,
            1 => 359,
            2 => 358,
            _ => rng.below(360) as u16,
        })
        .collect();
    let unit = 1 + rng.spread(DOLLARS / 4000 / owners as i64);
    let mut setup = random_setup(&mut rng, owners, style, size);
    if bad_setup {
        spoil_setup(&mut rng, &mut setup);
    }
    let base = setup.charge.base;
    let mut writer = Writer {
        rng,
        lines: Vec::new(),
        heads: 0,
        book: None,
        owners,
        base,
        style,
        hostile,
        months,
        openings: Vec::new(),
        unit,
        stuff: size > JOURNAL,
    };
    writer.setup(setup);
    while writer.lines.len() < size {
        writer.step();
    }
    let heads = writer.heads;
    if writer.rng.percent(if short { 30 } else { 3 }) {
        damage(&mut writer.rng, &mut writer.lines, heads);
    }
    let mut text = writer.lines.join(&b'\n');
    if !writer.rng.percent(10) {
        text.push(b'\n');
    }
    text
}

fn random_setup(rng: &mut Rng, owners: usize, style: Style, size: usize) -> Setup {
    let same = rng.below(3) as u8;
    let areas = match rng.below(4) {
        0 => vec![same; owners],
        1 => (0..owners).map(|i| (i % 3) as u8).collect(),
        _ => (0..owners).map(|_| rng.below(3) as u8).collect(),
    };
    let base = if style == Style::Cent {
        Base::Hybrid(99)
    } else if rng.percent(60) {
        Base::Volumetric(if rng.percent(40) {
            rng.pick(&[0, 8, 10])
        } else {
            rng.below(11) as u8
        })
    } else {
        Base::Hybrid(if rng.percent(40) {
            rng.pick(&[0, 50, 100])
        } else {
            rng.below(101) as u8
        })
    };
    let cap_size = match style {
        Style::Tiny | Style::Negative | Style::Idle => 1000,
        _ => CAP,
    };
    let layers = (0..rng.pick(&[0, 0, 1, 1, 2, 3]))
        .map(|_| {
            let mut caps = [0; 16];
            let told = if rng.percent(70) {
                owners
            } else {
                rng.below(17)
            };
            for cap in caps.iter_mut().take(told) {
                *cap = match rng.below(10) {
                    0..=3 => 0,
                    4 => CAP as u32,
                    5..=6 => rng.range(0, cap_size) as u32,
                    _ => rng.spread(cap_size) as u32,
                };
            }
            Layer {
                k: rng.below(11) as u8,
                caps,
            }
        })
        .collect();
    let journal = match rng.below(20) {
        _ if size > JOURNAL => rng.pick(&[JOURNAL, JOURNAL, 65535]),
        0 => rng.below(owners * 2 + 1),
        1..=3 => owners * 2 + rng.below(size / 4 + 1),
        4 => 8192,
        5 => rng.pick(&[8191, 8193, 65535]),
        _ => JOURNAL,
    };
    let roll = match rng.below(20) {
        0 => rng.below(owners + 1),
        1..=4 => owners + rng.below(owners * 6),
        5 => owners * (1 + rng.below(4)),
        6 => rng.pick(&[2426, 2427, 2428, 65535]),
        7 => 10_000,
        _ if size > 600 => rng.pick(&[ROLL, 20_000, 65535]),
        _ => ROLL,
    };
    Setup {
        areas,
        charge: Charge { base, layers },
        journal,
        roll,
    }
}

fn spoil_setup(rng: &mut Rng, setup: &mut Setup) {
    if rng.percent(50) {
        match rng.below(4) {
            0 => setup.areas.clear(),
            1 => setup.areas.resize(rng.pick(&[17, 17, 18, 300]), 1),
            _ => {
                let i = rng.below(setup.areas.len());
                setup.areas[i] = rng.pick(&[3, 4, 255]);
            }
        }
    }
    if rng.percent(70) {
        match setup.charge.layers.first_mut() {
            Some(layer) if rng.percent(70) => match rng.below(3) {
                0 => layer.k = rng.pick(&[11, 255]),
                _ => layer.caps[rng.below(16)] = rng.pick(&[60_000_000, 60_000_001, u32::MAX]),
            },
            _ => {
                setup.charge.base = match setup.charge.base {
                    Base::Volumetric(_) => Base::Volumetric(rng.pick(&[10, 11, 255])),
                    Base::Hybrid(_) => Base::Hybrid(rng.pick(&[100, 101, 255])),
                }
            }
        }
    }
}

// Words as a line, now and then with odd spaces and odd zeros.
fn line_of(rng: &mut Rng, words: &[String]) -> Vec<u8> {
    let mut line = String::new();
    if rng.percent(1) {
        line += "  ";
    }
    for (i, word) in words.iter().enumerate() {
        if i > 0 {
            line += if rng.percent(1) { "   " } else { " " };
        }
        let odd = rng.below(300);
        match word.strip_prefix('-') {
            Some(digits) if odd == 0 => line += &format!("-00{digits}"),
            None if odd == 0 && word.as_bytes()[0].is_ascii_digit() => {
                line += &format!("000{word}")
            }
            None if odd < 10 && word == "0" => line += "-0",
            _ => line += word,
        }
    }
    if rng.percent(1) {
        line += " ";
    }
    line.into_bytes()
}

impl Writer {
    fn setup(&mut self, setup: Setup) {
        let mut lines = setup_words(&setup);
        if self.rng.percent(3) {
            lines.push(vec!["journal".to_string(), setup.journal.to_string()]);
            lines.dedup();
        }
        // Any order will do, as long as the layers keep theirs behind the charge.
        let (late, mut early): (Vec<_>, Vec<_>) =
            lines.into_iter().partition(|words| words[0] == "layer");
        if self.rng.percent(50) {
            self.rng.shuffle(&mut early);
        }
        let mut at = early.iter().position(|words| words[0] == "charge").unwrap() + 1;
        for words in late {
            at += self.rng.below(early.len() - at + 1);
            early.insert(at, words);
            at += 1;
        }
        for words in early {
            let line = line_of(&mut self.rng, &words);
            self.lines.push(line);
        }
        self.heads = self.lines.len();
        self.book = Book::new(setup).ok();
    }

    fn call(&mut self, call: Call) {
        if self.rng.percent(1) {
            let aside: &[u8] =
                self.rng
                    .pick(&[&b""[..], b"   ", b"# a remark", b"  #open 5", b"#\t\xff\r"]);
            self.lines.push(aside.to_vec());
        }
        let line = line_of(&mut self.rng, &call_words(&call));
        self.lines.push(line);
        if let Some(book) = &mut self.book {
            let n = book.length() as u16;
            let granted = book.answer(&call).is_ok();
            if let (Call::Open(month), true) = (call, granted) {
                self.openings.push((month, n));
            }
        }
    }

    fn step(&mut self) {
        let month = self.rng.pick(&self.months.clone());
        // Once the journal is full, entries are rare.
        let full = self.book.as_ref().is_some_and(Book::journal_full) && self.rng.percent(85);
        if !full && self.rng.percent(if self.hostile { 60 } else { 92 }) {
            if let Some(call) = self.missing(month) {
                return self.call(call);
            }
        }
        let odd = if self.hostile { 12 } else { 4 };
        if self.rng.percent(odd) {
            return self.odd(month);
        }
        let owner = self.rng.below(self.owners) as u8;
        let action = match self.stuff && self.rng.percent(97) {
            true => 0,
            false if full => self.rng.range(30, 99),
            false => self.rng.range(0, 99),
        };
        match action {
            0..=11 => {
                let call = self.filing(owner, month);
                self.call(call)
            }
            12..=29 => {
                let call = self.reading(owner, month);
                self.call(call)
            }
            30..=45 => self.open(month),
            46..=81 => self.post(month),
            82..=94 => self.call(Call::State(month)),
            _ => {
                let (month, n) = self.opening(month);
                self.call(Call::Withdraw(month, n))
            }
        }
    }

    // A filing or reading that the month still lacks.
    fn missing(&mut self, month: u16) -> Option<Call> {
        let book = self.book.as_ref()?;
        let n = book.length();
        let start = self.rng.below(self.owners);
        for i in 0..self.owners {
            let owner = (start + i) % self.owners;
            if book.filing(owner, month, n).is_none() {
                return Some(self.filing(owner as u8, month));
            }
            if book.reading(owner, month, n).is_none() {
                return Some(self.reading(owner as u8, month));
            }
        }
        None
    }

    // The script's style, and in hostile scripts now and then another.
    fn style(&mut self) -> Style {
        if self.hostile && self.rng.percent(8) {
            self.rng.pick(&HOSTILE)
        } else {
            self.style
        }
    }

    fn filed(&mut self, owner: u8) -> Filed {
        let style = self.style();
        let owners = self.owners as i64;
        let unit = self.unit;
        let base = self.base;
        let rng = &mut self.rng;
        let gap = rng.percent(3);
        match style {
            Style::Tiny => {
                let ehv = rng.range(0, 2000);
                let nhv = rng.range(0, 300) * rng.pick(&[0, 1]);
                Filed {
                    ehv: sign(rng, 7, ehv),
                    nhv: sign(rng, 7, nhv),
                    load: if gap { 0 } else { rng.range(20, 200) },
                    peak: if gap { 0 } else { rng.range(2, 20) },
                }
            }
            Style::Real => {
                let load = rng.range(1_000_000, 10_000_000);
                Filed {
                    ehv: rng.range(100_000, 100_000_000),
                    nhv: rng.range(0, 10_000_000) * rng.pick(&[0, 1]),
                    load: if gap { 0 } else { load },
                    peak: if gap { 0 } else { load / rng.range(3000, 6000) },
                }
            }
            Style::Huge => {
                let ehv = DOLLARS / owners;
                let nhv = DOLLARS / 2 / owners;
                let (ehv, nhv) = match rng.below(10) {
                    0 => (ehv, nhv),
                    1 => (-ehv, nhv),
                    2 => (ehv, -nhv),
                    _ => (rng.range(ehv / 2, ehv), rng.range(0, nhv)),
                };
                Filed {
                    ehv,
                    nhv,
                    load: rng.range(10_000_000, FILED_LOAD),
                    peak: rng.range(50_000, FILED_PEAK),
                }
            }
            Style::Limits => {
                let share = if rng.below(self.owners * 3) == 0 {
                    DOLLARS
                } else {
                    DOLLARS / owners
                };
                let ehv = at_limit(rng, share);
                let nhv = at_limit(rng, share / 2) * rng.pick(&[0, 1, 2]);
                Filed {
                    ehv: sign(rng, 20, ehv),
                    nhv: sign(rng, 20, nhv),
                    load: at_limit(rng, FILED_LOAD),
                    peak: at_limit(rng, FILED_PEAK),
                }
            }
            Style::Rates => {
                // Dollars that both pools share in the ratio of their limits.
                let dollars = 1000
                    * rng.pick(&[unit, unit, 1, 20_000, 1 + unit / 2])
                    * rng.pick(&[1, 1, 1, -1]);
                let (load, peak) = match base {
                    Base::Volumetric(_) => (dollars / 1000, 1),
                    Base::Hybrid(s) => (
                        dollars / 1000 * s as i64 / 100,
                        dollars / 100_000 * (100 - s as i64) / 100,
                    ),
                };
                let nudge = rng.pick(&[0, 0, 0, 1, -1, 2]);
                Filed {
                    ehv: dollars + nudge,
                    nhv: 0,
                    load: load.abs().min(FILED_LOAD),
                    peak: (peak.abs() + rng.pick(&[0, 0, 1])).min(FILED_PEAK),
                }
            }
            Style::Pairs => {
                let nudge = rng.pick(&[0, 0, 0, 0, 1, -1]);
                let ehv = if owner % 2 == 0 {
                    0
                } else {
                    unit * 2000 + nudge
                };
                Filed {
                    ehv,
                    nhv: 0,
                    load: unit.min(FILED_LOAD),
                    peak: 1 + unit / 100,
                }
            }
            Style::Cent => Filed {
                ehv: sign(rng, 5, 500_000),
                nhv: 0,
                load: 495,
                peak: FILED_PEAK,
            },
            Style::Idle => Filed {
                ehv: rng.range(-20, 20) * rng.pick(&[0, 1]),
                nhv: rng.range(-20, 20) * rng.pick(&[0, 0, 1]),
                load: rng.range(1, 5) * rng.pick(&[0, 0, 0, unit % 2]),
                peak: rng.range(1, 5) * rng.pick(&[0, 0, 0, unit % 3]),
            },
            Style::Negative => Filed {
                ehv: -rng.range(0, 2000),
                nhv: -rng.range(0, 300) * rng.pick(&[0, 1]),
                load: rng.range(20, 200),
                peak: rng.range(2, 20),
            },
            Style::Wild => {
                let ehv = rng.spread(i64::MAX);
                let nhv = rng.spread(i64::MAX);
                Filed {
                    ehv: if rng.percent(2) {
                        i64::MIN
                    } else {
                        sign(rng, 30, ehv)
                    },
                    nhv: sign(rng, 30, nhv),
                    load: rng.spread(u32::MAX as i64),
                    peak: rng.spread(u32::MAX as i64),
                }
            }
        }
    }

    fn metered(&mut self) -> (i64, i64) {
        let style = self.style();
        let rng = &mut self.rng;
        if rng.percent(3) {
            return (0, 0);
        }
        match style {
            Style::Cent => (LOAD, rng.range(0, 3)),
            Style::Tiny | Style::Negative | Style::Idle => (rng.range(0, 20), rng.range(0, 3)),
            Style::Real => (rng.range(50_000, 1_000_000), rng.range(20, 3000)),
            Style::Huge => (rng.range(0, LOAD), rng.range(0, PEAK)),
            Style::Limits => (at_limit(rng, LOAD), at_limit(rng, PEAK)),
            Style::Rates | Style::Pairs => {
                let load = LOAD - rng.pick(&[0, 0, 0, 1, 5_000_000, 20_000_000]);
                (load, rng.pick(&[0, PEAK, PEAK, PEAK / 2]))
            }
            Style::Wild => (rng.spread(u32::MAX as i64), rng.spread(u32::MAX as i64)),
        }
    }

    // A span of months around one.
    fn span(&mut self, month: u16) -> (u16, u16) {
        let back = self.rng.below(13) as u16;
        let on = self.rng.below(13) as u16;
        match self.rng.below(10) {
            0..=3 => (month, month),
            4..=6 => (month.saturating_sub(back), (month + on).min(359)),
            7 => (0, 359),
            8 => (month, 359),
            _ => (0, month),
        }
    }

    fn filing(&mut self, owner: u8, month: u16) -> Call {
        let (first, last) = self.span(month);
        let filed = self.filed(owner);
        Call::File(Filing {
            owner,
            first,
            last,
            ehv: filed.ehv,
            nhv: filed.nhv,
            load: filed.load as u32,
            peak: filed.peak as u32,
        })
    }

    fn reading(&mut self, owner: u8, month: u16) -> Call {
        let (load, peak) = self.metered();
        Call::Read(Reading {
            month,
            owner,
            load: load as u32,
            peak: peak as u32,
        })
    }

    // An earlier opening, often one of this month.
    fn opening(&mut self, month: u16) -> (u16, u16) {
        let of_month: Vec<_> = self
            .openings
            .iter()
            .copied()
            .filter(|opening| opening.0 == month)
            .collect();
        let length = self.book.as_ref().map_or(0, Book::length) as u16;
        match self.rng.below(10) {
            0..=6 if !of_month.is_empty() => *of_month.last().unwrap(),
            7 if !of_month.is_empty() => self.rng.pick(&of_month),
            8 if !self.openings.is_empty() => {
                let (_, n) = self.rng.pick(&self.openings.clone());
                (month, n)
            }
            _ => (month, length),
        }
    }

    // A month with nothing new is mostly given something new instead.
    fn open(&mut self, month: u16) {
        let state = self
            .book
            .as_mut()
            .map(|book| book.answer(&Call::State(month)));
        let current = matches!(state, Some(Ok(text)) if text.starts_with("current"));
        let full = self.book.as_ref().is_some_and(Book::journal_full);
        if current && !full && self.rng.percent(75) {
            let owner = self.rng.below(self.owners) as u8;
            let call = self.reading(owner, month);
            return self.call(call);
        }
        self.call(Call::Open(month))
    }

    fn post(&mut self, month: u16) {
        let length = self.book.as_ref().map_or(0, Book::length) as u16;
        let mark = self
            .book
            .as_ref()
            .and_then(|book| book.mark(month))
            .unwrap_or(0) as u16;
        let strange = if self.hostile { 25 } else { 6 };
        if self.rng.percent(strange) {
            let any = self.rng.below(length as usize + 1) as u16;
            let n = self.rng.pick(&[
                0,
                1,
                any,
                length + 1,
                65535,
                8192,
                8193,
                mark,
                mark.saturating_sub(1),
                mark + 1,
            ]);
            return self.call(Call::Post(month, n));
        }
        let fresh: Vec<_> = self
            .openings
            .iter()
            .copied()
            .filter(|&(m, n)| m == month && n > mark)
            .collect();
        if fresh.is_empty() && self.rng.percent(80) {
            return self.open(month);
        }
        let (month, n) = match self.rng.below(10) {
            0..=5 if !fresh.is_empty() => *fresh.last().unwrap(),
            6..=8 if !fresh.is_empty() => self.rng.pick(&fresh),
            _ => self.opening(month),
        };
        self.call(Call::Post(month, n))
    }

    // A call that is refused for its own words, or at a far month.
    fn odd(&mut self, month: u16) {
        let owner = self.rng.below(self.owners) as u8;
        let far = self.rng.pick(&[360, 361, 400, 65535, 359, 0]);
        let stranger = self.rng.pick(&[self.owners as u8, 16, 17, 255]);
        let mut file = self.filing(owner, month);
        let mut read = self.reading(owner, month);
        let over = self.rng.below(4);
        let high = |limit: i64| if over == 0 { limit } else { limit + 1 };
        let rng = &mut self.rng;
        if let Call::File(f) = &mut file {
            match rng.below(10) {
                0 => f.owner = stranger,
                1 => f.first = far,
                2 => f.last = far,
                3 => (f.first, f.last) = (month.max(1), month.max(1) - 1),
                4 => f.ehv = high(DOLLARS),
                5 => f.ehv = -high(DOLLARS),
                6 => f.nhv = high(DOLLARS),
                7 => f.nhv = -high(DOLLARS),
                8 => f.load = high(FILED_LOAD) as u32,
                _ => f.peak = high(FILED_PEAK) as u32,
            }
        }
        if let Call::Read(r) = &mut read {
            match rng.below(4) {
                0 => r.owner = stranger,
                1 => r.month = far,
                2 => r.load = high(LOAD) as u32,
                _ => r.peak = high(PEAK) as u32,
            }
        }
        let call = match rng.below(6) {
            0 | 1 => file,
            2 | 3 => read,
            4 => Call::Open(far),
            _ => Call::State(far),
        };
        self.call(call)
    }
}

// One change that mostly leaves a script that cannot be read.
fn damage(rng: &mut Rng, lines: &mut Vec<Vec<u8>>, heads: usize) {
    match rng.below(12) {
        0..=3 => damage_line(rng, lines),
        4 => {
            // A set-up line once more.
            let line = lines[rng.below(heads)].clone();
            let place = rng.below(heads + 1);
            lines.insert(place, line);
        }
        5 | 6 => {
            // A set-up line behind a call, or before what it needs.
            let line = lines.remove(rng.below(heads));
            let place = if rng.percent(50) {
                rng.below(heads)
            } else {
                rng.below(lines.len() + 1)
            };
            lines.insert(place, line);
        }
        7 => {
            lines.remove(rng.below(heads));
        }
        8 | 9 => {
            let line: &[u8] = rng.pick(&[
                &b"layer 1 1 2 3 4 5 6 7 8 9 10 11 12 13 14 15 16"[..],
                b"layer 1 1 2 3 4 5 6 7 8 9 10 11 12 13 14 15 16 17",
                b"layer 1 1 2 3 4 5 6 7 8 9 10 11 12 13 14 15 16 17",
                b"layer 1 1 2 3 4 5 6 7 8 9 10 11 12 13 14 15 16 17",
                b"layer 1",
                b"layer",
                b"journal 65536",
                b"journal 5",
                b"roll",
                b"roll 65536",
                b"charge volumetric 5",
                b"charge linear 5",
                b"owners",
            ]);
            let place = if rng.percent(50) {
                heads
            } else {
                rng.below(heads + 1)
            };
            lines.insert(place, line.to_vec());
        }
        _ => {
            let line: &[u8] = rng.pick(&[
                &b"post 360 1"[..],
                b"post 359 1",
                b"withdraw 360 1",
                b"withdraw 359 65535",
                b"post 1 65536",
                b"withdraw 1 65536",
                b"journal 8192",
                b"roll 99",
                b"layer 1",
                b"open 1 # now",
                b"\t# a remark",
                b"\r",
                b"open\t1",
                b"open 1\r",
            ]);
            let place = heads + rng.below(lines.len() - heads + 1);
            lines.insert(place, line.to_vec());
        }
    }
}

fn damage_line(rng: &mut Rng, lines: &mut [Vec<u8>]) {
    let at = rng.below(lines.len());
    let mut words: Vec<Vec<u8>> = lines[at]
        .split(|&byte| byte == b' ')
        .map(<[u8]>::to_vec)
        .collect();
    let word = rng.below(words.len());
    let other: &[u8] = rng.pick(&[
        &b"x"[..],
        b"+5",
        b"5x",
        b"1.0",
        b"--1",
        b"-",
        b"-1",
        b"255",
        b"256",
        b"65535",
        b"65536",
        b"4294967295",
        b"4294967296",
        b"9223372036854775807",
        b"9223372036854775808",
        b"-9223372036854775808",
        b"-9223372036854775809",
        b"18446744073709551616",
        b"340282366920938463463374607431768211456",
        b"00000000000000000000000000000000000000000000000001",
        b"0x10",
        b"1_000",
        b"\xc3\xa9",
        b"\0",
    ]);
    match rng.below(8) {
        0..=3 => words[word] = other.to_vec(),
        4 => {
            words.remove(word);
        }
        5 => words.insert(word + 1, b"1".to_vec()),
        6 => words[0] = words[0].to_ascii_uppercase(),
        _ => words[word].push(rng.pick(&[b'\t', b'\r', b'#', b',', b';'])),
    }
    lines[at] = words.join(&b' ');
}
