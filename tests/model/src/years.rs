//! One fixed script: sixteen owners, six years of months, many corrections.

use crate::book::{Book, Call, Filing, Reading, Setup};
use crate::rng::Rng;
use crate::rules::{Base, Charge, Layer};
use crate::script::{call_words, setup_words};

const YEARS: u16 = 6;
const AREAS: [u8; 16] = [0, 1, 2, 1, 0, 2, 1, 1, 0, 2, 1, 0, 2, 0, 1, 2];

// What an owner is about: yearly load, dollars for each MWh, MWh for each MW of peak.
struct Owner {
    load: i64,
    price: i64,
    hours: i64,
}

struct Years {
    rng: Rng,
    book: Book,
    owners: Vec<Owner>,
    text: String,
    // Corrections still to come for each month.
    owed: Vec<usize>,
}

pub fn years() -> String {
    let mut rng = Rng::new(2008);
    let mut first = [0; 16];
    first[..6].copy_from_slice(&[
        32_000_000, 32_000_000, 8_000_000, 5_000_000, 1_000_000, 400_000,
    ]);
    let mut second = [0; 16];
    second[..12].copy_from_slice(&[
        0, 60_000_000, 0, 2_000_000, 0, 750_000, 0, 0, 3_000_000, 0, 1_250_000, 90_000,
    ]);
    let setup = Setup {
        areas: AREAS.to_vec(),
        charge: Charge {
            base: Base::Volumetric(8),
            layers: vec![Layer { k: 8, caps: first }, Layer { k: 3, caps: second }],
        },
        journal: 8000,
        roll: 65535,
    };
    let mut text = String::from("# Sixteen owners, six years.\n");
    for words in setup_words(&setup) {
        text += &(words.join(" ") + "\n");
    }
    let owners = (0..16)
        .map(|_| Owner {
            load: rng.pick(&[100_000, 1_000_000, 2_000_000]) * rng.range(100, 480) / 100,
            price: rng.range(2, 10),
            hours: rng.range(3500, 6000),
        })
        .collect();
    let owed = (0..12 * YEARS)
        .map(|_| {
            if rng.percent(65) {
                rng.range(2, 5) as usize
            } else {
                0
            }
        })
        .collect();
    let mut years = Years {
        rng,
        book: Book::new(setup).expect("a sound set-up"),
        owners,
        text,
        owed,
    };
    for year in 0..YEARS {
        years.year(year);
    }
    years.late();
    years.text
}

impl Years {
    fn call(&mut self, call: Call) -> bool {
        self.text += &(call_words(&call).join(" ") + "\n");
        self.book.answer(&call).is_ok()
    }

    fn note(&mut self, text: &str) {
        self.text += &format!("# {text}\n");
    }

    fn length(&self) -> u16 {
        self.book.length() as u16
    }

    fn filing(&mut self, owner: usize, first: u16, last: u16) -> Filing {
        let Owner { load, price, hours } = self.owners[owner];
        let load = load * self.rng.range(92, 110) / 100;
        let ehv = (load * price * self.rng.range(80, 125) / 100).clamp(100_000, 100_000_000)
            + self.rng.range(0, 999);
        let nhv = match self.rng.below(5) {
            0 | 1 => 0,
            2 => -self.rng.range(1_000, ehv / 40),
            _ => self.rng.range(0, ehv / 5),
        };
        let peak = load / hours + 1;
        Filing {
            owner: owner as u8,
            first,
            last,
            ehv,
            nhv,
            load: load as u32,
            peak: peak as u32,
        }
    }

    fn file(&mut self, owner: usize, first: u16, last: u16) {
        let filing = self.filing(owner, first, last);
        self.call(Call::File(filing));
    }

    fn read(&mut self, owner: usize, month: u16) {
        let Owner { load, hours, .. } = self.owners[owner];
        // Summers are higher.
        let season = [90, 85, 88, 92, 100, 112, 125, 128, 115, 100, 90, 94][month as usize % 12];
        let load = load * season * self.rng.range(93, 107) / 120_000;
        let peak = load * 12 / hours + self.rng.range(0, 9);
        self.call(Call::Read(Reading {
            month,
            owner: owner as u8,
            load: load as u32,
            peak: peak as u32,
        }));
    }

    fn open(&mut self, month: u16) -> Option<u16> {
        let n = self.length();
        self.call(Call::Open(month)).then_some(n)
    }

    fn settle(&mut self, month: u16) {
        if let Some(n) = self.open(month) {
            self.call(Call::Post(month, n));
        }
    }

    fn year(&mut self, year: u16) {
        let start = 12 * year;
        self.note(&format!("year {year}: filings"));
        for owner in 0..16 {
            match self.rng.below(8) {
                // Two halves.
                0 => {
                    self.file(owner, start, start + 5);
                    self.file(owner, start + 6, start + 11);
                }
                // Some years ahead, filed again when they come.
                1 => self.file(owner, start, (start + 35).min(359)),
                // A quarter is filed again at once.
                2 => {
                    self.file(owner, start, start + 11);
                    self.file(owner, start + 3, start + 5);
                }
                _ => self.file(owner, start, start + 11),
            }
        }
        for month in start..start + 12 {
            self.month(month);
        }
    }

    fn month(&mut self, month: u16) {
        self.note(&format!("month {month}"));
        let hasty = month % 12 == 4;
        let mut order: Vec<usize> = (0..16).collect();
        self.rng.shuffle(&mut order);
        for (i, owner) in order.into_iter().enumerate() {
            if hasty && i == 12 {
                // Readings are still missing.
                self.open(month);
            }
            self.read(owner, month);
        }
        match month % 9 {
            // Withdrawn, and opened once more.
            3 => {
                if let Some(n) = self.open(month) {
                    self.call(Call::Withdraw(month, n));
                }
                self.settle(month);
            }
            // Overtaken by a reading before it is posted.
            6 => {
                if let Some(n) = self.open(month) {
                    self.read(month as usize % 16, month);
                    self.call(Call::Post(month, n));
                    self.call(Call::State(month));
                }
                self.settle(month);
            }
            _ => self.settle(month),
        }
        if month % 5 == 0 {
            self.call(Call::State(month));
            // Posted once more, and opened once more, with nothing new.
            let n = self.length();
            self.call(Call::Post(month, n));
            self.call(Call::Open(month));
        }
        if month % 24 == 13 {
            self.wrong_calls(month);
        }
        if month % 30 == 20 {
            self.wrong_filing(month);
        }
        // One to three corrections of months up to a year and a half back.
        for _ in 0..self.rng.range(1, 3) {
            self.correct_one(month, 18);
        }
    }

    fn correct_one(&mut self, month: u16, back: u16) {
        let from = month.saturating_sub(back);
        let due: Vec<u16> = (from..=month)
            .filter(|&m| self.owed[m as usize] > 0)
            .collect();
        if !due.is_empty() {
            let month = self.rng.pick(&due);
            self.owed[month as usize] -= 1;
            self.correct(month);
        }
    }

    fn correct(&mut self, month: u16) {
        let owner = self.rng.below(16);
        match self.rng.below(10) {
            // A filing for the month and some behind it.
            0 | 1 => {
                let on = self.rng.below(4) as u16;
                let last = (month + on).min(month / 12 * 12 + 11);
                self.file(owner, month, last);
            }
            2 => {
                self.read(owner, month);
                let other = self.rng.below(16);
                self.read(other, month);
            }
            _ => self.read(owner, month),
        }
        if self.rng.percent(20) {
            self.call(Call::State(month));
        }
        let Some(n) = self.open(month) else { return };
        match self.rng.below(10) {
            0 => {
                self.call(Call::Withdraw(month, n));
                self.settle(month);
            }
            1 | 2 => {
                // Overtaken: posted as opened, then put right.
                let other = self.rng.below(16);
                self.read(other, month);
                self.call(Call::Post(month, n));
                self.settle(month);
            }
            3 => {
                // An opening that has become older than the mark.
                let other = self.rng.below(16);
                self.read(other, month);
                self.settle(month);
                self.call(Call::Post(month, n));
            }
            _ => {
                self.call(Call::Post(month, n));
            }
        }
        if self.rng.percent(20) {
            self.call(Call::State(month));
        }
    }

    fn wrong_calls(&mut self, month: u16) {
        self.note("calls that are refused");
        let filing = self.filing(3, month, month);
        self.call(Call::File(Filing {
            owner: 16,
            ..filing
        }));
        self.call(Call::File(Filing {
            last: 360,
            ..filing
        }));
        self.call(Call::File(Filing {
            ehv: 2_000_000_001,
            ..filing
        }));
        self.call(Call::Read(Reading {
            month,
            owner: 2,
            load: 100_000_001,
            peak: 1,
        }));
        self.call(Call::Read(Reading {
            month: 400,
            owner: 2,
            load: 1,
            peak: 1,
        }));
        self.call(Call::Open(360));
        self.call(Call::Open(359));
        self.call(Call::State(65535));
        self.call(Call::State(359));
        let n = self.length();
        self.call(Call::Post(month, n + 1));
        self.call(Call::Post(month, 0));
        self.call(Call::Post(month + 1, n));
    }

    // A filing that makes the month fail, and the one that puts it right.
    fn wrong_filing(&mut self, month: u16) {
        self.note("a filing in the wrong unit");
        let filing = self.filing(7, month, month);
        self.call(Call::File(Filing {
            load: filing.load / 10_000,
            ..filing
        }));
        self.open(month);
        self.call(Call::File(Filing {
            ehv: 2_000_000_000,
            ..filing
        }));
        self.open(month);
        self.call(Call::State(month));
        self.call(Call::File(filing));
        self.settle(month);
    }

    // What is still owed once the years are over, then a last look at every month.
    fn late(&mut self) {
        self.note("late corrections");
        let last = 12 * YEARS - 1;
        for _ in 0..60 {
            self.correct_one(last, last);
        }
        self.note("the months at the end");
        for month in 0..=last {
            self.call(Call::State(month));
        }
        for month in 0..=last {
            if month % 6 == 5 {
                self.settle(month);
            }
        }
    }
}
