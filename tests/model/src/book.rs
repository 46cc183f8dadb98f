//! The book: its journal, the marks of its months, and the roll.

use crate::archive::Line;
use crate::rules::{nets, Charge, Fault, Num, Row};

pub const MONTHS: u16 = 360;
pub const JOURNAL: usize = 8192;
pub const ROLL: usize = 2427;

#[derive(Clone, Copy, Debug, PartialEq)]
pub struct Filing {
    pub owner: u8,
    pub first: u16,
    pub last: u16,
    pub ehv: i64,
    pub nhv: i64,
    pub load: u32,
    pub peak: u32,
}

#[derive(Clone, Copy, Debug, PartialEq)]
pub struct Reading {
    pub month: u16,
    pub owner: u8,
    pub load: u32,
    pub peak: u32,
}

#[derive(Clone, Copy, Debug, PartialEq)]
pub enum Call {
    File(Filing),
    Read(Reading),
    Open(u16),
    Post(u16, u16),
    Withdraw(u16, u16),
    State(u16),
}

#[derive(Clone, Copy, Debug)]
enum Entry {
    Filing(Filing),
    Reading(Reading),
}

impl Entry {
    fn touches(&self, month: u16) -> bool {
        match self {
            Entry::Filing(f) => f.first <= month && month <= f.last,
            Entry::Reading(r) => r.month == month,
        }
    }
}

#[derive(Clone, Debug)]
pub struct Setup {
    pub areas: Vec<u8>,
    pub charge: Charge,
    pub journal: usize,
    pub roll: usize,
}

#[derive(Clone, Debug)]
pub struct Book {
    setup: Setup,
    journal: Vec<Entry>,
    marks: Vec<Option<usize>>,
    roll: Vec<Line>,
}

impl Book {
    pub fn new(setup: Setup) -> Result<Book, Fault> {
        let count = setup.areas.len();
        if !(1..=16).contains(&count) || setup.areas.iter().any(|&area| area > 2) {
            return Err(Fault::plain(1));
        }
        if !setup.charge.within() {
            return Err(Fault::plain(2));
        }
        let marks = vec![None; MONTHS as usize];
        Ok(Book {
            setup,
            journal: Vec::new(),
            marks,
            roll: Vec::new(),
        })
    }

    pub fn owners(&self) -> usize {
        self.setup.areas.len()
    }

    pub fn length(&self) -> usize {
        self.journal.len()
    }

    pub fn mark(&self, month: u16) -> Option<usize> {
        self.marks[month as usize]
    }

    pub fn roll(&self) -> &[Line] {
        &self.roll
    }

    pub fn answer(&mut self, call: &Call) -> Result<String, Fault> {
        match *call {
            Call::File(filing) => self.file(filing),
            Call::Read(reading) => self.read(reading),
            Call::Open(month) => self.open(month),
            Call::Post(month, n) => self.post(month, n as usize),
            Call::Withdraw(month, n) => Ok(format!("withdrawn {month} {n}")),
            Call::State(month) => self.state(month),
        }
    }

    fn owner_exists(&self, owner: u8) -> Result<(), Fault> {
        refuse_if((owner as usize) >= self.owners(), 3)
    }

    pub fn journal_full(&self) -> bool {
        self.journal.len() >= self.setup.journal.min(JOURNAL)
    }

    fn file(&mut self, f: Filing) -> Result<String, Fault> {
        self.owner_exists(f.owner)?;
        refuse_if(f.first >= MONTHS || f.last >= MONTHS || f.first > f.last, 4)?;
        let requirement = |sum: i64| (sum as Num).abs() > 2_000_000_000;
        refuse_if(
            requirement(f.ehv) || requirement(f.nhv) || f.load > 180_000_000 || f.peak > 1_000_000,
            5,
        )?;
        refuse_if(self.journal_full(), 6)?;
        self.journal.push(Entry::Filing(f));
        Ok(format!("filed {}", self.journal.len() - 1))
    }

    fn read(&mut self, r: Reading) -> Result<String, Fault> {
        self.owner_exists(r.owner)?;
        refuse_if(r.month >= MONTHS, 4)?;
        refuse_if(r.load > 100_000_000 || r.peak > 100_000, 5)?;
        refuse_if(self.journal_full(), 6)?;
        self.journal.push(Entry::Reading(r));
        Ok(format!("read {}", self.journal.len() - 1))
    }

    // The latest filing among the first n entries that covers the owner's month.
    pub fn filing(&self, owner: usize, month: u16, n: usize) -> Option<Filing> {
        self.journal[..n]
            .iter()
            .rev()
            .find_map(|entry| match entry {
                Entry::Filing(f) if f.owner as usize == owner && entry.touches(month) => Some(*f),
                _ => None,
            })
    }

    // The latest reading of it among the first n entries.
    pub fn reading(&self, owner: usize, month: u16, n: usize) -> Option<Reading> {
        self.journal[..n]
            .iter()
            .rev()
            .find_map(|entry| match entry {
                Entry::Reading(r) if r.owner as usize == owner && r.month == month => Some(*r),
                _ => None,
            })
    }

    // The month's nets, worked out from the first n entries.
    pub fn work_out(&self, month: u16, n: usize) -> Result<Vec<Num>, Fault> {
        let mut rows = Vec::new();
        for owner in 0..self.owners() {
            let filing = self.filing(owner, month, n).ok_or(Fault::at(9, owner))?;
            rows.push(Row {
                area: self.setup.areas[owner] as usize,
                ehv: filing.ehv as Num,
                nhv: filing.nhv as Num,
                filed_load: filing.load as Num,
                filed_peak: filing.peak as Num,
                load: 0,
                peak: 0,
            });
        }
        for (owner, row) in rows.iter_mut().enumerate() {
            let reading = self.reading(owner, month, n).ok_or(Fault::at(10, owner))?;
            row.load = reading.load as Num;
            row.peak = reading.peak as Num;
        }
        nets(&self.setup.charge, &rows)
    }

    // Whether an entry numbered from the first up to below the end touches the month.
    fn touched(&self, month: u16, from: usize, end: usize) -> bool {
        (from..end).any(|i| self.journal[i].touches(month))
    }

    fn open(&self, month: u16) -> Result<String, Fault> {
        let n = self.journal.len();
        refuse_if(month >= MONTHS, 4)?;
        if let Some(mark) = self.mark(month) {
            refuse_if(!self.touched(month, mark, n), 8)?;
        }
        let mut answer = format!("opened {month} {n}");
        for net in self.work_out(month, n)? {
            answer += &format!(" {net}");
        }
        Ok(answer)
    }

    fn post(&mut self, month: u16, n: usize) -> Result<String, Fault> {
        refuse_if(n > self.journal.len(), 16)?;
        let mark = self.mark(month);
        if let Some(mark) = mark {
            refuse_if(!self.touched(month, mark, n), 17)?;
        }
        let mut cents = self.work_out(month, n)?;
        if let Some(mark) = mark {
            let before = self.work_out(month, mark)?;
            for (cents, before) in cents.iter_mut().zip(before) {
                *cents -= before;
            }
        }
        refuse_if(self.setup.roll - self.roll.len() < self.owners(), 18)?;
        for (owner, cents) in cents.into_iter().enumerate() {
            let cents = cents as i64;
            self.roll.push(Line {
                month,
                owner: owner as u8,
                mark: n as u32,
                cents,
            });
        }
        self.marks[month as usize] = Some(n);
        Ok(format!("posted {month} {n}"))
    }

    fn state(&self, month: u16) -> Result<String, Fault> {
        refuse_if(month >= MONTHS, 4)?;
        Ok(match self.mark(month) {
            None => format!("unsettled {month}"),
            Some(mark) if self.touched(month, mark, self.journal.len()) => {
                format!("due {month} {mark}")
            }
            Some(mark) => format!("current {month} {mark}"),
        })
    }
}

fn refuse_if(holds: bool, number: u32) -> Result<(), Fault> {
    if holds {
        Err(Fault::plain(number))
    } else {
        Ok(())
    }
}
