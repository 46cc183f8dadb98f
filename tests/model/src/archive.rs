//! Lines of the roll, their records, and the summary of an archive.

use std::collections::BTreeMap;

pub const RECORD: usize = 27;
pub const LONGEST: usize = 2427 * RECORD;
pub const CENTS: i64 = 800_000_000_000_000;

#[derive(Clone, Copy, Debug, PartialEq)]
pub struct Line {
    pub month: u16,
    pub owner: u8,
    pub mark: u32,
    pub cents: i64,
}

pub fn encode(line: &Line) -> Vec<u8> {
    let mut bytes = vec![1, 0, 2];
    bytes.extend(line.month.to_be_bytes());
    bytes.extend([2, 0, 1, line.owner]);
    bytes.extend([3, 0, 4]);
    bytes.extend(line.mark.to_be_bytes());
    bytes.extend([4, 0, 8]);
    bytes.extend(line.cents.to_be_bytes());
    bytes
}

// The bytes of a field's number, where tag and length are right.
fn field(record: &[u8], at: usize, tag: u8, length: u8) -> Result<&[u8], u32> {
    if record[at..at + 3] == [tag, 0, length] {
        Ok(&record[at + 3..at + 3 + length as usize])
    } else {
        Err(20)
    }
}

fn limit(holds: bool) -> Result<(), u32> {
    if holds {
        Ok(())
    } else {
        Err(21)
    }
}

pub fn decode(bytes: &[u8]) -> Result<Line, u32> {
    if bytes.len() < RECORD {
        return Err(19);
    }
    let month = u16::from_be_bytes(field(bytes, 0, 1, 2)?.try_into().unwrap());
    limit(month <= 359)?;
    let owner = field(bytes, 5, 2, 1)?[0];
    limit(owner <= 15)?;
    let mark = u32::from_be_bytes(field(bytes, 9, 3, 4)?.try_into().unwrap());
    limit((1..=8192).contains(&mark))?;
    let cents = i64::from_be_bytes(field(bytes, 16, 4, 8)?.try_into().unwrap());
    limit((-CENTS..=CENTS).contains(&cents))?;
    Ok(Line {
        month,
        owner,
        mark,
        cents,
    })
}

pub fn summary(bytes: &[u8]) -> String {
    if bytes.len() > LONGEST {
        return "too long\n".to_string();
    }
    let mut sums: BTreeMap<(u16, u8), i128> = BTreeMap::new();
    let mut count = 0;
    let mut last = None;
    for record in bytes.chunks(RECORD) {
        match decode(record) {
            Ok(line) => *sums.entry((line.month, line.owner)).or_default() += line.cents as i128,
            Err(number) => {
                last = Some(format!("stop {count} {number}\n"));
                break;
            }
        }
        count += 1;
    }
    let mut page = "month owner cents\n".to_string();
    for ((month, owner), cents) in sums {
        page += &format!("{month} {owner} {cents}\n");
    }
    page + &last.unwrap_or(format!("end {count}\n"))
}
