//! Random archives, whole and damaged.

use crate::archive::{encode, Line, CENTS, LONGEST, RECORD};
use crate::random::script;
use crate::rng::Rng;
use crate::script::run;

pub fn archive(seed: u64) -> Vec<u8> {
    let mut rng = Rng::new(seed ^ 0x5EED_0000_0000_0000);
    let mut bytes = match rng.below(40) {
        0..=3 => run(&script(seed)).archive.unwrap_or_default(),
        4 => (0..rng.below(200)).map(|_| rng.next() as u8).collect(),
        5 => lines(&mut rng, 2427),
        6 => lines(&mut rng, 2426),
        7..=9 => Vec::new(),
        10..=29 => {
            let count = rng.below(30);
            lines(&mut rng, count)
        }
        _ => {
            let count = rng.below(600);
            lines(&mut rng, count)
        }
    };
    if rng.percent(60) {
        let together = rng.percent(50);
        let mut place = rng.next() as usize;
        for _ in 0..rng.pick(&[1, 1, 1, 2, 3]) {
            damage(&mut rng, &mut bytes, place);
            if !together {
                place = rng.next() as usize;
            }
        }
    }
    // One byte more than is summed, now and then.
    if bytes.len() >= LONGEST - RECORD && rng.percent(30) {
        bytes.resize(LONGEST + 1, 0);
    }
    if rng.below(200) == 0 {
        let longer = LONGEST + rng.below(3 * RECORD);
        bytes.resize(longer, 1);
    }
    bytes
}

fn lines(rng: &mut Rng, count: usize) -> Vec<u8> {
    let months: Vec<u16> = (0..1 + rng.below(30))
        .map(|_| rng.below(360) as u16)
        .collect();
    let far = rng.percent(30);
    let mut bytes = Vec::new();
    for _ in 0..count {
        let month = match rng.below(10) {
            0 => rng.pick(&[0, 1, 358, 359]),
            1 if far => rng.below(360) as u16,
            _ => rng.pick(&months),
        };
        let cents = match rng.below(10) {
            0 => CENTS,
            1 => -CENTS,
            2 => 0,
            3 => rng.range(-150, 150),
            4 => rng.range(-CENTS, CENTS),
            _ => rng.spread(CENTS) * rng.pick(&[1, -1]),
        };
        let line = Line {
            month,
            owner: rng
                .pick(&[0, 15, rng_owner(month)])
                .max(rng.below(16) as u8),
            mark: rng
                .pick(&[1, 2, 8191, 8192])
                .min(1 + rng.below(8192) as u32),
            cents,
        };
        bytes.extend(encode(&line));
    }
    bytes
}

// An owner that comes again with the month.
fn rng_owner(month: u16) -> u8 {
    (month % 16) as u8
}

// One change, of the record at that place where it concerns a record.
fn damage(rng: &mut Rng, bytes: &mut Vec<u8>, place: usize) {
    let records = bytes.len() / RECORD;
    if records == 0 {
        bytes.extend((0..rng.below(RECORD + 2)).map(|_| rng.next() as u8));
        return;
    }
    let start = place % records * RECORD;
    // Where the fields begin.
    let field = rng.pick(&[0, 5, 9, 16]);
    let mut put =
        |at: usize, with: &[u8]| bytes[start + at..start + at + with.len()].copy_from_slice(with);
    match rng.below(13) {
        0 => bytes.truncate(rng.below(records * RECORD + 1)),
        1 => bytes.truncate(records * RECORD - 1 - rng.below(RECORD)),
        2 => {
            let at = rng.below(bytes.len());
            bytes[at] ^= 1 << rng.below(8);
        }
        3 => put(field, &[rng.next() as u8]),
        4 => put(field + 1, &[rng.next() as u8]),
        5 => put(field + 2, &[rng.pick(&[0, 1, 2, 3, 4, 5, 7, 8, 9, 255])]),
        6 => put(
            3,
            &rng.pick(&[359u16, 360, 361, 400, 0x0167, 65535, 256 + 104])
                .to_be_bytes(),
        ),
        7 => put(8, &[rng.pick(&[15, 16, 17, 128, 255])]),
        8 => put(
            12,
            &rng.pick(&[0u32, 1, 8192, 8193, 65536, 0x0100_0001, u32::MAX])
                .to_be_bytes(),
        ),
        9 => {
            let cents = rng.pick(&[
                CENTS,
                -CENTS,
                CENTS + 1,
                -CENTS - 1,
                i64::MAX,
                i64::MIN,
                CENTS * 2,
                -1,
            ]);
            put(19, &cents.to_be_bytes())
        }
        10 => bytes.extend((0..1 + rng.below(RECORD)).map(|_| rng.next() as u8)),
        11 => {
            // A number outside, and a wrong heading in the field behind it.
            let (number, heading) = rng.pick(&[(3, 5), (8, 9), (12, 16)]);
            put(number, &[255]);
            put(heading + rng.below(3), &[9]);
        }
        _ => {
            // Two fields change places with each other's heading.
            put(0, &[2, 0, 1]);
            if rng.percent(50) {
                put(5, &[1, 0, 2]);
            }
        }
    }
}
