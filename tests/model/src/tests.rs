//! Figures worked by hand, and laws that hold for every script.

use crate::archive::{decode, encode, summary, Line};
use crate::book::Book;
use crate::random::script;
use crate::rules::{divide, nearest, nets, transition, Base, Charge, Fault, Layer, Row};
use crate::script::{read_script, run};

fn rows() -> Vec<Row> {
    let figures = [
        (0, 1000, 200, 100, 10, 8, 1),
        (1, 1500, 0, 100, 6, 9, 1),
        (1, 500, 0, 50, 4, 5, 0),
    ];
    figures
        .map(|(area, ehv, nhv, filed_load, filed_peak, load, peak)| Row {
            area,
            ehv,
            nhv,
            filed_load,
            filed_peak,
            load,
            peak,
        })
        .to_vec()
}

fn layer(k: u8, told: &[u32]) -> Layer {
    let mut caps = [0; 16];
    caps[..told.len()].copy_from_slice(told);
    Layer { k, caps }
}

fn plain(base: Base) -> Charge {
    Charge {
        base,
        layers: Vec::new(),
    }
}

fn book(text: &str) -> String {
    String::from_utf8(run(text.as_bytes()).stdout).unwrap()
}

const WORKED: &str = "owners 0 1 1
charge volumetric 8
file 0 3 3 1000 200 100 10
file 1 3 3 1500 0 100 6
file 2 3 3 500 0 50 4
read 3 0 8 1
read 3 1 9 1
read 3 2 5 0
";

#[test]
fn rounding() {
    assert_eq!(nearest(-150, 100), -1);
    assert_eq!(nearest(150, 100), 2);
    assert_eq!(nearest(-151, 100), -2);
}

#[test]
fn dividing() {
    assert_eq!(divide(400, &[100, 50]), [266, 134]);
    assert_eq!(divide(-7, &[1, 1, 1]), [-3, -2, -2]);
    assert_eq!(divide(5, &[0, 0]), [0, 0]);
}

#[test]
fn worked_volumetric() {
    let answer = plain(Base::Volumetric(8)).ask(&rows()).unwrap();
    assert_eq!(answer.parts, [1240, 1306, 654]);
    assert_eq!(answer.bills, [9920, 11760, 6533]);
    assert_eq!(
        nets(&plain(Base::Volumetric(8)), &rows()).unwrap(),
        [278, -1793, 1515]
    );
}

#[test]
fn worked_hybrid() {
    let answer = plain(Base::Hybrid(50)).ask(&rows()).unwrap();
    assert_eq!(answer.parts, [1440, 1120, 640]);
    assert_eq!(answer.bills, [13120, 13760, 3200]);
}

#[test]
fn worked_layers() {
    assert_eq!(transition(&layer(8, &[200, 0, 100]), &rows()), [22, 0, -22]);
    assert_eq!(
        transition(&layer(8, &[100, 0, 0]), &rows()),
        [-60, 174, -114]
    );
}

#[test]
fn levels() {
    let mut rows = rows();
    rows[1].filed_load = 0;
    rows[2].filed_load = 0;
    let layers = vec![layer(8, &[]), layer(8, &[])];
    let fault = |base| {
        Charge {
            base,
            layers: layers.clone(),
        }
        .ask(&rows)
        .unwrap_err()
    };
    assert_eq!(fault(Base::Volumetric(8)), Fault::charge(12, 1, 2));
    assert_eq!(fault(Base::Hybrid(50)), Fault::charge(12, 1, 1));
}

#[test]
fn worked_posting() {
    let text = format!(
        "{WORKED}open 3\npost 3 6\nstate 3\nopen 3\npost 3 6\nfile 1 3 3 1200 0 100 6\nstate 3\npost 3 8\nopen 3\npost 3 7\nstate 4\nstate 360\npost 4 0\nwithdraw 9 99"
    );
    let answers: Vec<String> = book(&text).lines().skip(6).map(str::to_string).collect();
    let expected = "opened 3 6 278 -1793 1515
posted 3 6
current 3 6
refused 8
refused 17
filed 6
due 3 6
refused 16
opened 3 7 -506 -322 828
posted 3 7
unsettled 4
refused 4
refused 9 place 0
withdrawn 9 99
lines 6
3 0 6 278
3 1 6 -1793
3 2 6 1515
3 0 7 -784
3 1 7 1471
3 2 7 -687";
    assert_eq!(answers, expected.lines().collect::<Vec<_>>());
}

#[test]
fn worked_record() {
    let line = Line {
        month: 14,
        owner: 2,
        mark: 9,
        cents: -150,
    };
    let record = [
        0x01, 0x00, 0x02, 0x00, 0x0E, 0x02, 0x00, 0x01, 0x02, 0x03, 0x00, 0x04, 0x00, 0x00, 0x00,
        0x09, 0x04, 0x00, 0x08, 0xFF, 0xFF, 0xFF, 0xFF, 0xFF, 0xFF, 0xFF, 0x6A,
    ];
    assert_eq!(encode(&line), record);
    assert_eq!(decode(&record), Ok(line));
    assert_eq!(summary(&record), "month owner cents\n14 2 -150\nend 1\n");
    assert_eq!(summary(&record[..26]), "month owner cents\nstop 0 19\n");
    assert_eq!(summary(&[]), "month owner cents\nend 0\n");
    assert_eq!(summary(&[0; 65530]), "too long\n");
}

#[test]
fn scripts_that_cannot_be_read() {
    let bad = [
        "",
        "owners 0",
        "charge hybrid 5",
        "owners 0\ncharge hybrid 256",
        "owners 0\ncharge hybrid +5",
        "owners 0\nlayer 1\ncharge hybrid 5",
        "owners 0\ncharge hybrid 5\nlayer 1\nlayer 1\nlayer 1\nlayer 1",
        "owners 0\nopen 1\ncharge hybrid 5",
        "owners 0\ncharge hybrid 5\nopen 1\nroll 5",
        "owners 0\ncharge hybrid 5\npost 360 1",
        "owners 0\ncharge hybrid 5\nopen 65536",
        "owners 0\ncharge hybrid 5\nopen\t1",
        "owners 0\ncharge hybrid 5\nopen 1\r",
        "owners 0\ncharge hybrid 5\nopen -",
        "owners 9\ncharge hybrid 5\nopen 1 2",
    ];
    for text in bad {
        let outcome = run(text.as_bytes());
        assert!(
            !outcome.granted && outcome.stdout.is_empty() && outcome.archive.is_none(),
            "{text}"
        );
        assert!(outcome.message.starts_with("line "), "{text}");
    }
}

#[test]
fn scripts_that_can_be_read() {
    assert_eq!(book("owners 0\ncharge hybrid 5"), "lines 0\n");
    assert_eq!(book("owners\ncharge hybrid 101"), "setup refused 1\n");
    assert_eq!(book("owners 0\ncharge hybrid 101"), "setup refused 2\n");
    assert_eq!(
        book("charge hybrid 100\n\n  # x\nlayer 010 -0 \nowners 2 -0\n state  007 "),
        "unsettled 7\nlines 0\n"
    );
    assert_eq!(
        book("owners 0\ncharge hybrid 5\njournal 0\nread 0 0 0 0"),
        "refused 6\nlines 0\n"
    );
}

#[test]
fn lines_add_up_to_the_nets() {
    for seed in 0..400 {
        let Ok(script) = read_script(&script(seed)) else {
            continue;
        };
        let Ok(mut book) = Book::new(script.setup) else {
            continue;
        };
        for call in &script.calls {
            let _ = book.answer(call);
        }
        for month in 0..360 {
            let Some(mark) = book.mark(month) else {
                continue;
            };
            let nets = book.work_out(month, mark).unwrap();
            for (owner, net) in nets.into_iter().enumerate() {
                let of_owner = book
                    .roll()
                    .iter()
                    .filter(|line| line.month == month && line.owner as usize == owner);
                assert_eq!(of_owner.map(|line| line.cents as i128).sum::<i128>(), net);
            }
        }
        for line in book.roll() {
            assert_eq!(decode(&encode(line)), Ok(*line));
        }
    }
}
