//! Job texts from tables, as spreadsheets save them: what is written is the job, and faults are named by cell and by line.
#![cfg(feature = "library")]

mod common;
use common::inputs::{self, Facts};
use common::paper::{text, JOB};
use common::rng::Rng;
use common::tool::{job, Folder};
use juzvarola_checks::reference::model::{Job, Part};
use juzvarola_checks::reference::texts::read_job;

/// The specification's job as a table.
const TABLE: &str = "\
horizon,6
opening,2,3,4,5
fee,10,10,10,10
part,life,left,removal,holders,prices
1,3,2,,,5,5,5,5
2,4,4,,,7,7,7,7
";

/// The cell of a part's price.
fn price(part: &Part, k: usize) -> String {
    let high = part.prices[k];
    if part.pairs[k] {
        format!("{} to {high}", part.lows[k])
    } else {
        high.to_string()
    }
}

/// The table of a job, with this between cells.
fn table(job: &Job, between: &str) -> String {
    let row = |cells: Vec<String>| cells.join(between) + "\n";
    let numbers = |name: &str, numbers: Vec<String>| row([vec![name.to_string()], numbers].concat());
    let mut text = numbers("horizon", vec![job.horizon.to_string()]);
    if !job.idles.is_empty() {
        text += &numbers("idle", job.idles.iter().map(i64::to_string).collect());
    }
    text += &numbers("opening", job.openings.iter().map(|opening| opening.step.to_string()).collect());
    text += &numbers("fee", job.openings.iter().map(|opening| opening.fee.to_string()).collect());
    text += &row(["part", "life", "left", "removal", "holders", "prices"].map(str::to_string).to_vec());
    for (at, part) in job.parts.iter().enumerate() {
        let holders: Vec<String> = part.holders.iter().map(|holder| (holder + 1).to_string()).collect();
        let removal = if part.covered { part.removal.to_string() } else { String::new() };
        let cells = [(at + 1).to_string(), part.life.to_string(), part.left.to_string(), removal, holders.join(" ")];
        let prices = match part.rule {
            Some(rule) => format!("base {} drop {} least {}", rule.base, rule.drop, rule.least).split(' ').map(str::to_string).collect(),
            None => (0..part.prices.len()).map(|k| price(part, k)).collect::<Vec<String>>(),
        };
        text += &row([cells.to_vec(), prices].concat());
    }
    text
}

/// A job text without its walk line, which is not written any more.
fn without_walk(text: &[u8]) -> String {
    let text = std::str::from_utf8(text).expect("text");
    text.split_inclusive('\n').filter(|line| !line.starts_with("walk=")).collect()
}

/// Writes a table's job text.
fn write(table: &str) -> common::tool::Ran {
    let folder = Folder::new();
    folder.write("form.csv", table.as_bytes());
    folder.run(&["write", "form.csv"])
}

#[test]
fn tables_become_job_texts() {
    let expected = without_walk(&text(JOB));
    let ran = write(TABLE);
    assert_eq!((ran.status, ran.out.as_str(), ran.err.as_str()), (0, expected.as_str(), ""));
    let single = TABLE.replace("fee,10,10,10,10", "fee,10").replace("5,5,5,5", "5").replace("7,7,7,7", "7");
    assert_eq!(write(&single).out, expected, "a single fee or price stands for every opening");
    let windows = format!("\u{feff}{}", TABLE.replace(',', ";").replace('\n', "\r\n"));
    assert_eq!(write(&windows).out, expected);
    let quoted = TABLE.replace("horizon,6", "\"horizon\",\" 6 \"") + "\n,,,\n";
    assert_eq!(write(&quoted).out, expected);
}

#[test]
fn tables_may_have_rules() {
    let ruled = TABLE.replace("7,7,7,7", "base,9,Drop,1,least,7");
    let expected = without_walk(&text(JOB)).replace("price=7\nprice=7\nprice=7\nprice=7\n", "base=9\ndrop=1\nleast=7\n");
    let ran = write(&ruled);
    assert_eq!((ran.status, ran.out.as_str(), ran.err.as_str()), (0, expected.as_str(), ""));
    for (row, words) in [
        ("base,9,drop,1", "cell F6: a rule is the cells base, drop and least, each with its number behind it"),
        ("base,9,least,1,drop,7", "cell H6: the word `drop` is due here"),
        ("base,9,drop,1,least,7,8", "cell L6: nothing stands behind a rule"),
        ("base,9,drop,x,least,7", "cell I6: drop: 'x' is not a whole number"),
        ("base,0,drop,1,least,7", "cell G6: base is not a number from 1 to 1,000,000; line 20 of the text (3)"),
    ] {
        let ran = write(&TABLE.replace("7,7,7,7", row));
        assert_eq!((ran.status, ran.err.as_str()), (2, format!("form.csv: {words}\n").as_str()));
    }
}

#[test]
fn tables_may_have_bands() {
    let banded = TABLE.replace("7,7,7,7", "6 to 7,7,7 TO 7,7");
    let band = "low=6\nhigh=7\nprice=7\nlow=7\nhigh=7\nprice=7\n";
    let expected = without_walk(&text(JOB)).replace("price=7\nprice=7\nprice=7\nprice=7\n", band);
    let ran = write(&banded);
    assert_eq!((ran.status, ran.out.as_str(), ran.err.as_str()), (0, expected.as_str(), ""));
    let single = write(&TABLE.replace("7,7,7,7", "6 to 7"));
    assert_eq!(single.out, without_walk(&text(JOB)).replace("price=7\n", "low=6\nhigh=7\n"), "a single one stands for every opening");
    for (row, words) in [
        ("8 to 7,7,7,7", "cell F6: the price's low end is above its high end; line 21 of the text (13)"),
        ("7,7,0 to 7,7", "cell H6: low is not a number from 1 to 1,000,000; line 22 of the text (3)"),
        ("6 - 7,7,7,7", "cell F6: price: '6 - 7' is not a whole number"),
    ] {
        let ran = write(&TABLE.replace("7,7,7,7", row));
        assert_eq!((ran.status, ran.err.as_str()), (2, format!("form.csv: {words}\n").as_str()));
    }
}

#[test]
fn every_job_comes_back_byte_for_byte() {
    common::with_stack(|| {
        let folder = Folder::new();
        let jobs = ["13_shutdown", "38_week8_guard_shutdown", "16_full64_16", "01_rm12_d0"].map(job).to_vec();
        let mut rng = Rng::new(61);
        let random = (0..120).map(|_| inputs::job(&mut rng)).map(|facts: Facts| facts.text());
        for (at, text) in jobs.into_iter().chain(random).enumerate() {
            let read = read_job(&text).expect("a job");
            folder.write("form.csv", table(&read, [",", ";", "\t"][at % 3]).as_bytes());
            let ran = folder.run(&["write", "form.csv", "-o", "job.txt"]);
            assert_eq!(ran.status, 0, "{ran:?}");
            assert_eq!(folder.read("job.txt"), without_walk(&text), "{}", folder.read("form.csv"));
            assert_eq!(folder.run(&["check", "job.txt"]).status, 0);
        }
    });
}

#[test]
fn faults_are_named_by_cell_and_line() {
    let cases = [
        ("horizon,6", "horizon,366", "cell B1: horizon is not a number from 2 to 365; line 1 of the text (3)"),
        ("opening,2,3,4,5", "opening,2,2,4,5", "cell C2: opening does not come after the opening before, or is past the horizon; line 5 of the text (4)"),
        ("1,3,2,,", "1,3,4,,", "cell C5: left is greater than life; line 13 of the text (5)"),
        ("7,7,7,7", "7,7,0,7", "cell H6: price is not a number from 1 to 1,000,000; line 22 of the text (3)"),
        ("1,3,2,,", "1,3,2,9,1", "cell E5: holder is above the job's number of parts, is the part itself, or does not come after the holder before; line 16 of the text (12)"),
        ("1,3,2,,", "1,3,2,99999999999,", "cell D5: removal is not a number from 0 to 1,000,000; line 14 of the text (3)"),
        ("fee,10,10,10,10", "fee,10,10,10", "there are 4 openings and 3 fees; line 2 of the text (3)"),
        ("7,7,7,7", "7,7,7", "part 2 has 3 prices, and there are 4 openings; line 11 of the text (3)"),
    ];
    for (old, new, words) in cases {
        let ran = write(&TABLE.replacen(old, new, 1));
        assert_eq!((ran.status, ran.out.as_str(), ran.err), (2, "", format!("form.csv: {words}\n")), "{new}");
    }
    let cases = [
        ("fee,10,10,10,10", "fee,10,ten,10,10", "cell C3: fee: 'ten' is not a whole number"),
        ("fee,10,10,10,10", "fee,10,,10,10", "cell C3: fee: the cell is empty"),
        ("5,5,5,5", "5,5,5.5,5", "cell H5: price: '5.5' is not a whole number"),
        ("2,4,4,,", "3,4,4,,", "cell A6: part 2 is due here"),
        ("fee,10", "walk,11\nfee,10", "cell A3: 'walk' is none of horizon, idle, opening, fee, part"),
        ("fee,10", "horizon,11\nfee,10", "cell A3: there is another row `horizon` above"),
        ("horizon,6\n", "", "there is no row `horizon`"),
        ("horizon,6", "horizon,6,7", "cell A1: `horizon` has one number behind it"),
        ("part,", "parts,", "there is no row that begins with `part`, the heads of the parts' rows"),
        ("1,3,2", "1,\"3,2", "cell B5: the quotes do not end"),
    ];
    for (old, new, words) in cases {
        let ran = write(&TABLE.replacen(old, new, 1));
        assert_eq!((ran.status, ran.out.as_str(), ran.err), (2, "", format!("form.csv: {words}\n")), "{new}");
    }
}

#[test]
fn a_faulty_table_makes_no_file() {
    let folder = Folder::new();
    folder.write("form.csv", TABLE.replacen("horizon,6", "horizon,0", 1).as_bytes());
    assert_eq!(folder.run(&["write", "form.csv", "-o", "job.txt"]).status, 2);
    assert_eq!(folder.names(), ["form.csv"]);
    folder.write("form.csv", TABLE.as_bytes());
    let ran = folder.run(&["write", "form.csv", "-o", "form.csv"]);
    assert!(ran.status == 64 && folder.read("form.csv") == TABLE, "{ran:?}");
    let ran = folder.run(&["write", "form.csv", "-o", "job.txt"]);
    assert_eq!((ran.out.as_str(), ran.err.as_str()), ("", "form.csv: 23 lines are written to job.txt (0)\n"));
}
