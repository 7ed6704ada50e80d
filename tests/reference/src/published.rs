//! The lines printed in the format documents, from ../published/published.txt, and what is expected of them, from
//! ../published/expected.txt, which a Python script made by another way.

use crate::{Labels, Numbers};
use std::collections::BTreeMap;

const TEXT: &str = include_str!("../../published/published.txt");
const EXPECTED: &str = include_str!("../../published/expected.txt");
const NAMES: [&str; 21] = [
    "SAT", "CL", "MJD", "STTIME", "TRKL", "ELV", "AZTH", "REFSV", "SRSV", "REFSYS", "SRSYS", "DSG", "IOE", "MDTR",
    "SMDT", "MDIO", "SMDI", "FR", "HC", "FRC", "CK",
];

/// A published line as printed and, where another date and start are put in, with those.
pub struct Published {
    pub name: &'static str,
    pub printed: Form,
    pub put_in: Option<Form>,
}

impl Published {
    pub fn forms(&self) -> impl Iterator<Item = &Form> {
        [&self.printed].into_iter().chain(&self.put_in)
    }
}

/// What stands in a line, its columns in our form, and what Line and the reader should answer to them.
pub struct Form {
    pub labels: Labels,
    pub numbers: Numbers,
    pub columns: &'static str,
    pub line_answer: u32,
    pub read_answer: u32,
}

type Fields = BTreeMap<&'static str, &'static str>;

pub fn published() -> Vec<Published> {
    TEXT.lines().filter(|row| !row.is_empty() && !row.starts_with('#')).map(read).collect()
}

fn read(row: &'static str) -> Published {
    let (name, rest) = row.split_once(':').expect("a name before the colon");
    let (printed, put) = rest.split_once('|').expect("what is put in after the bar");
    let mut fields: Fields = NAMES.into_iter().zip(printed.split_whitespace()).collect();
    assert_eq!(fields.len(), NAMES.len(), "{row}");
    let put: Fields = put.split_whitespace().map(|word| word.split_once('=').expect("name=value")).collect();
    let missing = put.iter().filter(|(name, _)| fields[*name] == "-" || **name == "SAT").collect::<Vec<_>>();
    fields.extend(missing);
    let as_printed = fields.clone();
    fields.extend(put);
    let put_in = (fields != as_printed).then(|| form(name, "put in", &fields));
    Published { name, printed: form(name, "published", &as_printed), put_in }
}

fn form(name: &str, which: &str, fields: &Fields) -> Form {
    let (labels, numbers) = numbers_of(fields);
    let mut rows = EXPECTED.lines().skip_while(|row| *row != name);
    let row = rows.find_map(|row| row.trim_start().strip_prefix(which)).expect("a row").trim_start();
    let (answers, columns) = row.rsplit_once("  ").expect("two answers and a line");
    let mut answers = answers.split_whitespace().map(|answer| answer.parse().expect("an answer"));
    let (line_answer, read_answer) = (answers.next().expect("Line's"), answers.next().expect("the reader's"));
    Form { labels, numbers, columns, line_answer, read_answer }
}

fn numbers_of(fields: &Fields) -> (Labels, Numbers) {
    let number = |name: &str| fields[name].parse::<i64>().unwrap_or_else(|_| panic!("{name} {}", fields[name]));
    let sat = fields["SAT"];
    let time = number("STTIME") as u32;
    let labels = Labels {
        constellation: sat.as_bytes()[0],
        satellite: sat[1..].parse().expect("a satellite"),
        cl: u8::from_str_radix(fields["CL"], 16).expect("two hexadecimal digits"),
        fr: number("FR") as u8,
        hc: number("HC") as u8,
        frc: fields["FRC"].as_bytes().try_into().expect("three characters"),
        mjd: number("MJD") as u32,
        start: time / 10000 * 3600 + time / 100 % 100 * 60 + time % 100,
        elv: number("ELV") as u16,
        azth: number("AZTH") as u16,
        ioe: number("IOE") as u16,
    };
    let numbers = Numbers {
        refsv: number("REFSV"),
        srsv: number("SRSV"),
        refsys: number("REFSYS"),
        srsys: number("SRSYS"),
        mdtr: number("MDTR"),
        smdt: number("SMDT"),
        mdio: number("MDIO"),
        smdi: number("SMDI"),
        dsg: number("DSG"),
        trkl: number("TRKL"),
    };
    (labels, numbers)
}
