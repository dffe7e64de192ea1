//! Runs the cases in tests/calls, of calls that a listing does not show, on the proved library and on the reference, and compares both
//! with the answer that stands there.
//! Argument: the folder. Prints for each file how many cases agree and how many are of later requests, or each case that differs.
//! Assumes that each file has its form in its first line. Built by tests/run.

#![allow(dead_code)]

mod library;
mod reference;

use reference::{Command, Printed, Written};

/// Cases of later requests have a higher level.
const LEVEL: u32 = 10;

const BLOCK: u8 = 11;

/// What the bytes lent hold before the call; those after what was written must keep it.
const AS_LENT: u8 = 0xA5;

/// Tries one case.
type Case = fn(&str) -> Result<(), String>;

/// The level of a case.
type Level = fn(&str) -> u32;

/// The files of cases by their names. A case of write begins with its level; those of page have none, as all are of request No. 3.
const FILES: [(&str, Level, Case); 2] = [("write", first_number, write), ("page", |_| 3, page)];

fn main() {
    let folder = std::env::args().nth(1).expect("the folder of the cases");
    let agree = FILES.map(|(name, level, case)| {
        let text = std::fs::read_to_string(format!("{folder}/{name}.txt")).expect("the cases");
        file(name, &text, level, case)
    });
    if agree.contains(&false) {
        std::process::exit(1);
    }
}

/// Tries the cases of a file; whether there are some and all agree.
fn file(name: &str, text: &str, level: Level, case: Case) -> bool {
    let (mut agree, mut differ, mut later) = (0, 0, 0);
    for line in text.lines().filter(|line| !line.starts_with('#')) {
        if level(line) > LEVEL {
            later += 1;
        } else if let Err(words) = case(line) {
            differ += 1;
            println!("{line}\n    {words}");
        } else {
            agree += 1;
        }
    }
    println!("{name}: {agree} cases agree, {differ} differ, {later} are of later requests");
    agree > 0 && differ == 0
}

fn first_number(line: &str) -> u32 {
    let first = line.split(' ').next();
    first.and_then(|text| text.parse().ok()).expect("a level")
}

/// The words of each part of a line.
fn parts(line: &str) -> Vec<Vec<&str>> {
    line.split('|')
        .map(|part| part.split_whitespace().collect())
        .collect()
}

/// LEVEL COMMAND(hex) ROOM | values | NUMBER BYTES(hex or -); the values of a block are those of its sets, without the count
fn write(line: &str) -> Result<(), String> {
    let parts = parts(line);
    let [first, values, last] = &parts[..] else {
        return Err("three parts are wanted".to_string());
    };
    let mut command = Command {
        code: u8::from_str_radix(first[1], 16).expect("a command's byte"),
        values: values.iter().map(|text| number(text)).collect(),
    };
    if command.code == BLOCK {
        command.values.insert(0, values.len() as i64 / 6);
    }
    let mut expected = hexadecimal(last[1]);
    let answer = Written {
        number: number(last[0]) as u32,
        offset: 0,
        bytes: expected.len(),
    };
    expected.resize(number(first[2]) as usize, AS_LENT);
    for (name, call) in WRITERS {
        let mut found = vec![AS_LENT; expected.len()];
        let answered = call(&command, &mut found);
        if (answered, &found) != (answer, &expected) {
            return Err(format!("{name}: {answered:?}, {found:02x?}"));
        }
    }
    Ok(())
}

/// N ROOM | words | NUMBER LENGTH | PAGE(hex or -)
fn page(line: &str) -> Result<(), String> {
    let parts = parts(line);
    let [first, words, answer, text] = &parts[..] else {
        return Err("four parts are wanted".to_string());
    };
    let words: Vec<i64> = words.iter().map(|text| number(text)).collect();
    let n = number(first[0]) as usize;
    let refusal = number(answer[0]) as u32;
    let answer = Printed {
        number: refusal,
        offset: 0,
        rows: if refusal == 9 { n } else { 0 },
        bytes: number(answer[1]) as usize,
    };
    let mut expected = hexadecimal(text[0]);
    if expected.len() != answer.bytes {
        return Err("the page has another length".to_string());
    }
    expected.resize(number(first[1]) as usize, AS_LENT);
    for (name, call) in PRINTERS {
        let mut found = vec![AS_LENT; expected.len()];
        let answered = call(&words, n, &mut found);
        if (answered, &found) != (answer, &expected) {
            return Err(format!("{name}: {answered:?}, {:?}", plain(&found)));
        }
    }
    Ok(())
}

/// Bytes as a text, as far as they are one.
fn plain(bytes: &[u8]) -> std::borrow::Cow<'_, str> {
    String::from_utf8_lossy(bytes)
}

fn number(text: &str) -> i64 {
    text.parse().expect("a number")
}

type Writer = fn(&Command, &mut [u8]) -> Written;

const WRITERS: [(&str, Writer); 2] = [
    ("library", library::write::write_command),
    ("reference", reference::write_command),
];

type Printer = fn(&[i64], usize, &mut [u8]) -> Printed;

const PRINTERS: [(&str, Printer); 2] = [("library", library::page), ("reference", reference::page)];

/// The bytes that a text in hexadecimal stands for; none for `-`.
fn hexadecimal(text: &str) -> Vec<u8> {
    let digits = text.trim_matches('-');
    (0..digits.len() / 2)
        .map(|place| u8::from_str_radix(&digits[2 * place..2 * place + 2], 16))
        .collect::<Result<_, _>>()
        .expect("bytes in hexadecimal")
}
