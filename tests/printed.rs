//! Compares the proved library with the reference in printing pages: random words, numbers of rows and room, with guard bytes around the
//! bytes lent and, after the words lent, words that are not.
//! Arguments: pages, seed. Prints `N pages agree`, or the first disagreement. A run of 100,000 pages or more fails too when one of the
//! cases that `wanted` lists was met fewer than ten times.
//! Assumes nothing. Built by tests/run.

#![allow(dead_code)]

mod generate;
mod library;
mod reference;
mod rounds;

use generate::{rows, Random};
use reference::{Printed, ROW};
use rounds::Met;

/// Bytes before and after those that a call is lent.
const GUARD: usize = 64;

/// Words after those that a call is lent.
const NOT_LENT: usize = 24;

/// Numbers of rows around which the form feeds change.
const ROWS: [usize; 11] = [0, 1, 2, 49, 50, 51, 99, 100, 101, 150, 151];

/// Numbers of rows that no words suffice for. Eight times them may not fit 64 bits, or 32.
const FAR: [usize; 10] = [
    usize::MAX,
    1 << 63,
    1 << 62,
    1 << 61,
    3 << 61,
    usize::MAX / 8,
    usize::MAX / 81 + 1,
    1 << 60,
    1 << 32,
    1 << 29,
];

fn main() {
    let (pages, seed) = rounds::arguments();
    let mut random = Random::new(seed);
    let mut met = Met::default();
    for number in 0..pages {
        let page = Page::draw(&mut random);
        if let Err(words) = page.compare(&mut random) {
            println!("page {number} disagrees: {words}\n{page:?}");
            std::process::exit(1);
        }
        met.add(page.cases());
    }
    met.finish(pages, "pages", wanted());
}

// The pages.

/// What a call is lent, and words after it.
#[derive(Debug)]
struct Page {
    words: Vec<i64>,
    lent: usize,
    n: usize,
    room: usize,
}

/// The length of a page, "fixed by the row count"; none where it fits no memory.
fn length(n: usize) -> Option<usize> {
    n.checked_mul(82).map(|_| 81 * n + n.saturating_sub(1) / 50)
}

impl Page {
    fn draw(random: &mut Random) -> Page {
        let n = number_of_rows(random);
        let lent = number_of_words(random, n);
        let mut words = rows::fitting(random, lent);
        words.extend((0..NOT_LENT).map(|_| rows::any(random)));
        let needed = n.saturating_mul(ROW).min(lent);
        if random.one_in(3) {
            put_too_wide(random, &mut words, 0, needed);
        }
        if random.one_in(3) {
            put_too_wide(random, &mut words, needed, lent);
        }
        let room = room(random, n);
        Page {
            words,
            lent,
            n,
            room,
        }
    }

    fn lent(&self) -> &[i64] {
        &self.words[..self.lent]
    }

    /// Prints the page in both implementations: the answer, every byte of the stretch, guards too, and the words must be the same.
    fn compare(&self, random: &mut Random) -> Result<(), String> {
        let before = generate::noise(random, self.room + 2 * GUARD);
        let [mut found, mut expected] = [before.clone(), before];
        let bytes = GUARD..GUARD + self.room;
        let words = self.words.clone();
        let answer = library::page(&words[..self.lent], self.n, &mut found[bytes.clone()]);
        let wanted = reference::page(self.lent(), self.n, &mut expected[bytes]);
        same("answer", &answer, &wanted)?;
        same("words", &words, &self.words)?;
        if answer.number == 0 {
            same("length", &Some(answer.bytes), &length(self.n))?;
        }
        match (0..found.len()).find(|&place| found[place] != expected[place]) {
            Some(place) => Err(format!(
                "byte {place} of the stretch, whose first {GUARD} are not lent"
            )),
            None => Ok(()),
        }
    }
}

fn same<T: PartialEq + std::fmt::Debug>(what: &str, found: &T, expected: &T) -> Result<(), String> {
    if found == expected {
        Ok(())
    } else {
        Err(format!("{what} {found:?}, expected {expected:?}"))
    }
}

fn number_of_rows(random: &mut Random) -> usize {
    match random.below(16) {
        0..=4 => ROWS[random.below(11) as usize],
        5 => FAR[random.below(10) as usize].saturating_add(random.below(4) as usize),
        6 => random.below(200) as usize,
        _ => random.below(8) as usize,
    }
}

/// Words for n rows, mostly as many as they need or up to three rows more; where no words suffice, up to four rows.
fn number_of_words(random: &mut Random, n: usize) -> usize {
    if n >= 1 << 29 {
        return random.below(33) as usize;
    }
    let needed = ROW * n;
    match random.below(8) {
        0 => needed.saturating_sub(1),
        1 => random.below(needed as u64 + 1) as usize,
        2 | 3 => needed,
        _ => needed + random.below(25) as usize,
    }
}

/// One to three values that do not fit, among the words of a range.
fn put_too_wide(random: &mut Random, words: &mut [i64], start: usize, end: usize) {
    for _ in 0..random.between(1, 3) {
        if start < end {
            let word = random.between(start as u64, end as u64 - 1) as usize;
            words[word] = rows::too_wide(random, word % ROW);
        }
    }
}

/// Bytes for the page of n rows: mostly as many, one fewer, one more.
fn room(random: &mut Random, n: usize) -> usize {
    let length = length(n).filter(|&length| length < 1 << 20).unwrap_or(324);
    match random.below(8) {
        0 => 0,
        1 | 2 => length.saturating_sub(1),
        3 | 4 => length,
        5 => length + 1,
        6 => random.below(length as u64 + 1) as usize,
        _ => length + 2 + random.below(200) as usize,
    }
}

// The cases.

impl Page {
    /// What a page is a case of.
    fn cases(&self) -> Vec<String> {
        let Printed { number, .. } =
            reference::page(self.lent(), self.n, &mut vec![0; self.room][..]);
        let mut cases = vec![
            format!("{number}, {}", self.how_much()),
            format!("{number}, {}", self.how_many()),
        ];
        match number {
            0 => cases.extend(self.cases_of_values()),
            9 => cases.extend(self.cases_of_words()),
            12 => cases.extend(self.cases_of_width()),
            _ => (),
        }
        cases
    }

    /// The room beside the page's length.
    fn how_much(&self) -> &'static str {
        match (self.room, length(self.n)) {
            (0, Some(1..)) => "no bytes",
            (_, None) => "no length",
            (room, Some(length)) if room == length => "exact room",
            (room, Some(length)) if room == length + 1 => "one byte more",
            (room, Some(length)) if room > length => "more room",
            (room, Some(length)) if room + 1 == length => "one byte short",
            _ => "shorter",
        }
    }

    fn how_many(&self) -> String {
        match self.n {
            n if ROWS.contains(&n) => format!("{n} rows"),
            n if n >= 1 << 61 => "rows beyond a word's reach".to_string(),
            n if n >= 1 << 29 => "rows beyond every slice".to_string(),
            _ => "other rows".to_string(),
        }
    }

    /// The words of the first n rows with their places; all where there are fewer.
    fn values(&self) -> impl Iterator<Item = (usize, i64)> + '_ {
        let needed = self.n.saturating_mul(ROW);
        let words = self.lent().iter().take(needed).enumerate();
        words.map(|(word, &value)| (word % ROW, value))
    }

    /// Values at their limits; a value in a later row that would be too wide; words that make no whole rows.
    fn cases_of_values(&self) -> Vec<String> {
        let mut cases: Vec<String> = self
            .values()
            .filter(|(place, value)| rows::limits(*place).contains(value))
            .map(|(place, value)| format!("word {place} at {value}"))
            .collect();
        let later = self.lent().iter().enumerate().skip(ROW * self.n);
        if later.into_iter().any(|(word, value)| wide(word, *value)) {
            cases.push("a later row too wide".to_string());
        }
        if self.lent % ROW != 0 {
            cases.push("words that make no whole rows".to_string());
        }
        cases
    }

    /// How many words there are, and whether a value is too wide.
    fn cases_of_words(&self) -> Vec<String> {
        let mut cases = Vec::new();
        if self.values().any(|(place, value)| wide(place, value)) {
            cases.push("9, a value too wide".to_string());
        }
        if self.n < 1 << 29 && self.lent + 1 == ROW * self.n {
            cases.push("9, one word short".to_string());
        }
        if self.n.wrapping_mul(ROW) <= self.lent {
            cases.push("9, enough words for the product cut to a word".to_string());
        }
        cases
    }

    /// The one value that is too wide: its place, and whether it is just beyond a limit or the least of all.
    fn cases_of_width(&self) -> Vec<String> {
        let beyond: Vec<(usize, i64)> = self
            .values()
            .filter(|(place, value)| wide(*place, *value))
            .collect();
        let [(place, value)] = beyond[..] else {
            return Vec::new();
        };
        let [least, most] = rows::limits(place);
        if [least - 1, most + 1, i64::MIN].contains(&value) {
            vec![format!("word {place} too wide at {value}")]
        } else {
            Vec::new()
        }
    }
}

fn wide(word: usize, value: i64) -> bool {
    let [least, most] = rows::limits(word % ROW);
    value < least || most < value
}

/// The cases that must be met.
fn wanted() -> Vec<String> {
    let mut wanted: Vec<String> = [
        "a later row too wide",
        "words that make no whole rows",
        "9, a value too wide",
        "9, one word short",
        "9, enough words for the product cut to a word",
        "9, rows beyond a word's reach",
        "9, rows beyond every slice",
        "9, no length",
        "0, 0 rows",
        "11, one byte short",
        "11, shorter",
        "11, no bytes",
    ]
    .map(String::from)
    .to_vec();
    let enough = ["exact room", "one byte more", "more room"];
    let short = ["one byte short", "shorter", "no bytes"];
    wanted.extend(enough.map(|room| format!("0, {room}")));
    for number in [9, 12] {
        wanted.extend(enough.map(|room| format!("{number}, {room}")));
        wanted.extend(short.map(|room| format!("{number}, {room}")));
    }
    for number in [0, 9, 11, 12] {
        wanted.extend(ROWS[1..].iter().map(|n| format!("{number}, {n} rows")));
    }
    for place in 0..ROW {
        let [least, most] = rows::limits(place);
        wanted.extend([least, most].map(|value| format!("word {place} at {value}")));
        let beyond = [least - 1, most + 1, i64::MIN];
        wanted.extend(beyond.map(|value| format!("word {place} too wide at {value}")));
    }
    wanted
}
