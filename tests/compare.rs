//! Compares the proved library with the reference on random jobs: size, fault, run and take-down, with guard words around the rows;
//! counts the numbers of each run in the words that it wrote; writes each command of each accepted job again, and prints the page of its
//! rows. Arguments: jobs, seed. Prints `N jobs agree`, or the first disagreement with its job in hexadecimal. A run of 100,000 jobs or
//! more fails too when an operand was never at fault, when fewer than a tenth of the jobs are accepted ones with a joint revised between
//! members, or accepted ones of several buildings, when no page had a form feed, or when one of the cases that `wanted` lists was met fewer
//! than ten times.
//! Assumes nothing. Built by tests/run.

mod campus;
mod footings;
mod generate;
mod hinges;
mod library;
mod numbers;
mod reference;
mod rounds;
mod shears;
mod storeys;

use generate::{Mix, Random, BLOCK, MOST_COMMANDS, SETTINGS};
use library::RunAnswer;
use reference::{Fault, ROW};
use rounds::{hexadecimal, Met, MANY};

/// Words before and after the rows that a call is lent.
const GUARD: usize = 16;

/// The number of operands of each command, from 00 to 0D; a block has its count and, counted once for all of its sets, six.
const OPERANDS: [usize; 14] = [0, 3, 4, 7, 8, 7, 6, 6, 3, 15, 5, 7, 8, 0];

/// Command and place of the ids that are never at fault. That of a basement member is where it is not 0 for a wall.
const IDS: [(usize, usize); 3] = [(2, 0), (5, 1), (5, 2)];

fn main() {
    let (jobs, seed) = rounds::arguments();
    let mut random = Random::new(seed);
    let mut tally = Tally::default();
    for number in 0..jobs {
        let job = draw(&mut random, number);
        if let Err(words) = compare(&mut random, &job, &mut tally) {
            println!("job {number} disagrees: {words}\n{}", hexadecimal(&job));
            std::process::exit(1);
        }
    }
    eprintln!("{tally}");
    eprintln!("{}", tally.operands());
    let missed = tally.missed();
    if jobs >= MANY && !missed.is_empty() {
        println!("never at fault (command, operand): {missed:?}");
        std::process::exit(1);
    }
    if jobs >= MANY && tally.revised * 10 < jobs {
        println!("a joint revised in {} of {jobs} jobs", tally.revised);
        std::process::exit(1);
    }
    if jobs >= MANY && tally.several * 10 < jobs {
        println!("several buildings in {} of {jobs} jobs", tally.several);
        std::process::exit(1);
    }
    if jobs >= MANY && tally.feeds == 0 {
        println!("no page had a form feed");
        std::process::exit(1);
    }
    tally.met.finish(jobs, "jobs", wanted());
}

/// What was met, by outcome of run, and the operands at fault.
#[derive(Default)]
struct Tally {
    accepted: u64,
    rows: u64,
    /// Accepted jobs with a joint revised between members, and of several buildings, each counted once.
    revised: u64,
    several: u64,
    /// Commands of accepted jobs that were written again.
    written: u64,
    /// Pages of accepted jobs, and those with a form feed.
    printed: u64,
    feeds: u64,
    /// Cases of the commands of accepted jobs, of runs, of flags refused, and of blocks, basement members and buildings refused.
    met: Met,
    /// By number, from 1 to 9, and 13.
    refused: [u64; 14],
    /// Jobs by the command and the operand at fault.
    at_fault: [[u64; 15]; 14],
}

impl Tally {
    fn fault(&mut self, job: &[u8], fault: &Fault) {
        if fault.number == 5 {
            let [command, mut operand] = [fault.command, fault.operand].map(|one| one as usize);
            if command == usize::from(BLOCK) && operand > 0 {
                operand = 1 + (operand - 1) % 6;
            }
            self.at_fault[command][operand] += 1;
            self.met.add(flags_refused(job, fault));
        }
        self.met.add(storeys::refused(job, fault));
        self.met.add(hinges::faults::refused(job, fault));
        self.met.add(campus::refused(job, fault));
    }

    fn ran(&mut self, answer: &RunAnswer) {
        self.accepted += u64::from(answer.accepted);
        self.rows += answer.rows as u64;
        if !answer.accepted {
            self.refused[answer.number as usize] += 1;
        }
    }

    /// The jobs by operand at fault, in the order of the file, for each command with operands.
    fn operands(&self) -> String {
        let counts = (1..OPERANDS.len())
            .filter(|&code| OPERANDS[code] > 0)
            .map(|code| format!("{code}: {:?}", &self.at_fault[code][..OPERANDS[code]]));
        format!("operand at fault {}", counts.collect::<Vec<_>>().join(" "))
    }

    /// The operands with a range that were never at fault.
    fn missed(&self) -> Vec<(usize, usize)> {
        (1..OPERANDS.len())
            .flat_map(|code| (0..OPERANDS[code]).map(move |place| (code, place)))
            .filter(|pair| !IDS.contains(pair) && self.at_fault[pair.0][pair.1] == 0)
            .collect()
    }
}

impl std::fmt::Display for Tally {
    fn fmt(&self, out: &mut std::fmt::Formatter) -> std::fmt::Result {
        write!(
            out,
            "{} accepted with {} rows; a joint revised in {} jobs, several buildings in {}; {} commands written again; ",
            self.accepted, self.rows, self.revised, self.several, self.written
        )?;
        write!(
            out,
            "{} pages, {} with form feeds; refused",
            self.printed, self.feeds
        )?;
        let mut numbers = (1..10).chain([13]);
        numbers.try_for_each(|number| write!(out, " {number}: {}", self.refused[number]))
    }
}

// The jobs.

/// How often each of the commands 02 to 0C is drawn, in turn for ten jobs each, and the most commands: all kinds, mostly joints and
/// members between or below them, or walls with blocks of storeys and members below.
const ALL: (Mix, u64) = (Mix([1, 2, 2, 3, 2, 4, 1, 5, 1, 0, 3]), 40);
const JOINTS: (Mix, u64) = (Mix([5, 1, 1, 8, 1, 1, 1, 1, 1, 0, 3]), 40);
const WALLS: (Mix, u64) = (Mix([0, 1, 0, 0, 4, 4, 0, 0, 1, 5, 4]), 160);
const MIXES: [(Mix, u64); 5] = [ALL, JOINTS, ALL, JOINTS, WALLS];

/// One job of each kind in turn, one in three of several buildings; every 200th is of 4,096 commands and every 200th of 4,097, and as many
/// have a block or another building near this limit.
fn draw(random: &mut Random, number: u64) -> Vec<u8> {
    match number % 200 {
        0 => return longest(random, MOST_COMMANDS),
        100 => return longest(random, MOST_COMMANDS + 1),
        50 | 150 => return generate::block_at_limit(random),
        25 | 125 => return generate::building_at_limit(random),
        _ => (),
    }
    let (mix, most) = &MIXES[(number / 10 % 5) as usize];
    let commands = random.between(1, *most) as usize;
    let mut job = if random.one_in(3) {
        let commands = random.between(1, 3 * most) as usize;
        generate::campus(random, commands, mix)
    } else {
        generate::valid(random, commands, mix)
    };
    match number % 10 {
        0 | 1 => (),
        2 | 3 => generate::at_demand(random, &mut job),
        4 => job = generate::damaged(random, &job),
        5 => {
            generate::at_demand(random, &mut job);
            job = generate::damaged(random, &job);
        }
        6 => job = at_fault(random, commands),
        7 => job = generate::out_of_range(random, &job),
        8 => {
            job = generate::out_of_range(random, &job);
            job = generate::damaged(random, &job);
        }
        _ if random.one_in(4) => {
            let length = random.below(200) as usize;
            job = generate::noise(random, length);
        }
        _ => job = generate::block_at_fault(random),
    }
    job
}

/// A job with a basement member or a building that mostly is at fault, or one of so many commands with random operands.
fn at_fault(random: &mut Random, commands: usize) -> Vec<u8> {
    match random.below(6) {
        0 | 1 => generate::basement_at_fault(random),
        2 | 3 => generate::building_at_fault(random),
        _ => generate::random_operands(random, commands),
    }
}

/// A job of so many commands, all of one kind or of a mix, at times in several buildings, or with the most rows. The generator stops at
/// 4,096, so one more is put before the end, at times cut short.
fn longest(random: &mut Random, commands: usize) -> Vec<u8> {
    let mut job = match random.below(8) {
        0 => generate::most_rows(random),
        1 | 2 => generate::valid(random, MOST_COMMANDS, &Mix::EVEN),
        3 => generate::valid(random, MOST_COMMANDS, &Mix::only(9)),
        code => {
            let mix = Mix::only(3 + random.below(10) as u8);
            let draw = [generate::valid, generate::campus][usize::from(code > 5)];
            draw(random, MOST_COMMANDS, &mix)
        }
    };
    job.pop();
    if commands > MOST_COMMANDS && random.one_in(3) {
        // A detail in range: place 0, no depths, ductility 10.00, no lap.
        job.extend([0x0A, 0, 0, 0, 0, 0, 0x03, 0xE8, 0]);
    } else if commands > MOST_COMMANDS {
        let member = generate::basement(random);
        let cut = if random.one_in(8) {
            1 + random.below(26) as usize
        } else {
            member.len()
        };
        job.extend(&member[..cut]);
        if cut < member.len() {
            return job;
        }
    }
    job.push(0);
    job
}

// The comparison.

/// The first call that disagrees, in words.
fn compare(random: &mut Random, job: &[u8], tally: &mut Tally) -> Result<(), String> {
    let size = reference::size(job);
    same("size", &library::size(job), &size)?;
    let fault = reference::fault(job);
    same("fault", &library::fault(job), &fault)?;
    tally.fault(job, &fault);
    tally.revised += u64::from(size.is_ok() && generate::revised_between_members(job));
    tally.several += u64::from(size.is_ok() && campus::buildings(job).len() > 1);
    let mut rows = vec![0; ROW * size.unwrap_or(0)];
    let _ = reference::run(job, &mut rows);
    if size.is_ok() {
        tally.written += written_again(job)?;
        tally.printed += 1;
        tally.feeds += u64::from(printed(&rows)?);
        tally.met.add(cases(job, &rows));
    }
    let exact = ROW * size.unwrap_or(random.below(12) as usize);
    let more = exact + 1 + random.below(20) as usize;
    let fewer = random.below(exact.max(1) as u64) as usize;
    let short = [fewer, exact.saturating_sub(1), 0];
    let short = short.iter().filter(|&&words| words < exact);
    for words in [exact, more].iter().chain(short) {
        let answer = runs(random, job, *words)?;
        tally.ran(&answer);
        tally.met.add(numbers::cases(answer.number, *words, &rows));
    }
    take_down(random)
}

fn same<T: PartialEq + std::fmt::Debug>(call: &str, found: &T, expected: &T) -> Result<(), String> {
    if found == expected {
        Ok(())
    } else {
        Err(format!("{call} {found:x?}, reference {expected:x?}"))
    }
}

/// Reads each command of an accepted job, the end too, and writes it into as many bytes as it has there: they must be the job's. Tells
/// how many commands there were.
fn written_again(job: &[u8]) -> Result<u64, String> {
    let commands = reference::commands(job);
    let ends = commands.iter().skip(1).map(|(at, _)| *at);
    for ((at, command), end) in commands.iter().zip(ends.chain([job.len()])) {
        let mut bytes = vec![0xA5; end - at];
        let answer = library::write::write_command(command, &mut bytes);
        same("number of the write", &answer.number, &0)?;
        same("bytes written again", &bytes, &job[*at..end].to_vec())?;
    }
    Ok(commands.len() as u64)
}

/// Prints the rows of an accepted job into as many bytes as its page has: it is not refused, and is the reference's page. Tells whether
/// it has a form feed.
fn printed(words: &[i64]) -> Result<bool, String> {
    let rows = words.len() / ROW;
    let mut expected = vec![0xA5; 81 * rows + rows.saturating_sub(1) / 50];
    let mut found = expected.clone();
    let answer = library::page(words, rows, &mut found);
    same("number of the page", &answer.number, &0)?;
    same(
        "page",
        &answer,
        &reference::page(words, rows, &mut expected),
    )?;
    same("bytes of the page", &found, &expected)?;
    Ok(found.contains(&0x0C))
}

/// Runs a job on so many words that hold random values, with guards before and after them, in both implementations: every field of
/// the answer and every word of the stretch, guards too, must be the same. Gives the answer.
fn runs(random: &mut Random, job: &[u8], words: usize) -> Result<RunAnswer, String> {
    let fill = random.next();
    let before: Vec<i64> = (0..words + 2 * GUARD)
        .map(|place| fill.wrapping_mul(2 * place as u64 + 1) as i64)
        .collect();
    let [mut found, mut expected] = [before.clone(), before.clone()];
    let answer = library::answer_of_run(job, &mut found[GUARD..GUARD + words]);
    let wanted = reference::run(job, &mut expected[GUARD..GUARD + words]);
    same("run", &answer, &RunAnswer::of(wanted))?;
    if let Some(place) = (0..found.len()).find(|&place| found[place] != expected[place]) {
        same(
            &format!("word {:x}", place - GUARD),
            &found[place],
            &expected[place],
        )?;
    }
    sound(&answer, &before, &found)?;
    Ok(answer)
}

/// What 02, No. 8, asks of every run, whatever the reference says: the three numbers are those of the rows written, 0 in a refusal; no
/// word outside the rows is changed, in a refusal none; the rows needed are 0 but for 9.
fn sound(answer: &RunAnswer, before: &[i64], after: &[i64]) -> Result<(), String> {
    let rows = if answer.number == 0 { answer.rows } else { 0 };
    if rows > (after.len() - 2 * GUARD) / ROW {
        return Err(format!("{answer:x?} has more rows than there is room for"));
    }
    let end = GUARD + ROW * rows;
    let counted = numbers::counted(&after[GUARD..end])?;
    if (answer.rows, answer.failed, answer.checks) != counted {
        return Err(format!("{answer:x?}, counted in the words {counted:x?}"));
    }
    if after[..GUARD] != before[..GUARD] || after[end..] != before[end..] {
        return Err(format!("{answer:x?}: a word outside the rows is changed"));
    }
    if answer.needed != 0 && answer.number != 9 {
        return Err(format!("{answer:x?} needs rows"));
    }
    Ok(())
}

/// Take-down of random patterns, of patterns near the ends, and of other kinds.
fn take_down(random: &mut Random) -> Result<(), String> {
    let ends = [
        0,
        0x4000_0000,
        0x447A_0000,
        0x7F80_0000,
        0x8000_0000,
        0xFF80_0000,
        0x3F33_3333,
        0x0080_0000,
    ];
    for _ in 0..4 {
        let near = ends[random.below(8) as usize] + random.below(9) as u32;
        let patterns = [
            random.next() as u32,
            near.wrapping_sub(4),
            random.next() as u32 % 0x4500_0000,
        ];
        for bits in patterns {
            for kind in [0, 1, random.next() as u8] {
                let value = f32::from_bits(bits);
                let call = format!("take-down of kind {kind:x}, value {bits:08x}");
                same(
                    &call,
                    &library::take_down(kind, value),
                    &reference::take_down(kind, value),
                )?;
            }
        }
    }
    Ok(())
}

// The cases.

/// What the commands of an accepted job are cases of.
fn cases(job: &[u8], words: &[i64]) -> Vec<String> {
    let rows = words.as_chunks::<ROW>().0;
    let mut cases = [storeys::accepted(job), campus::accepted(job)].concat();
    let mut q = 0;
    for command in generate::split(job) {
        if command[0] == SETTINGS {
            q = u64::from(u16::from_be_bytes([command[1], command[2]]));
        }
        cases.extend(shears::cases(q, &command));
    }
    for footing in footings::of(job) {
        let first = rows.partition_point(|row| row[0] < footing.at as i64);
        for row in &rows[first..first + 2] {
            cases.extend(footing.cases(row));
        }
    }
    for member in hinges::of(job) {
        let first = rows.partition_point(|row| row[0] < member.at as i64);
        cases.extend(member.cases(&rows[first..first + 2]));
    }
    cases
}

/// Of a refusal with 5: whether it is for the flags of a footing that are the least above the range, the most, or others.
fn flags_refused(job: &[u8], fault: &Fault) -> Vec<String> {
    if fault.command != 9 || fault.operand != 14 {
        return vec![];
    }
    let flags = match job[fault.offset + footings::FLAGS] {
        LEAST_REFUSED => "8",
        u8::MAX => "255",
        _ => "between",
    };
    vec![refused(flags)]
}

const LEAST_REFUSED: u8 = footings::MOST_FLAGS + 1;

fn refused(flags: &str) -> String {
    format!("footing: flags refused, {flags}")
}

/// The cases that must be met.
fn wanted() -> Vec<String> {
    let refusals = ["8", "255", "between"].map(refused).to_vec();
    [
        shears::wanted(),
        footings::wanted(),
        storeys::wanted(),
        hinges::wanted(),
        hinges::faults::wanted(),
        campus::wanted(),
        campus::wanted_of_refused(),
        numbers::wanted(),
        refusals,
    ]
    .concat()
}
