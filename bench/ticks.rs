// The ticks of a rehearsal written as a plain Rust program, to measure the proved one against: it reads a script of one
// plan by Half-Half, a start and ticks, and writes what the proved program writes for it. It shares no code with crates/,
// and takes the plan for accepted.

use std::io::{self, BufWriter, Read, Write};

struct Row {
    work: u8,
    period: u16,
    until: u16,
    policy_left: u8,
    age: u16,
    shown: bool,
    job: Option<Job>,
}

struct Job {
    age: u16,
    left: u8,
}

struct Ticked {
    sampled: u16,
    run: u8,
    shown: u8,
    crossed: bool,
}

// The policy's answer for a slot: the rows to sample, and the row to run, or 0.
fn answer(rows: &mut [Row]) -> (u16, u8) {
    let mut mask = 0;
    for (k, row) in rows.iter_mut().enumerate() {
        if row.until == 0 {
            mask |= 1 << k;
            row.until = row.period;
            row.policy_left = row.work;
        }
        row.until -= 1;
    }
    for (k, row) in rows.iter_mut().enumerate() {
        if row.policy_left > 0 {
            row.policy_left -= 1;
            return (mask, k as u8 + 1);
        }
    }
    (mask, 0)
}

// A slot of the books: the row whose value goes on show, or 0.
fn take(rows: &mut [Row], (mask, run): (u16, u8)) -> u8 {
    let mut shown = 0;
    for (k, row) in rows.iter_mut().enumerate() {
        if mask >> k & 1 == 1 {
            row.job = Some(Job { age: 0, left: row.work });
        }
    }
    if let Some(row) = usize::from(run).checked_sub(1).map(|k| &mut rows[k]) {
        if let Some(job) = &mut row.job {
            job.left -= 1;
        }
    }
    for (k, row) in rows.iter_mut().enumerate() {
        row.age += 1;
        if let Some(job) = &mut row.job {
            job.age += 1;
            if job.left == 0 {
                row.age = job.age;
                row.shown = true;
                row.job = None;
                shown = k as u8 + 1;
            }
        }
    }
    shown
}

fn tick(rows: &mut [Row]) -> Ticked {
    let (sampled, run) = answer(rows);
    let shown = take(rows, (sampled, run));
    Ticked { sampled, run, shown, crossed: false }
}

fn main() -> io::Result<()> {
    let mut text = String::new();
    io::stdin().read_to_string(&mut text)?;
    let mut out = BufWriter::new(io::stdout());
    let mut rows = Vec::new();
    for line in text.lines() {
        let mut words = line.split(' ');
        let word = words.next().unwrap_or("");
        let numbers: Vec<u16> = words.map(|w| w.parse().expect("a number")).collect();
        match word {
            "reading" => {
                rows.push(Row {
                    work: numbers[1] as u8,
                    period: numbers[2] / 2,
                    until: 0,
                    policy_left: 0,
                    age: 0,
                    shown: false,
                    job: None,
                });
                writeln!(out, "ok")?;
            }
            "start" => writeln!(out, "start")?,
            "tick" => {
                for _ in 0..numbers[0] {
                    let it = tick(&mut rows);
                    writeln!(out, "{} {} {} {}", it.sampled, it.run, it.shown, u8::from(it.crossed))?;
                }
            }
            _ => writeln!(out, "ok")?,
        }
    }
    out.flush()
}
