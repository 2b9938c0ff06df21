// Laying, closing, walking and ticking a strip written as plain Rust loops, to measure the proved ones against: the same
// list, the same slots, the same comparisons. It shares no code with crates/.

use std::hint::black_box;
use std::io::{self, BufWriter, Write};

const SLOTS: usize = 32_767;

#[derive(Clone, Copy)]
struct Reading {
    work: u8,
    validity: u16,
}

#[derive(Clone, Copy, PartialEq)]
struct Row {
    age: u16,
    job: Option<Job>,
    shown: bool,
    work: u8,
    validity: u16,
}

#[derive(Clone, Copy, PartialEq)]
struct Job {
    age: u16,
    left: u8,
}

// The limit, or the row that cannot be laid.
fn lay(slots: &mut [u8], list: &[Reading]) -> Result<usize, usize> {
    slots.fill(0);
    let mut limit = slots.len();
    for (k, reading) in list.iter().enumerate() {
        limit = lay_row(slots, limit, k as u8 + 1, reading).ok_or(k + 1)?;
    }
    Ok(limit)
}

fn lay_row(slots: &mut [u8], limit: usize, row: u8, reading: &Reading) -> Option<usize> {
    let mut sample = 0;
    let mut deadline = first_job(&mut slots[..limit], row, reading.work)?;
    while sample + usize::from(reading.validity) <= limit {
        let next = sample + usize::from(reading.validity);
        if next < deadline {
            return None;
        }
        sample = deadline + next_job(&mut slots[deadline..next], row, reading.work)?;
        deadline = next;
    }
    Some(deadline)
}

fn first_job(slots: &mut [u8], row: u8, work: u8) -> Option<usize> {
    let mut left = work;
    for (n, slot) in slots.iter_mut().enumerate() {
        if *slot == 0 {
            *slot = row;
            left -= 1;
            if left == 0 {
                return Some(n + 1);
            }
        }
    }
    None
}

fn next_job(slots: &mut [u8], row: u8, work: u8) -> Option<usize> {
    let mut left = work;
    for (n, slot) in slots.iter_mut().enumerate().rev() {
        if *slot == 0 {
            *slot = row;
            left -= 1;
            if left == 0 {
                return Some(n);
            }
        }
    }
    None
}

fn new_books(list: &[Reading]) -> Vec<Row> {
    list.iter()
        .map(|r| Row { age: 0, job: None, shown: false, work: r.work, validity: r.validity })
        .collect()
}

// The five steps of a slot: the row shown, or 0; none at a fault.
fn take(rows: &mut [Row], (mask, run): (u16, u8)) -> Option<usize> {
    let mut shown = 0;
    for (k, row) in rows.iter_mut().enumerate() {
        if mask >> k & 1 == 1 {
            if row.job.is_some() {
                return None;
            }
            row.job = Some(Job { age: 0, left: row.work });
        }
    }
    if run > 0 {
        rows[usize::from(run) - 1].job.as_mut()?.left -= 1;
    }
    for (k, row) in rows.iter_mut().enumerate() {
        row.age += 1;
        if row.age > row.validity {
            return None;
        }
        if let Some(job) = &mut row.job {
            job.age += 1;
            if job.left == 0 {
                row.age = job.age;
                row.shown = true;
                row.job = None;
                shown = k + 1;
            }
        }
    }
    Some(shown)
}

// The first slot of the loop and the last, both inside.
fn close(slots: &[u8], list: &[Reading]) -> Option<(usize, usize)> {
    let mut rows = new_books(list);
    let mut marked = rows.clone();
    let mut mark = 0;
    for (place, &row) in slots.iter().enumerate() {
        let mask = if place == 0 {
            ((1u32 << list.len()) - 1) as u16
        } else if row > 0 && rows[usize::from(row) - 1].job.is_none() {
            1 << (row - 1)
        } else {
            0
        };
        take(&mut rows, (mask, row))?;
        let instant = place + 1;
        if rows == marked {
            return Some((mark, place));
        }
        if instant == 2 * mark + 1 {
            mark = instant;
            marked.copy_from_slice(&rows);
        }
    }
    None
}

#[derive(Clone)]
struct Player<'a> {
    slots: &'a [u8],
    first: usize,
    last: usize,
    place: usize,
    left: [u8; 16],
}

impl Player<'_> {
    fn step(&mut self, list: &[Reading]) -> (u16, u8) {
        let row = self.slots[self.place];
        let mut mask = 0;
        if self.place == 0 {
            for (k, reading) in list.iter().enumerate() {
                self.left[k] = reading.work;
                mask |= 1 << k;
            }
        } else if row > 0 && self.left[usize::from(row) - 1] == 0 {
            self.left[usize::from(row) - 1] = list[usize::from(row) - 1].work;
            mask = 1 << (row - 1);
        }
        if row > 0 {
            self.left[usize::from(row) - 1] -= 1;
        }
        self.place = if self.place == self.last { self.first } else { self.place + 1 };
        (mask, row)
    }

    fn same(&self, other: &Player) -> bool {
        self.place == other.place
            && self.left == other.left
            && self.first == other.first
            && self.last == other.last
            && self.slots == other.slots
    }
}

fn player(slots: &[u8], (first, last): (usize, usize)) -> Player<'_> {
    Player { slots, first, last, place: 0, left: [0; 16] }
}

// The mark and the length of the walk of a closed strip.
fn walk(slots: &[u8], ends: (usize, usize), list: &[Reading]) -> Option<(usize, usize)> {
    let mut player = player(slots, ends);
    let mut rows = new_books(list);
    let mut kept = (player.clone(), rows.clone());
    let mut mark = 0;
    for slot in 0..SLOTS {
        let given = player.step(list);
        take(&mut rows, given)?;
        let instant = slot + 1;
        if rows == kept.1 && player.same(&kept.0) {
            return Some((mark, instant - mark));
        }
        if instant == 2 * mark + 1 {
            mark = instant;
            kept.0 = player.clone();
            kept.1.copy_from_slice(&rows);
        }
    }
    None
}

// Work length and validity of sixteen readings whose books repeat late.
const LIST: [(u8, u16); 16] = [
    (1, 54), (3, 54), (3, 56), (1, 59), (1, 60), (2, 60), (2, 61), (3, 61),
    (3, 62), (2, 62), (1, 65), (2, 66), (1, 67), (3, 67), (3, 68), (3, 69),
];

fn main() -> io::Result<()> {
    let words: Vec<String> = std::env::args().collect();
    let times: u32 = words[2].parse().expect("a number");
    let list = LIST.map(|(work, validity)| Reading { work, validity });
    let mut slots = vec![0; SLOTS];
    let mut made = 0;
    if words[1] == "close" {
        for _ in 0..times {
            let limit = lay(&mut slots, black_box(&list)).expect("a strip");
            made += u32::from(close(&slots[..limit], black_box(&list)).is_some());
        }
        println!("{made} of {times} strips closed");
        return Ok(());
    }
    let limit = lay(&mut slots, &list).expect("a strip");
    let ends = close(&slots[..limit], &list).expect("a loop");
    if words[1] == "ticks" {
        write_ticks(&slots, ends, &list, times)
    } else {
        for _ in 0..times {
            made += u32::from(walk(&slots, ends, black_box(&list)).is_some());
        }
        println!("{made} of {times} walks accepted");
        Ok(())
    }
}

// What a rehearsal writes for the plan of the list, a start and so many ticks.
fn write_ticks(slots: &[u8], ends: (usize, usize), list: &[Reading], times: u32) -> io::Result<()> {
    let mut out = BufWriter::new(io::stdout());
    for _ in 0..list.len() + 2 {
        writeln!(out, "ok")?;
    }
    let (mark, length) = walk(slots, ends, list).expect("a plan");
    writeln!(out, "start {mark} {length}")?;
    let mut player = player(slots, ends);
    let mut rows = new_books(list);
    for _ in 0..times {
        let (mask, run) = player.step(list);
        let shown = take(&mut rows, (mask, run)).expect("no fault");
        writeln!(out, "{mask} {run} {shown} 0")?;
    }
    out.flush()
}
