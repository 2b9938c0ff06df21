// The walk written as a plain Rust loop, to measure the proved one against: the same list, the same policy, the
// same slots, the same comparison with the mark. It shares no code with crates/.

#[derive(Clone, Copy, PartialEq)]
struct Row {
    work: u8,
    validity: u16,
    period: u16,
    until: u16,
    policy_left: u8,
    shown: bool,
    age: u16,
    open: bool,
    job_age: u16,
    left: u8,
}

#[derive(Debug, PartialEq)]
enum End {
    Repeat(u32, u32),
    JobRule(u32, usize),
    Stale(u32, usize),
    Nowhere,
}

// The policy's answer for a slot: the rows to sample, and the row to run, or 0.
fn answer(rows: &mut [Row]) -> (u16, usize) {
    let mut mask = 0;
    for (k, row) in rows.iter_mut().enumerate() {
        if row.until == 0 {
            mask |= 1 << k;
            row.until = row.period - 1;
            row.policy_left = row.work;
        } else {
            row.until -= 1;
        }
    }
    for (k, row) in rows.iter_mut().enumerate() {
        if row.policy_left > 0 {
            row.policy_left -= 1;
            return (mask, k + 1);
        }
    }
    (mask, 0)
}

// The five steps of a slot, or its first fault.
fn take(rows: &mut [Row], slot: u32, (mask, run): (u16, usize)) -> Result<(), End> {
    for (k, row) in rows.iter_mut().enumerate() {
        if mask >> k & 1 == 1 {
            if row.open {
                return Err(End::JobRule(slot, k + 1));
            }
            row.open = true;
            row.job_age = 0;
            row.left = row.work;
        }
    }
    if run > 0 {
        let row = &mut rows[run - 1];
        if !row.open {
            return Err(End::JobRule(slot, run));
        }
        row.left -= 1;
    }
    for (k, row) in rows.iter_mut().enumerate() {
        row.age += 1;
        if row.age > row.validity {
            return Err(End::Stale(slot, k + 1));
        }
        if row.open {
            row.job_age += 1;
            if row.left == 0 {
                row.open = false;
                row.shown = true;
                row.age = row.job_age;
                row.job_age = 0;
            }
        }
    }
    Ok(())
}

fn walk(start: &[Row]) -> End {
    let mut rows = start.to_vec();
    let mut marked = start.to_vec();
    let mut mark = 0;
    for slot in 0..32767 {
        let given = answer(&mut rows);
        if let Err(end) = take(&mut rows, slot, given) {
            return end;
        }
        let instant = slot + 1;
        if rows == marked {
            return End::Repeat(mark, instant - mark);
        }
        if instant == 2 * mark + 1 {
            mark = instant;
            marked.copy_from_slice(&rows);
        }
    }
    End::Nowhere
}

// Sixteen rows of 4 slots with validities from 200 on, by Half-Half; the last depends on the turn.
fn rows_of(turn: u32) -> Vec<Row> {
    (0..16u16)
        .map(|k| {
            let validity = if k == 15 { 300 + (turn % 50) as u16 } else { 200 + 6 * k };
            Row {
                work: 4,
                validity,
                period: validity / 2,
                until: 0,
                policy_left: 0,
                shown: false,
                age: 0,
                open: false,
                job_age: 0,
                left: 0,
            }
        })
        .collect()
}

fn main() {
    let times = std::env::args().nth(1).map_or(1, |word| word.parse().expect("a number"));
    let wandered = (0..times).filter(|&turn| walk(&rows_of(turn)) == End::Nowhere).count();
    println!("{wandered} of {times} walks ended for want of a repeat");
}
