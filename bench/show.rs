// Storing and reading the largest show file written as plain Rust, to measure the proved crate against: the same file,
// the same checks in the same order. It shares no code with crates/.

use std::hint::black_box;

const SLOTS: usize = 32_767;
// of a block
const BLOCK: usize = 512;
const BYTES_SUMMED: usize = 508;
const BLOCK_SLOTS: usize = 504;

type Block = [u8; BLOCK];

#[derive(Clone, Copy, Debug, Default, PartialEq)]
struct Reading {
    id: u16,
    work: u8,
    validity: u16,
}

#[derive(Debug)]
struct Strip<'a> {
    rows: [Reading; 16],
    count: usize,
    slots: &'a mut [u8],
    first: u16,
    last: u16,
}

#[derive(Clone, Copy, Debug, PartialEq)]
#[allow(dead_code)]
enum Refusal {
    Count,
    Range(usize),
    Id(usize),
    Order(usize),
    Outside,
    FileLength,
    BlockSum(usize),
    BlockHead(usize),
    FileRest,
}

// The sum of bytes, each times its place, counted from 1.
fn sum_of(bytes: &[u8]) -> u32 {
    bytes.iter().zip(1..).map(|(&byte, place)| u32::from(byte) * place).sum()
}

fn file_length(strip: &Strip) -> usize {
    BLOCK * (1 + strip.slots.len().div_ceil(BLOCK_SLOTS))
}

fn store(strip: &Strip, file: &mut [u8]) -> Result<(), Refusal> {
    if file.len() != file_length(strip) {
        return Err(Refusal::FileLength);
    }
    let (blocks, _) = file.as_chunks_mut::<BLOCK>();
    let (head, others) = blocks.split_first_mut().ok_or(Refusal::FileLength)?;
    let mut body = [0; 87];
    body[0] = strip.count as u8;
    for (bytes, row) in body[1..81].chunks_exact_mut(5).zip(&strip.rows[..strip.count]) {
        bytes[..2].copy_from_slice(&row.id.to_be_bytes());
        bytes[2] = row.work;
        bytes[3..].copy_from_slice(&row.validity.to_be_bytes());
    }
    body[81..83].copy_from_slice(&(strip.slots.len() as u16).to_be_bytes());
    body[83..85].copy_from_slice(&strip.first.to_be_bytes());
    body[85..].copy_from_slice(&strip.last.to_be_bytes());
    write_block(head, b'T', 0, &body);
    for ((block, slots), number) in others.iter_mut().zip(strip.slots.chunks(BLOCK_SLOTS)).zip(1..) {
        write_block(block, b'S', number, slots);
    }
    Ok(())
}

fn write_block(block: &mut Block, kind: u8, number: u16, body: &[u8]) {
    let (bytes, sum) = block.split_at_mut(BYTES_SUMMED);
    bytes[0] = kind;
    bytes[1] = 0;
    bytes[2..4].copy_from_slice(&number.to_be_bytes());
    let (used, rest) = bytes[4..].split_at_mut(body.len());
    used.copy_from_slice(body);
    rest.fill(0);
    sum.copy_from_slice(&sum_of(bytes).to_be_bytes());
}

fn read<'a>(file: &[u8], memory: &'a mut [u8]) -> Result<Strip<'a>, Refusal> {
    let (blocks, rest) = file.as_chunks::<BLOCK>();
    if !rest.is_empty() || !(2..=67).contains(&blocks.len()) {
        return Err(Refusal::FileLength);
    }
    for (number, block) in blocks.iter().enumerate() {
        check_block(number, block)?;
    }
    let (head, others) = blocks.split_first().ok_or(Refusal::FileLength)?;
    let (rows, count) = read_list(head)?;
    let slots = usize::from(number_at(head, 85));
    let (first, last) = (number_at(head, 87), number_at(head, 89));
    if !(1..=SLOTS).contains(&slots)
        || slots > memory.len()
        || !(1..=last).contains(&first)
        || usize::from(last) >= slots
    {
        return Err(Refusal::Outside);
    }
    if others.len() != slots.div_ceil(BLOCK_SLOTS)
        || blocks.iter().any(|block| block[1] != 0)
        || !are_zero(&head[5 + 5 * count..85])
        || !are_zero(&head[91..BYTES_SUMMED])
        || !are_zero(&others[others.len() - 1][4 + (slots - 1) % BLOCK_SLOTS + 1..BYTES_SUMMED])
    {
        return Err(Refusal::FileRest);
    }
    let mut left = slots;
    for block in others {
        let here = left.min(BLOCK_SLOTS);
        if !block[4..4 + here].iter().all(|&row| usize::from(row) <= count) {
            return Err(Refusal::Outside);
        }
        left -= here;
    }
    let slots = &mut memory[..slots];
    for (part, block) in slots.chunks_mut(BLOCK_SLOTS).zip(others) {
        part.copy_from_slice(&block[4..4 + part.len()]);
    }
    Ok(Strip { rows, count, slots, first, last })
}

fn check_block(number: usize, block: &Block) -> Result<(), Refusal> {
    let (bytes, told) = block.split_at(BYTES_SUMMED);
    if told != sum_of(bytes).to_be_bytes() {
        return Err(Refusal::BlockSum(number));
    }
    let kind = if number == 0 { b'T' } else { b'S' };
    if block[0] != kind || usize::from(number_at(block, 2)) != number {
        return Err(Refusal::BlockHead(number));
    }
    Ok(())
}

// The rows of a first block, past the last of which all are 0, and their count.
fn read_list(head: &Block) -> Result<([Reading; 16], usize), Refusal> {
    let count = usize::from(head[4]);
    if !(1..=16).contains(&count) {
        return Err(Refusal::Count);
    }
    let mut rows = [Reading::default(); 16];
    for (k, bytes) in head[5..5 + 5 * count].as_chunks::<5>().0.iter().enumerate() {
        let &[id_high, id_low, work, validity_high, validity_low] = bytes;
        let id = u16::from_be_bytes([id_high, id_low]);
        let validity = u16::from_be_bytes([validity_high, validity_low]);
        if work == 0 || !(2..=4095).contains(&validity) || u16::from(work) > validity {
            return Err(Refusal::Range(k + 1));
        }
        if id == 0 || rows[..k].iter().any(|row| row.id == id) {
            return Err(Refusal::Id(k + 1));
        }
        if rows[..k].last().is_some_and(|row| validity < row.validity) {
            return Err(Refusal::Order(k + 1));
        }
        rows[k] = Reading { id, work, validity };
    }
    Ok((rows, count))
}

fn number_at(block: &Block, place: usize) -> u16 {
    u16::from_be_bytes([block[place], block[place + 1]])
}

fn are_zero(bytes: &[u8]) -> bool {
    bytes.iter().all(|&byte| byte == 0)
}

// One more than a byte, another each turn.
fn number_for(turn: u32, bytes: &[u8]) -> u32 {
    1 + u32::from(bytes[turn as usize % SLOTS])
}

fn main() {
    let mut stores = true;
    let mut reads = true;
    let mut times: u32 = 1;
    for word in std::env::args().skip(1) {
        match word.as_str() {
            "store" => reads = false,
            "read" => stores = false,
            _ => times = word.parse().expect("a number"),
        }
    }
    let rows = std::array::from_fn(|k| {
        let row = k as u16 + 1;
        Reading { id: row, work: row as u8, validity: 200 + 6 * row }
    });
    let mut slots: Vec<u8> = (0..SLOTS).map(|k| (k % 17) as u8).collect();
    let mut second = vec![0; SLOTS];
    let strip = Strip { rows, count: 16, slots: &mut slots, first: 1, last: SLOTS as u16 - 1 };
    let mut file = vec![0; file_length(&strip)];
    store(&strip, &mut file).expect("a file");
    if stores {
        let sum = (0..times).fold(0u32, |sum, turn| {
            store(black_box(&strip), &mut file).expect("a file");
            sum.wrapping_add(number_for(turn, &file))
        });
        println!("{times} times stored: {sum}");
    }
    if reads {
        let sum = (0..times).fold(0u32, |sum, turn| {
            let strip = read(black_box(&file), &mut second).expect("a strip");
            sum.wrapping_add(number_for(turn, strip.slots))
        });
        println!("{times} times read: {sum}");
    }
}
