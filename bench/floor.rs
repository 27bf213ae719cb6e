//! The least that a start has to do: each step of it in plain Rust over std alone, in one pass over
//! a journal through one buffer, with nothing judged. `rustc -O bench/floor.rs`, then
//! `floor JOURNAL STEP ..`: the seconds that each step takes, best of five, the file in memory.
//!
//! - `read`: the bytes are read;
//! - `walk`: and the records are walked;
//! - `find`: and ClOrdID(11) is found in each message;
//! - `slots`: and a part of its hash and a number are put into a table of 8 bytes a slot, which is
//!   sized before and keeps no id;
//! - `ids`: number and type by id, in a table that grows over one list of ids;
//! - `std`: the same in a `HashMap`.
use std::collections::HashMap;
use std::fs::File;
use std::io::Result;
use std::os::unix::fs::FileExt;
use std::time::Instant;

/// A record's head, and the longest payload.
const HEAD: usize = 5;
const ROOM: usize = HEAD + 65_536;

fn number_at(bytes: &[u8], at: usize) -> usize {
    bytes[at..at + 4].iter().fold(0, |sum, byte| sum << 8 | usize::from(*byte))
}

fn read(file: &File, buffer: &mut [u8]) -> Result<u64> {
    let mut at = 0;
    loop {
        match file.read_at(buffer, at)? {
            0 => return Ok(at),
            count => at += count as u64,
        }
    }
}

/// Shows each payload behind the first, that of the names; how many there are.
fn walk(file: &File, buffer: &mut [u8], mut each: impl FnMut(&[u8])) -> Result<u64> {
    let (mut at, mut count) = (0, 0);
    loop {
        let len = file.read_at(buffer, at)?;
        let mut rest = &buffer[..len];
        while rest.len() >= HEAD && rest[0] == 1 && rest.len() >= HEAD + number_at(rest, 1) {
            let (record, after) = rest.split_at(HEAD + number_at(rest, 1));
            if count > 0 {
                each(&record[HEAD..]);
            }
            count += 1;
            rest = after;
        }
        if rest.len() == len || rest.first().is_some_and(|gate| *gate != 1) {
            return Ok(count);
        }
        at += (len - rest.len()) as u64;
    }
}

/// The number, the type and the ClOrdID(11) of the message of an entry.
fn message(payload: &[u8]) -> (u32, u8, &[u8]) {
    let body = &payload[21..][..number_at(payload, 17)];
    let id = body.split(|byte| *byte == 1).find_map(|field| field.strip_prefix(b"11="));
    (number_at(payload, 13) as u32, body[3], id.unwrap_or(b""))
}

/// FNV-1a.
fn hash(id: &[u8]) -> u32 {
    let sum = id.iter().fold(0xcbf2_9ce4_8422_2325_u64, |sum, byte| {
        (sum ^ u64::from(*byte)).wrapping_mul(0x100_0000_01b3)
    });
    (sum ^ sum >> 32) as u32
}

/// The first slot from the hash on that passes.
fn slot<T>(slots: &[T], hash: u32, passes: impl Fn(&T) -> bool) -> usize {
    let mask = slots.len() - 1;
    let mut at = hash as usize & mask;
    while !passes(&slots[at]) {
        at = (at + 1) & mask;
    }
    at
}

/// Ids one behind the other, and for each its place and length, its hash, its number and type.
#[derive(Default)]
struct Ids {
    bytes: Vec<u8>,
    kept: Vec<(usize, usize, u32, u32, u8)>,
    slots: Vec<u32>,
}

impl Ids {
    fn add(&mut self, id: &[u8], number: u32, letter: u8) {
        if self.kept.len() * 2 >= self.slots.len() {
            self.slots = vec![0; (self.slots.len() * 2).max(128)];
            for (place, one) in self.kept.iter().enumerate() {
                let at = slot(&self.slots, one.2, |it| *it == 0);
                self.slots[at] = place as u32 + 1;
            }
        }
        let hash = hash(id);
        let at = slot(&self.slots, hash, |it| {
            *it == 0 || {
                let (from, len, one, ..) = self.kept[*it as usize - 1];
                one == hash && &self.bytes[from..from + len] == id
            }
        });
        if self.slots[at] == 0 {
            self.kept.push((self.bytes.len(), id.len(), hash, number, letter));
            self.bytes.extend_from_slice(id);
            self.slots[at] = self.kept.len() as u32;
        }
    }
}

fn step(file: &File, buffer: &mut [u8], name: &str) -> Result<u64> {
    match name {
        "read" => read(file, buffer),
        "walk" => walk(file, buffer, |_| ()),
        "find" => {
            let mut sum = 0;
            walk(file, buffer, |payload| sum += message(payload).2.len() as u64)?;
            Ok(sum)
        }
        "slots" => {
            let mut slots = vec![(0, 0); 1 << 20];
            walk(file, buffer, |payload| {
                let (number, _, id) = message(payload);
                let hash = hash(id);
                let at = slot(&slots, hash, |it| it.1 == 0 || it.0 == hash);
                slots[at] = (hash, number);
            })
        }
        "ids" => {
            let mut ids = Ids::default();
            walk(file, buffer, |payload| {
                let (number, letter, id) = message(payload);
                ids.add(id, number, letter);
            })
        }
        "std" => {
            let mut map = HashMap::new();
            walk(file, buffer, |payload| {
                let (number, letter, id) = message(payload);
                map.entry(id.to_vec()).or_insert((number, letter));
            })
        }
        _ => panic!("no step {}", name),
    }
}

fn main() -> Result<()> {
    let mut words = std::env::args().skip(1);
    let file = File::open(words.next().expect("the path of a journal"))?;
    let mut buffer = vec![0; ROOM];
    for name in words {
        let mut best = f64::MAX;
        for _ in 0..5 {
            let begin = Instant::now();
            std::hint::black_box(step(&file, &mut buffer, &name)?);
            best = best.min(begin.elapsed().as_secs_f64());
        }
        println!("{name} {best:.3}");
    }
    Ok(())
}
