//! `hop` of crates/strm_header written by hand in Rust, over a pool of message blocks and counted data blocks. Lines of standard
//! input and output are those of hop/src/main.rt.txt.
#![allow(dead_code)]

use std::io::BufRead;

const NONE: u32 = u32::MAX;

const RIGHT: [u8; 20] = [
    0x45, 0, 0, 64, 0, 0, 0x40, 0, 255, 17, 0xF9, 0x93, 192, 168, 0, 1, 192, 168, 0, 199,
];
const WRONG: [u8; 20] = [
    0x45, 0, 0, 64, 0, 0, 0x40, 0, 255, 17, 0xF9, 0x94, 192, 168, 0, 1, 192, 168, 0, 199,
];

/// A message block. The blocks of a message, and the free ones, are linked by `next`.
struct Block {
    next: u32,
    data: u32,
    offset: u32,
    len: u32,
}

/// A data block of a size class. The free ones of a class are linked by `next`.
struct Data {
    bytes: Box<[u8]>,
    references: u32,
    class: u32,
    next: u32,
}

/// A size class: the capacity of its data blocks, and the first free one.
struct Class {
    size: usize,
    free: u32,
}

/// The message whose first block this is.
struct Token(u32);

struct Pool {
    blocks: Vec<Block>,
    data: Vec<Data>,
    classes: Vec<Class>,
    free: u32,
}

#[derive(Debug)]
enum HeaderFault {
    TooShort,
    WrongForm,
    WrongChecksum,
    Expired,
}

enum Outcome {
    GoesOn(Token),
    Dropped(HeaderFault),
    Refused(Token),
}

#[derive(Debug)]
enum Refusal {
    NoMblk,
    NoData,
    NoRoom,
    Shared,
}

impl Pool {
    fn new(count: u32, size: usize) -> Pool {
        let next = |at| if at + 1 < count { at + 1 } else { NONE };
        Pool {
            blocks: (0..count)
                .map(|at| Block {
                    next: next(at),
                    data: 0,
                    offset: 0,
                    len: 0,
                })
                .collect(),
            data: (0..count)
                .map(|at| Data {
                    bytes: vec![0; size].into(),
                    references: 0,
                    class: 0,
                    next: next(at),
                })
                .collect(),
            classes: vec![Class { size, free: 0 }],
            free: 0,
        }
    }

    fn allocb(&mut self, size: usize) -> Result<Token, Refusal> {
        let head = self.free;
        let block = self.blocks.get_mut(head as usize).ok_or(Refusal::NoMblk)?;
        let fits = |class: &&mut Class| class.size >= size && class.free != NONE;
        let class = self.classes.iter_mut().find(fits).ok_or(Refusal::NoData)?;
        let data = class.free;
        let found = &mut self.data[data as usize];
        (self.free, class.free) = (block.next, found.next);
        found.references = 1;
        *block = Block {
            next: NONE,
            data,
            offset: 0,
            len: 0,
        };
        Ok(Token(head))
    }

    fn write(&mut self, token: &Token, bytes: &[u8]) -> Result<(), Refusal> {
        let block = &mut self.blocks[token.0 as usize];
        let end = (block.offset + block.len) as usize;
        let room = self.data[block.data as usize]
            .bytes
            .get_mut(end..end + bytes.len())
            .ok_or(Refusal::NoRoom)?;
        room.copy_from_slice(bytes);
        block.len += bytes.len() as u32;
        Ok(())
    }

    /// Lends the bytes of a message's first block to `change`, unless another block uses its data block.
    fn edit<R>(
        &mut self,
        token: &Token,
        change: impl FnOnce(&mut [u8]) -> R,
    ) -> Result<R, Refusal> {
        let block = &self.blocks[token.0 as usize];
        let data = &mut self.data[block.data as usize];
        if data.references > 1 {
            return Err(Refusal::Shared);
        }
        let offset = block.offset as usize;
        Ok(change(&mut data.bytes[offset..offset + block.len as usize]))
    }

    fn freemsg(&mut self, token: Token) {
        let mut at = token.0;
        while at != NONE {
            let block = &mut self.blocks[at as usize];
            let data = &mut self.data[block.data as usize];
            data.references -= 1;
            if data.references == 0 {
                let class = &mut self.classes[data.class as usize];
                data.next = class.free;
                class.free = block.data;
            }
            let next = block.next;
            block.next = self.free;
            self.free = at;
            at = next;
        }
    }
}

fn age_header(bytes: &mut [u8]) -> Result<(), HeaderFault> {
    if bytes.len() < 20 {
        return Err(HeaderFault::TooShort);
    }
    if bytes[0] != 0x45 {
        return Err(HeaderFault::WrongForm);
    }
    let words = bytes[..20].chunks_exact(2);
    let sum: u32 = words
        .map(|word| u32::from(u16::from_be_bytes([word[0], word[1]])))
        .sum();
    if sum % 65_535 != 0 {
        return Err(HeaderFault::WrongChecksum);
    }
    if bytes[8] <= 1 {
        return Err(HeaderFault::Expired);
    }
    let checksum = u16::from_be_bytes([bytes[10], bytes[11]]);
    let raised = (u32::from(checksum) + 256) % 65_535;
    bytes[8] -= 1;
    bytes[10..12].copy_from_slice(&(raised as u16).to_be_bytes());
    Ok(())
}

fn hop(pool: &mut Pool, token: Token) -> Outcome {
    match pool.edit(&token, age_header) {
        Ok(Ok(())) => Outcome::GoesOn(token),
        Ok(Err(why)) => {
            pool.freemsg(token);
            Outcome::Dropped(why)
        }
        Err(_) => Outcome::Refused(token),
    }
}

/// What is counted.
#[inline(never)]
fn measured_hop(pool: &mut Pool, token: Token) -> Outcome {
    hop(pool, token)
}

fn message(pool: &mut Pool, bytes: &[u8]) -> Result<Token, Refusal> {
    let token = pool.allocb(64)?;
    pool.write(&token, bytes)?;
    Ok(token)
}

fn main() {
    let mut pool = Pool::new(4_095, 64);
    for line in std::io::stdin().lock().lines().map_while(Result::ok) {
        let Some((row, Ok(times))) = line
            .split_once(' ')
            .map(|(row, times)| (row, times.parse::<u64>()))
        else {
            return;
        };
        let bytes = if row == "right" { RIGHT } else { WRONG };
        let mut held = None;
        for _ in 0..times {
            let token = held
                .take()
                .unwrap_or_else(|| message(&mut pool, &bytes).expect("a message"));
            held = match measured_hop(&mut pool, token) {
                Outcome::GoesOn(token) | Outcome::Refused(token) => Some(token),
                Outcome::Dropped(_) => None,
            };
        }
        if let Some(token) = held {
            pool.freemsg(token);
        }
        println!("{times}");
    }
}
