//! Two threads and a channel, as ../c/locked.c has it. The sender waits while the channel is full, and the receiver while it is empty. At the end the
//! sender closes the channel, and the receiver takes what is left.
use std::error::Error;
use std::thread;

use strm::{Channel, Refusal};

const NUMBERS: u32 = 100_000;

fn send_all(way: &Channel) -> Result<(), Refusal> {
    let sent = (0..NUMBERS).try_for_each(|number| way.send(&number.to_ne_bytes(), 0));
    way.close();
    sent
}

fn main() -> Result<(), Box<dyn Error>> {
    let way = Channel::open(4, 64, 128)?;
    let mut next = 0;
    thread::scope(|scope| {
        let sender = scope.spawn(|| send_all(&way));
        let mut bytes = [0; 4];
        while way.receive(&mut bytes).is_ok() && u32::from_ne_bytes(bytes) == next {
            next += 1;
        }
        sender.join().map_err(|_| "the sender failed")?.map_err(|why| why.text())
    })?;
    let census = way.census()?;
    println!("{next} numbers came in order");
    println!("free {} queued {} held {}", census.free, census.queued, census.held);
    Ok(())
}
