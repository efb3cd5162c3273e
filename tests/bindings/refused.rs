//! Misuse that C reports by a code, and that the types of the crate in bindings/rust refuse. tests/bindings/run compiles each case below with the
//! lines before the first: it must be refused with the error that its heading names, and must compile without the line that `refused` marks.
#![deny(unused_must_use)]
#![allow(dead_code, unused_variables)]
use std::thread;

use strm::{Config, Iov, Message, Pool, Rejected, Refusal};

// ---- a message after it was put on a queue: E0382
fn case(pool: &mut Pool, msg: Message) -> Result<(), Rejected> {
    pool.putq(0, msg)?;
    pool.freemsg(msg)?; // refused
    Ok(())
}

// ---- a message after it was freed: E0382
fn case(pool: &mut Pool, msg: Message) -> Result<(), Rejected> {
    pool.freemsg(msg)?;
    let size = pool.size(&msg); // refused
    Ok(())
}

// ---- the tail of a message after it was linked: E0382
fn case(pool: &mut Pool, msg: Message, tail: Message) -> Result<(), Rejected> {
    pool.linkb(&msg, tail)?;
    pool.putq(0, tail)?; // refused
    pool.putq(0, msg)
}

// ---- a copy of a message: E0599
fn case(msg: Message) -> Message {
    let copy = msg.clone(); // refused
    msg
}

// ---- a message that nothing takes: unused `Message`
fn case(pool: &mut Pool) -> Result<(), Refusal> {
    pool.allocb(4)?; // refused
    Ok(())
}

// ---- bytes that are kept over a call: E0502
fn case(pool: &mut Pool, msg: &Message) -> Result<u8, Refusal> {
    let bytes = pool.bytes(msg, 0)?;
    pool.write(msg, 0, b"!")?; // refused
    Ok(bytes[0])
}

// ---- bytes of several blocks that are kept over a call: E0502
fn case(pool: &mut Pool, msg: &Message) -> Result<usize, Refusal> {
    let mut iov = [Iov::default(); 2];
    pool.iov(msg, 0, &mut iov)?;
    pool.adjmsg(msg, 1)?; // refused
    Ok(iov[0].len())
}

// ---- bytes of a pool that are written into it: E0502
fn case(pool: &mut Pool, msg: &Message, other: &Message) -> Result<(), Refusal> {
    let bytes = pool.bytes(msg, 0)?;
    pool.write(other, 0, bytes)?; // refused
    Ok(())
}

// ---- room that is kept over a call: E0499
fn case(pool: &mut Pool, msg: &Message) -> Result<(), Refusal> {
    let room = pool.room(msg, 0)?;
    pool.advance(msg, 0, 1)?; // refused
    room[0] = b'!';
    Ok(())
}

// ---- bytes that are changed while others are read: E0502
fn case(pool: &mut Pool, msg: &Message, other: &Message) -> Result<u8, Refusal> {
    let bytes = pool.edit(msg, 0)?;
    bytes.copy_from_slice(pool.bytes(other, 0)?); // refused
    Ok(bytes[0])
}

// ---- bytes of a pool that is closed: E0505
fn case(pool: Pool, msg: &Message) -> Result<u8, Refusal> {
    let bytes = pool.bytes(msg, 0)?;
    drop(pool); // refused
    Ok(bytes[0])
}

// ---- two calls that change a pool at once: E0499
fn case(pool: &mut Pool) -> Result<(), Refusal> {
    thread::scope(|scope| {
        scope.spawn(|| pool.qenable(0));
        scope.spawn(|| pool.qenable(1)); // refused
    });
    Ok(())
}

// ---- a look while another thread changes the pool: E0502
fn case(pool: &mut Pool) -> Result<(), Refusal> {
    thread::scope(|scope| {
        scope.spawn(|| pool.qenable(0));
        scope.spawn(|| pool.qsize(0)); // refused
    });
    Ok(())
}

// ---- a change by a reader: E0596
fn case(pool: &Pool) -> Result<u32, Refusal> {
    pool.next_service()?; // refused
    pool.qsize(0)
}

// ---- a message that is handed from a pool to the same pool: E0499
fn case(pool: &mut Pool, msg: Message) -> Option<Message> {
    return pool.transfer(pool, msg).ok(); // refused
    None
}

// ---- a pool while a guard has it: E0499
fn case(pool: &mut Pool, msg: Message) -> Result<(), Refusal> {
    let guard = pool.guard(msg);
    pool.qenable(0)?; // refused
    guard.putq(0)
}
