//! Posts two messages, as ../c/post.c does. The first goes on the queue. The second is larger than the largest size class, so it is refused.
use strm::{ClassSpec, Config, Pool, QueueSpec, Refusal};

/// Puts a message with these bytes on queue 0. If a call is refused, the guard frees the message.
fn post(pool: &mut Pool, bytes: &[u8]) -> Result<(), Refusal> {
    let msg = pool.allocb(bytes.len() as u32)?;
    let mut guard = pool.guard(msg);
    guard.with(|pool, msg| pool.write(msg, 0, bytes))?;
    guard.putq(0)
}

fn text_of(result: Result<(), Refusal>) -> &'static str {
    result.map_or_else(Refusal::text, |()| "done")
}

fn main() -> Result<(), Refusal> {
    let mut pool = Pool::open(&Config {
        mblks: 40,
        classes: &[ClassSpec { size: 16, count: 32 }, ClassSpec { size: 256, count: 8 }],
        queues: &[QueueSpec { hiwat: 64, lowat: 16, service: true, next: None }],
        ..Config::default()
    })?;
    println!("4 bytes: {}", text_of(post(&mut pool, b"lion")));
    println!("300 bytes: {}", text_of(post(&mut pool, &[0; 300])));
    let census = pool.census()?;
    println!("free {} queued {} held {}", census.free, census.queued, census.held);
    Ok(())
}
