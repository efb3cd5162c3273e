//! Hunts a leak, as ../c/leak.c does. A message that is dropped without a call leaks. The number of its first block is the index in a table of who made
//! it, so each that is held in the end is printed with its maker. `leaked` finds also a message that the table does not know.
use std::error::Error;

use strm::{ClassSpec, Config, Name, Pool, QueueSpec};

const MBLKS: u32 = 16;

#[derive(Clone, Copy, Default)]
struct Note {
    name: Name,
    maker: &'static str,
}

type Notes = [Note; MBLKS as usize];

fn post(pool: &mut Pool, notes: &mut Notes, maker: &'static str, bytes: &[u8]) -> Result<(), Box<dyn Error>> {
    let msg = pool.allocb(bytes.len() as u32)?;
    notes[msg.name().head as usize] = Note { name: msg.name(), maker };
    pool.write(&msg, 0, bytes)?;
    Ok(pool.putq(0, msg)?)
}

fn take_all(pool: &mut Pool, notes: &mut Notes) -> Result<(), Box<dyn Error>> {
    while let Some(msg) = pool.getq(0)? {
        let note = &mut notes[msg.name().head as usize];
        note.name = msg.name(); // a new name, the same first block
        if note.maker != "timer" {
            pool.freemsg(msg)?; // the timer leaks
        }
    }
    Ok(())
}

fn main() -> Result<(), Box<dyn Error>> {
    let mut pool = Pool::open(&Config {
        mblks: MBLKS,
        classes: &[ClassSpec { size: 16, count: MBLKS }],
        queues: &[QueueSpec { hiwat: 64, lowat: 16, ..QueueSpec::default() }],
        ..Config::default()
    })?;
    let mut notes = Notes::default();
    post(&mut pool, &mut notes, "line", b"abcd")?;
    post(&mut pool, &mut notes, "timer", b"tick")?;
    post(&mut pool, &mut notes, "line", b"ef")?;
    take_all(&mut pool, &mut notes)?;
    let _unnoted = pool.allocb(4)?;

    println!("{} blocks are held", pool.census()?.held);
    let leaked: Vec<Name> = pool.leaked().collect();
    for name in leaked {
        let note = notes[name.head as usize];
        let msg = pool.adopt(name);
        println!("block {}: {} bytes, maker: {}", name.head, pool.size(&msg)?, if note.name == name { note.maker } else { "unknown" });
        pool.freemsg(msg)?; // it is freed after all
    }
    Ok(())
}
