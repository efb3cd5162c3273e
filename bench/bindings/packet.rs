//! The ways of packets of ../peers/peer.h through the crate of bindings/rust.
use std::ffi::{c_char, c_int, c_void};
use std::ptr;
use std::slice;

use strm::{ClassSpec, Config, Pool, QueueSpec};

const SHORT: u32 = 64;
const LONG: u32 = 1500;
const FRAME: usize = 4096;

type Done = Result<bool, Box<dyn std::error::Error>>;

extern "C" {
    static bytes: [u8; FRAME];
    static mut copied: [u8; FRAME];
    static mut seen: u32;
}

#[repr(C)]
pub struct Work {
    name: *const c_char,
    made: Option<extern "C" fn(*mut c_void) -> c_int>,
}

// SAFETY: the names are constants.
unsafe impl Sync for Work {}

fn sees(header: &[u8]) {
    // SAFETY: one thread makes rounds.
    unsafe { ptr::write_volatile(&raw mut seen, header[0].into()) }
}

// Inlined, so that its result does not go through memory.
#[inline(always)]
fn copies(pool: &mut Pool, size: u32) -> Done {
    // SAFETY: main.c only defines them.
    let (from, into) = unsafe { (&bytes[..size as usize], slice::from_raw_parts_mut((&raw mut copied).cast::<u8>(), size as usize)) };
    let msg = pool.allocb(size)?;
    pool.write(&msg, 0, from)?;
    pool.read(&msg, 0, into)?;
    sees(into);
    pool.putq(0, msg)?;
    let Some(msg) = pool.getq(0)? else { return Ok(false) };
    let count = pool.read(&msg, 0, into)?;
    pool.freemsg(msg)?;
    Ok(count == size as usize)
}

#[inline(always)]
fn in_place(pool: &mut Pool, size: u32) -> Done {
    // SAFETY: as in `copies`.
    let from = unsafe { &bytes[..size as usize] };
    let msg = pool.allocb(size)?;
    pool.write(&msg, 0, from)?;
    sees(pool.bytes(&msg, 0)?);
    pool.putq(0, msg)?;
    let Some(msg) = pool.getq(0)? else { return Ok(false) };
    let lent = pool.bytes(&msg, 0)?;
    sees(lent);
    let is_whole = lent.len() == size as usize;
    pool.freemsg(msg)?;
    Ok(is_whole)
}

macro_rules! works {
    ($($work:ident = $way:ident($size:expr), $name:literal;)*) => {
        $(
            extern "C" fn $work(room: *mut c_void) -> c_int {
                // SAFETY: it is the pool of `peer_open`, and main.c uses it in one thread.
                $way(unsafe { &mut *room.cast::<Pool>() }, $size).is_ok_and(|done| done).into()
            }
        )*

        /// The works of this peer, as main.c finds them.
        #[no_mangle]
        pub static works: [Work; 5] = [
            $(Work { name: $name.as_ptr(), made: Some($work) },)*
            Work { name: ptr::null(), made: None },
        ];
    };
}

works! {
    copies_short = copies(SHORT), c"copies_short";
    copies_long = copies(LONG), c"copies_long";
    in_place_short = in_place(SHORT), c"in_place_short";
    in_place_long = in_place(LONG), c"in_place_long";
}

#[no_mangle]
pub extern "C" fn peer_open(number: c_int, _use: *const c_void) -> *mut c_void {
    let config = Config {
        id: number as u32,
        mblks: 4095,
        classes: &[ClassSpec { size: SHORT, count: 4055 }, ClassSpec { size: 256, count: 32 }, ClassSpec { size: FRAME as u32, count: 8 }],
        queues: &[QueueSpec { hiwat: 65536, lowat: 1024, service: true, next: None }],
        ..Config::default()
    };
    Pool::open(&config).map_or(ptr::null_mut(), |pool| Box::into_raw(Box::new(pool)).cast())
}

#[no_mangle]
pub extern "C" fn peer_enter() -> c_int {
    1
}

#[no_mangle]
pub extern "C" fn peer_leave() {}
