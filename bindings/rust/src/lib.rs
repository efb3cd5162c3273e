//! Pools of message blocks and queues, as in UNIX System V Release 4 STREAMS, over the proved library of strm.h. Tested, not proved.
//!
//! ```
//! use strm::{ClassSpec, Config, Pool, QueueSpec};
//!
//! # fn main() -> Result<(), Box<dyn std::error::Error>> {
//! let mut pool = Pool::open(&Config {
//!     mblks: 40,
//!     classes: &[ClassSpec { size: 16, count: 32 }],
//!     queues: &[QueueSpec { hiwat: 64, lowat: 16, ..QueueSpec::default() }],
//!     ..Config::default()
//! })?;
//! let msg = pool.allocb(4)?;
//! pool.write(&msg, 0, b"lion")?;
//! pool.putq(0, msg)?;
//! # Ok(())
//! # }
//! ```
//!
//! A method has the name of its call, and strm.h says what that does and when it is refused. `STRM_NONE` is `None`.
//!
//! What strm.h asks of a caller is held by types. Looks take `&self`, and any other call `&mut self`, so that an `RwLock<Pool>` lets readers
//! run side by side. Bytes in place are slices that end at the next call by `&mut self`. A [`Message`] is spent by the call that it is handed
//! to; if that is refused, [`Rejected`] returns it. Signal handlers, `fork` and memory that processes share stay the caller's duty.
//!
//! A message that is dropped stays held until its pool is dropped, as in C: [`Pool::leaked`] finds it. A [`Guard`] frees its message.
//! Messages have their pool's `id`: give different ids to pools whose messages can meet.
#![deny(unsafe_code)]
#![no_std]

extern crate alloc;
#[cfg(feature = "std")]
extern crate std;

use alloc::string::String;
use alloc::vec::Vec;
use core::ffi::c_int;
use core::fmt;
use core::mem;

#[cfg(feature = "channel")]
mod channel;
#[allow(unsafe_code)]
mod raw;

#[cfg(feature = "channel")]
pub use channel::Channel;
pub use raw::{Allocator, Handle, Iov};

/// The next queue of a queue that has none, the number of no block, and the name of no message.
const NO_QUEUE: u32 = u32::MAX;
const NO_HEAD: u32 = u32::MAX;
const NO_MSG: Name = Name { pool: 0, head: 0, stamp: 0 };

macro_rules! refusals {
    ($($name:ident = $code:literal,)*) => {
        /// Why a call was refused, named as the codes of strm.h: `TooLarge` is `STRM_TOO_LARGE`.
        #[derive(Clone, Copy, Debug, PartialEq, Eq, Hash)]
        #[non_exhaustive]
        #[allow(missing_docs)]
        pub enum Refusal {
            $($name,)*
            /// A code of a later library.
            Other(c_int),
        }

        impl Refusal {
            /// The code of strm.h.
            pub fn code(self) -> c_int {
                match self {
                    $(Refusal::$name => $code,)*
                    Refusal::Other(code) => code,
                }
            }

            /// The refusal of a code, if the code is that of a failure.
            pub fn of(code: c_int) -> Option<Refusal> {
                match code {
                    0 | NONE => None,
                    $($code => Some(Refusal::$name),)*
                    other => Some(Refusal::Other(other)),
                }
            }
        }
    };
}

const NONE: c_int = -1;

refusals! {
    TooLarge = 1,
    NoMblk = 2,
    NoData = 3,
    RefMax = 4,
    NoSuchBlock = 5,
    Shared = 6,
    NoRoom = 7,
    Short = 8,
    NoSuchPlace = 9,
    BadOrder = 10,
    NoSuchQueue = 11,
    Full = 12,
    IdsSpent = 13,
    NotPending = 14,
    BadMarks = 20,
    Invalid = -2,
    NotOpen = -3,
    BadArgument = -4,
    IsOpen = -5,
    NoMemory = -6,
    BadMblks = -11,
    BadClasses = -12,
    BadClassSize = -13,
    BadClassTotal = -14,
    BadQueues = -15,
    BadQueueMarks = -16,
    BadNext = -17,
    BadBufcalls = -18,
    BadFirstId = -19,
}

impl Refusal {
    /// The text of the refusal.
    pub fn text(self) -> &'static str {
        raw::text_of(self.code())
    }

    /// The name of the code, as `STRM_TOO_LARGE`, in a buffer.
    pub fn name(self, buffer: &mut [u8; 32]) -> &str {
        raw::name_of(self.code(), buffer)
    }
}

impl fmt::Display for Refusal {
    fn fmt(&self, to: &mut fmt::Formatter<'_>) -> fmt::Result {
        to.write_str(self.text())
    }
}

impl core::error::Error for Refusal {}

/// A refusal of a call to which a message was handed, with the message.
#[derive(Debug)]
pub struct Rejected {
    /// Why the call was refused.
    pub why: Refusal,
    /// The message, as it was.
    pub message: Message,
}

impl fmt::Display for Rejected {
    fn fmt(&self, to: &mut fmt::Formatter<'_>) -> fmt::Result {
        self.why.fmt(to)
    }
}

impl core::error::Error for Rejected {}

/// The version of the library, in a buffer.
pub fn version(buffer: &mut [u8; 32]) -> &str {
    raw::version(buffer)
}

#[cold]
fn refused(code: c_int) -> Refusal {
    Refusal::of(code).unwrap_or(Refusal::Other(code))
}

#[inline]
fn done(code: c_int) -> Result<(), Refusal> {
    match code {
        0 | NONE => Ok(()),
        code => Err(refused(code)),
    }
}

/// The result that a call stores.
#[inline]
fn stored<T: Default>(call: impl FnOnce(&mut T) -> c_int) -> Result<T, Refusal> {
    let mut result = T::default();
    match call(&mut result) {
        0 => Ok(result),
        code => done(code).map(|()| result),
    }
}

/// The result that a call stores, or `None` if there is nothing to give.
#[inline]
fn found<T: Default>(call: impl FnOnce(&mut T) -> c_int) -> Result<Option<T>, Refusal> {
    let mut result = T::default();
    match call(&mut result) {
        0 => Ok(Some(result)),
        code => done(code).map(|()| None),
    }
}

/// What a call that a message was handed to gives, or the message with the reason.
#[inline]
fn handed<T>(message: Message, result: Result<T, Refusal>) -> Result<T, Rejected> {
    result.map_err(|why| Rejected { why, message })
}

/// The message of a name, unless that is the name of none.
fn some_message(name: Name) -> Option<Message> {
    (raw::strm_is_no_msg(name) == 0).then_some(Message(name))
}

/// The name of a message, which may be copied and kept. [`Pool::adopt`] makes a message of it.
#[derive(Clone, Copy, Debug, Default, Hash)]
#[repr(C)]
pub struct Name {
    /// The id of its pool.
    pub pool: u32,
    /// The number of the message's first block.
    pub head: u32,
    /// How many names with that block were given, this one included.
    pub stamp: u64,
}

impl PartialEq for Name {
    fn eq(&self, other: &Name) -> bool {
        raw::strm_same_msg(*self, *other) == 1
    }
}

impl Eq for Name {}

/// A message that the program holds.
#[derive(Debug, PartialEq, Eq)]
#[must_use = "a message that is dropped stays held until its pool is dropped"]
#[repr(transparent)]
pub struct Message(Name);

impl Message {
    /// Its name.
    pub fn name(&self) -> Name {
        self.0
    }

    /// Its name, under which it stays held.
    pub fn into_name(self) -> Name {
        self.0
    }
}

/// The type of a data block or message, by its number in strm.h.
#[derive(Clone, Copy, Debug, Default, PartialEq, Eq, Hash)]
#[repr(transparent)]
pub struct MsgType(pub u32);

macro_rules! types {
    ($($name:ident = $number:literal,)*) => {
        #[allow(missing_docs)]
        impl MsgType {
            $(pub const $name: MsgType = MsgType($number);)*
        }
    };
}

types! {
    DATA = 0, PROTO = 1, BREAK = 2, PASSFP = 3, SIG = 4, DELAY = 5, CTL = 6, IOCTL = 7, SETOPTS = 8,
    IOCACK = 9, IOCNAK = 10, PCPROTO = 11, PCSIG = 12, READ = 13, FLUSH = 14, STOP = 15, START = 16,
    HANGUP = 17, ERROR = 18, COPYIN = 19, COPYOUT = 20, IOCDATA = 21,
}

/// What a flush frees.
#[derive(Clone, Copy, Debug, PartialEq, Eq)]
#[repr(u32)]
pub enum Flush {
    /// All messages.
    All = 0,
    /// Those of type `DATA`, `PROTO`, `PCPROTO` or `DELAY`.
    Data = 1,
}

/// A queue of a configuration.
#[derive(Clone, Copy, Debug, PartialEq, Eq)]
pub struct QueueSpec {
    /// The high water mark of each band at first, in bytes.
    pub hiwat: u32,
    /// The low water mark.
    pub lowat: u32,
    /// Whether it has a service procedure.
    pub service: bool,
    /// The next queue.
    pub next: Option<u32>,
}

impl Default for QueueSpec {
    fn default() -> QueueSpec {
        QueueSpec { hiwat: 1, lowat: 0, service: false, next: None }
    }
}

impl From<QueueSpec> for raw::QueueSpec {
    fn from(it: QueueSpec) -> raw::QueueSpec {
        raw::QueueSpec { hiwat: it.hiwat, lowat: it.lowat, service: it.service.into(), next: it.next.unwrap_or(NO_QUEUE) }
    }
}

/// What a pool is opened from.
#[derive(Clone, Copy, Debug)]
pub struct Config<'specs> {
    /// Any id for the pool.
    pub id: u32,
    /// Its message blocks.
    pub mblks: u32,
    /// Its size classes, by rising size.
    pub classes: &'specs [ClassSpec],
    /// Its queues.
    pub queues: &'specs [QueueSpec],
    /// Wishes at one time.
    pub bufcalls: u32,
    /// The id of the first wish.
    pub first_id: u32,
}

impl Default for Config<'_> {
    fn default() -> Self {
        Config { id: 1, mblks: 0, classes: &[], queues: &[], bufcalls: 0, first_id: 1 }
    }
}

macro_rules! structs {
    ($($(#[doc = $text:literal])* $name:ident { $($field:ident: $kind:ty,)* })*) => {
        $(
            $(#[doc = $text])*
            #[derive(Clone, Copy, Debug, Default, PartialEq, Eq)]
            #[repr(C)]
            #[allow(missing_docs)]
            pub struct $name {
                $(pub $field: $kind,)*
            }
        )*
    };
}

structs! {
    /// A size class of a configuration: `struct strm_class_spec`.
    ClassSpec { size: u32, count: u32, }
    /// The numbers of message blocks: `struct strm_census`.
    Census { free: u32, queued: u32, held: u32, }
    /// A size class: `struct strm_class_info`.
    ClassInfo { size: u32, free: u32, total: u32, }
    /// A message block: `struct strm_block_info`.
    BlockInfo { r#type: MsgType, length: u32, band: u32, room: u32, names: u32, }
    /// Where the bytes of a message block are: `struct strm_block_place`.
    BlockPlace { data: u32, at: u32, length: u32, capacity: u32, }
    /// What a message block is to be like: `struct strm_block_shape`.
    BlockShape { at: u32, length: u32, r#type: MsgType, band: u32, }
    /// A message on a queue: `struct strm_queued`.
    Queued { head: u32, r#type: MsgType, band: u32, bytes: u32, blocks: u32, }
    /// A queue: `struct strm_queue_info`.
    QueueInfo { msgs: u32, bytes: u32, read: bool, noenable: bool, enabled: bool, }
    /// A band of a queue: `struct strm_band_info`.
    BandInfo { bytes: u32, full: bool, wanted: bool, }
    /// The water marks of a band: `struct strm_marks`.
    Marks { hiwat: u32, lowat: u32, }
    /// A wish: `struct strm_wish`.
    Wish { id: u32, size: u32, }
    /// The service of a queue that gave a message: `struct strm_service`.
    Service { queue: u32, next: u32, held: u32, }
}

/// A pool. It is closed when it is dropped.
#[derive(Debug)]
pub struct Pool {
    handle: Handle,
}

impl Drop for Pool {
    fn drop(&mut self) {
        raw::strm_close(&mut self.handle);
    }
}

/// Opening.
impl Pool {
    /// strm_open
    pub fn open(config: &Config<'_>) -> Result<Pool, Refusal> {
        let mut pool = Pool { handle: Handle::CLOSED };
        done(raw::open(&mut pool.handle, config)).map(|()| pool)
    }

    /// strm_memory
    pub fn memory(config: &Config<'_>) -> Result<usize, Refusal> {
        stored(|bytes| raw::memory(config, bytes))
    }

    /// Gives the handle to C, which closes it.
    pub fn into_handle(mut self) -> Handle {
        mem::replace(&mut self.handle, Handle::CLOSED)
    }

    /// A message by its name, which each call with it checks.
    pub fn adopt(&mut self, name: Name) -> Message {
        Message(name)
    }

    /// A guard that frees the message when it is dropped.
    pub fn guard(&mut self, message: Message) -> Guard<'_> {
        Guard { pool: self, message: Some(message) }
    }
}

/// Has a call append up to `most` messages.
#[inline]
fn many(into: &mut Vec<Message>, most: usize, call: impl FnOnce(&mut [Message], &mut usize) -> c_int) -> Result<usize, Refusal> {
    let before = into.len();
    let mut count = 0;
    into.extend((0..most).map(|_| Message(NO_MSG)));
    let result = done(call(&mut into[before..], &mut count));
    into.truncate(before + count);
    result.map(|()| count)
}

/// Has a call take messages from the front.
#[inline]
fn all(from: &mut Vec<Message>, call: impl FnOnce(&[Message], &mut usize) -> c_int) -> Result<usize, Refusal> {
    let count = stored(|count| call(from, count))?;
    from.drain(..count);
    Ok(count)
}

/// Messages, made and freed.
impl Pool {
    /// Frees the first block, and returns the others as a message.
    #[inline]
    pub fn freeb(&mut self, msg: Message) -> Result<Option<Message>, Rejected> {
        let rest = found(|rest| raw::strm_freeb(&mut self.handle, msg.0, rest));
        handed(msg, rest.map(|rest| rest.map(Message)))
    }

    /// Frees all blocks.
    #[inline]
    pub fn freemsg(&mut self, msg: Message) -> Result<(), Rejected> {
        let result = done(raw::strm_freemsg(&mut self.handle, msg.0));
        handed(msg, result)
    }

    /// Allocates up to `count` messages, and appends them. Returns their number.
    #[inline]
    pub fn allocb_n(&mut self, size: u32, count: usize, into: &mut Vec<Message>) -> Result<usize, Refusal> {
        many(into, count, |into, count| raw::allocb_n(&mut self.handle, size, into, count))
    }

    /// Frees messages from the front of `from`, which keeps the others. Returns their number.
    #[inline]
    pub fn freemsg_n(&mut self, from: &mut Vec<Message>) -> Result<usize, Refusal> {
        all(from, |from, count| raw::freemsg_n(&mut self.handle, from, count))
    }
}

/// Bytes and fields of a message.
impl Pool {
    /// Appends bytes to a block.
    #[inline]
    pub fn write(&mut self, msg: &Message, place: u32, bytes: &[u8]) -> Result<(), Refusal> {
        done(raw::write(&mut self.handle, msg.0, place, bytes))
    }

    /// Copies bytes of a message from the byte `at` on. Returns their number.
    #[inline]
    pub fn read(&self, msg: &Message, at: u32, into: &mut [u8]) -> Result<usize, Refusal> {
        stored(|count| raw::read(&self.handle, msg.0, at, into, count))
    }

    /// The fields of blocks from `from` on. Returns their number.
    #[inline]
    pub fn block_infos(&self, msg: &Message, from: u32, into: &mut [BlockInfo]) -> Result<usize, Refusal> {
        stored(|count| raw::blocks(&self.handle, msg.0, from, into, count))
    }

    /// The bytes of a block, in place.
    #[inline]
    pub fn bytes<'pool>(&'pool self, msg: &Message, place: u32) -> Result<&'pool [u8], Refusal> {
        raw::bytes(&self.handle, msg.0, place).map_err(refused)
    }

    /// The bytes of blocks from `from` on, in place. Returns their number.
    #[inline]
    pub fn iov<'pool>(&'pool self, msg: &Message, from: u32, into: &mut [Iov<'pool>]) -> Result<usize, Refusal> {
        stored(|count| raw::iov(&self.handle, msg.0, from, into, count))
    }

    /// The room of a block in place, to write there before `advance`.
    #[inline]
    pub fn room<'pool>(&'pool mut self, msg: &Message, place: u32) -> Result<&'pool mut [u8], Refusal> {
        raw::room(&mut self.handle, msg.0, place).map_err(refused)
    }

    /// The bytes of a block in place, to change them there.
    #[inline]
    pub fn edit<'pool>(&'pool mut self, msg: &Message, place: u32) -> Result<&'pool mut [u8], Refusal> {
        raw::edit(&mut self.handle, msg.0, place).map_err(refused)
    }

    /// The whole data block of a block in place, to write there before `shape`.
    #[inline]
    pub fn window<'pool>(&'pool mut self, msg: &Message, place: u32) -> Result<&'pool mut [u8], Refusal> {
        raw::window(&mut self.handle, msg.0, place).map_err(refused)
    }

    /// The bytes of all data blocks of the size class at a place, and how many bytes each has.
    #[inline]
    pub fn region(&self, place: u32) -> Result<Option<(&[u8], usize)>, Refusal> {
        found(|at| raw::region(&self.handle, place, at))
    }

    /// Writes over bytes of a message, from the byte `at` on.
    #[inline]
    pub fn overwrite(&mut self, msg: &Message, at: u32, bytes: &[u8]) -> Result<(), Refusal> {
        done(raw::overwrite(&mut self.handle, msg.0, at, bytes))
    }

    /// Puts bytes before those of the first block.
    #[inline]
    pub fn prepend(&mut self, msg: &Message, bytes: &[u8]) -> Result<(), Refusal> {
        done(raw::prepend(&mut self.handle, msg.0, bytes))
    }

    /// Gives the first blocks their places, types and bands, one shape each: all or none.
    #[inline]
    pub fn shape_all(&mut self, msg: &Message, shapes: &[BlockShape]) -> Result<(), Refusal> {
        done(raw::shape_all(&mut self.handle, msg.0, shapes))
    }
}

/// Messages joined, parted and trimmed.
impl Pool {
    /// Appends the blocks of `tail`.
    #[inline]
    pub fn linkb(&mut self, msg: &Message, tail: Message) -> Result<(), Rejected> {
        let result = done(raw::strm_linkb(&mut self.handle, msg.0, tail.0));
        handed(tail, result)
    }

    /// Takes a block out of a message. Returns that block and the others.
    #[inline]
    pub fn rmvb(&mut self, msg: Message, place: u32) -> Result<(Message, Option<Message>), Rejected> {
        let mut rest = NO_MSG;
        let block = stored(|block| raw::strm_rmvb(&mut self.handle, msg.0, place, block, &mut rest));
        handed(msg, block.map(|block| (Message(block), some_message(rest))))
    }

    /// Makes the message anew in another pool, and frees it here.
    #[inline]
    pub fn transfer(&mut self, other: &mut Pool, msg: Message) -> Result<Message, Rejected> {
        let moved = stored(|moved| raw::strm_transfer(&mut self.handle, &mut other.handle, msg.0, moved));
        handed(msg, moved.map(Message))
    }
}

/// Queues.
impl Pool {
    /// Puts a message on a queue, by its rank.
    #[inline]
    pub fn putq(&mut self, queue: u32, msg: Message) -> Result<(), Rejected> {
        let result = done(raw::strm_putq(&mut self.handle, queue, msg.0));
        handed(msg, result)
    }

    /// Puts a message back on a queue, before those of its rank.
    #[inline]
    pub fn putbq(&mut self, queue: u32, msg: Message) -> Result<(), Rejected> {
        let result = done(raw::strm_putbq(&mut self.handle, queue, msg.0));
        handed(msg, result)
    }

    /// Puts a message back on a queue, before those of its rank, and enables the queue.
    #[inline]
    pub fn hold(&mut self, queue: u32, msg: Message) -> Result<(), Rejected> {
        let result = done(raw::strm_hold(&mut self.handle, queue, msg.0));
        handed(msg, result)
    }

    /// Puts a message at a place of a queue.
    #[inline]
    pub fn insq(&mut self, queue: u32, place: u32, msg: Message) -> Result<(), Rejected> {
        let result = done(raw::strm_insq(&mut self.handle, queue, place, msg.0));
        handed(msg, result)
    }

    /// Puts a message on a queue before that whose first block is `before`, or last.
    #[inline]
    pub fn insq_at(&mut self, queue: u32, before: Option<u32>, msg: Message) -> Result<(), Rejected> {
        let result = done(raw::strm_insq_at(&mut self.handle, queue, before.unwrap_or(NO_HEAD), msg.0));
        handed(msg, result)
    }

    /// Copies bytes of the message at a place of a queue. Returns their number.
    #[inline]
    pub fn read_queued(&self, queue: u32, place: u32, at: u32, into: &mut [u8]) -> Result<usize, Refusal> {
        stored(|count| raw::read_queued(&self.handle, queue, place, at, into, count))
    }

    /// The bytes of a block of the queued message whose first block is `head`, in place.
    #[inline]
    pub fn queued_bytes(&self, head: u32, place: u32) -> Result<&[u8], Refusal> {
        raw::queued_bytes(&self.handle, head, place).map_err(refused)
    }

    /// The bytes of its blocks from `from` on, in place. Returns their number.
    #[inline]
    pub fn queued_iov<'pool>(&'pool self, head: u32, from: u32, into: &mut [Iov<'pool>]) -> Result<usize, Refusal> {
        stored(|count| raw::queued_iov(&self.handle, head, from, into, count))
    }

    /// Takes up to `count` messages off a queue that `flushq` would free, and appends them. Returns their number.
    #[inline]
    pub fn takeq(&mut self, queue: u32, flush: Flush, count: usize, into: &mut Vec<Message>) -> Result<usize, Refusal> {
        many(into, count, |into, count| raw::takeq(&mut self.handle, queue, flush as u32, into, count))
    }

    /// The same of those of a band that `flushband` would free.
    #[inline]
    pub fn takeq_band(&mut self, queue: u32, band: u32, flush: Flush, count: usize, into: &mut Vec<Message>) -> Result<usize, Refusal> {
        many(into, count, |into, count| raw::takeq_band(&mut self.handle, queue, band, flush as u32, into, count))
    }

    /// Puts messages from the front of `from`, which keeps the others. Returns their number.
    #[inline]
    pub fn putq_n(&mut self, queue: u32, from: &mut Vec<Message>) -> Result<usize, Refusal> {
        all(from, |from, count| raw::putq_n(&mut self.handle, queue, from, count))
    }

    /// Takes up to `count` messages off a queue, and appends them. Returns their number.
    #[inline]
    pub fn getq_n(&mut self, queue: u32, count: usize, into: &mut Vec<Message>) -> Result<usize, Refusal> {
        many(into, count, |into, count| raw::getq_n(&mut self.handle, queue, into, count))
    }
}

/// Flow control, service and wishes.
impl Pool {
    /// Sets the water marks of a band.
    #[inline]
    pub fn strqset(&mut self, queue: u32, band: u32, marks: Marks) -> Result<(), Refusal> {
        done(raw::strm_strqset(&mut self.handle, queue, band, marks.hiwat, marks.lowat))
    }

    /// Serves queues, but for the last `held` ones of the run list, until one gives a message that may go on to its next queue.
    #[inline]
    pub fn serve(&mut self, held: u32) -> Result<Option<(Service, Message)>, Refusal> {
        found(|given: &mut (Service, Name)| raw::strm_serve(&mut self.handle, held, &mut given.0, &mut given.1))
            .map(|given| given.map(|(service, name)| (service, Message(name))))
    }
}

/// What there is.
impl Pool {
    /// The configuration of a queue.
    #[inline]
    pub fn queue_spec(&self, queue: u32) -> Result<QueueSpec, Refusal> {
        let it: raw::QueueSpec = stored(|spec| raw::strm_queue_spec(&self.handle, queue, spec))?;
        let next = (it.next != NO_QUEUE).then_some(it.next);
        Ok(QueueSpec { hiwat: it.hiwat, lowat: it.lowat, service: it.service == 1, next })
    }

    /// The state of a queue.
    #[inline]
    pub fn queue_info(&self, queue: u32) -> Result<QueueInfo, Refusal> {
        let it: raw::QueueInfo = stored(|info| raw::strm_queue_info(&self.handle, queue, info))?;
        Ok(QueueInfo { msgs: it.msgs, bytes: it.bytes, read: it.read == 1, noenable: it.noenable == 1, enabled: it.enabled == 1 })
    }

    /// The state of a band of a queue.
    #[inline]
    pub fn band_info(&self, queue: u32, band: u32) -> Result<BandInfo, Refusal> {
        let it: raw::BandInfo = stored(|info| raw::strm_band_info(&self.handle, queue, band, info))?;
        Ok(BandInfo { bytes: it.bytes, full: it.full == 1, wanted: it.wanted == 1 })
    }

    /// The report that the program strm prints of a pool.
    pub fn report(&self) -> String {
        raw::report(&self.handle)
    }
}

/// Walks.
impl Pool {
    /// The blocks of a message, with their bytes in place. There are none if the pool does not have the message.
    pub fn blocks<'pool>(&'pool self, msg: &Message) -> Blocks<'pool> {
        Blocks { pool: self, name: msg.0, place: 0 }
    }

    /// The messages on a queue. There are none if the pool does not have the queue.
    pub fn queued(&self, queue: u32) -> impl Iterator<Item = Queued> + '_ {
        (0..).map_while(move |place| self.queued_at(queue, place).ok())
    }

    /// The names of all held messages. If the program holds no message, each of these was dropped: it leaked.
    pub fn leaked(&self) -> impl Iterator<Item = Name> + '_ {
        let census = self.census().unwrap_or_default();
        (0..census.free + census.queued + census.held).filter_map(|head| self.name_at(head).ok().flatten())
    }
}

/// The blocks of a message, with their bytes in place.
#[derive(Clone, Debug)]
pub struct Blocks<'pool> {
    pool: &'pool Pool,
    name: Name,
    place: u32,
}

impl<'pool> Iterator for Blocks<'pool> {
    type Item = (BlockInfo, &'pool [u8]);

    fn next(&mut self) -> Option<Self::Item> {
        let msg = Message(self.name);
        let item = self.pool.block(&msg, self.place).ok().zip(self.pool.bytes(&msg, self.place).ok());
        self.place += u32::from(item.is_some());
        item
    }
}

/// A message with its pool, which frees the message when it is dropped.
#[derive(Debug)]
pub struct Guard<'pool> {
    pool: &'pool mut Pool,
    message: Option<Message>,
}

impl Guard<'_> {
    /// Has a call use the message.
    pub fn with<T>(&mut self, call: impl FnOnce(&mut Pool, &Message) -> T) -> T {
        call(self.pool, self.message.as_ref().unwrap_or(&Message(NO_MSG)))
    }

    /// Puts the message on a queue. If that is refused, the message is freed.
    pub fn putq(mut self, queue: u32) -> Result<(), Refusal> {
        match self.message.take() {
            Some(message) => self.pool.putq(queue, message).map_err(|rejected| {
                self.message = Some(rejected.message);
                rejected.why
            }),
            None => Err(Refusal::Invalid),
        }
    }

    /// The message, which is no longer freed.
    pub fn keep(mut self) -> Message {
        self.message.take().unwrap_or(Message(NO_MSG))
    }
}

impl Drop for Guard<'_> {
    fn drop(&mut self) {
        if let Some(message) = self.message.take() {
            // A message that the pool does not have needs no freeing.
            let _ = self.pool.freemsg(message);
        }
    }
}

/// Messages as streams of bytes.
#[cfg(feature = "std")]
mod streams {
    use std::io::{Error, ErrorKind, IoSlice, Read, Result, Write};
    use std::vec::Vec;

    use crate::{Message, Pool, Refusal};

    impl From<Refusal> for Error {
        fn from(why: Refusal) -> Error {
            let kind = match why {
                Refusal::NoRoom => ErrorKind::WriteZero,
                Refusal::NoMemory => ErrorKind::OutOfMemory,
                _ => ErrorKind::InvalidInput,
            };
            Error::new(kind, why)
        }
    }

    /// Reads the bytes of a message.
    #[derive(Clone, Debug)]
    pub struct Reader<'pool> {
        pool: &'pool Pool,
        msg: &'pool Message,
        at: u32,
    }

    impl Read for Reader<'_> {
        fn read(&mut self, into: &mut [u8]) -> Result<usize> {
            let count = self.pool.read(self.msg, self.at, into)?;
            self.at += count as u32;
            Ok(count)
        }
    }

    /// Appends bytes to a block, as long as its data block has room.
    #[derive(Debug)]
    pub struct Writer<'pool> {
        pool: &'pool mut Pool,
        msg: &'pool Message,
        place: u32,
    }

    impl Write for Writer<'_> {
        fn write(&mut self, bytes: &[u8]) -> Result<usize> {
            let room = self.pool.block(self.msg, self.place)?.room as usize;
            let count = room.min(bytes.len());
            self.pool.write(self.msg, self.place, &bytes[..count])?;
            Ok(count)
        }

        fn flush(&mut self) -> Result<()> {
            Ok(())
        }
    }

    /// Messages as streams of bytes.
    impl Pool {
        /// Reads a message.
        pub fn reader<'pool>(&'pool self, msg: &'pool Message) -> Reader<'pool> {
            Reader { pool: self, msg, at: 0 }
        }

        /// Appends to a block of a message.
        pub fn writer<'pool>(&'pool mut self, msg: &'pool Message, place: u32) -> Writer<'pool> {
            Writer { pool: self, msg, place }
        }

        /// The bytes of all blocks in place, as `write_vectored` takes them.
        pub fn io_slices(&self, msg: &Message) -> Vec<IoSlice<'_>> {
            self.blocks(msg).map(|(_, bytes)| IoSlice::new(bytes)).collect()
        }
    }
}

#[cfg(feature = "std")]
pub use streams::{Reader, Writer};
