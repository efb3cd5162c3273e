//! The calls of strm.h and strm_mt.h, the methods that only pass on their arguments, and all unsafe code of the crate. Tested, not proved.
//!
//! A `safe fn` or a row of `calls!` below keeps each promise of strm.h by its types: a reference leads to one object, which nothing else writes
//! during the call; a look takes `&Handle`, and any other call `&mut Handle`. Only `open` and `Pool::from_handle` make a handle that is not
//! closed, and no handle is copied.

use alloc::{string::String, vec};
use core::ffi::{c_char, c_int, c_void, CStr};
use core::marker::PhantomData;
use core::ops::Deref;
use core::slice;

use crate::{done, found, stored, BlockInfo, BlockPlace, BlockShape, Census, ClassInfo, ClassSpec, Config, Flush, Marks, Message, MsgType};
use crate::{Name, Pool, Queued, Refusal, Service, Wish};

/// A pool's handle, as `struct strm_pool` of strm.h.
#[derive(Debug)]
#[repr(C)]
pub struct Handle {
    /// The pool.
    pub at: *mut c_void,
    /// `STRM_POOL_OPEN`, if the handle is open.
    pub state: usize,
}

// SAFETY: a pool is memory of malloc, which is tied to no thread.
unsafe impl Send for Handle {}
// SAFETY: by `&Handle` there are only looks, and strm.h lets these run at the same time.
unsafe impl Sync for Handle {}

impl Handle {
    pub(crate) const CLOSED: Handle = Handle { at: core::ptr::null_mut(), state: 0 };
}

/// Bytes of a message block in place, as a slice.
#[derive(Clone, Copy, Debug)]
#[repr(C)]
pub struct Iov<'pool> {
    base: *const u8,
    length: usize,
    of: PhantomData<&'pool [u8]>,
}

// SAFETY: it is a shared slice.
unsafe impl Send for Iov<'_> {}
// SAFETY: it is a shared slice.
unsafe impl Sync for Iov<'_> {}

impl Default for Iov<'_> {
    fn default() -> Self {
        let none: &[u8] = &[];
        Iov { base: none.as_ptr(), length: 0, of: PhantomData }
    }
}

impl Deref for Iov<'_> {
    type Target = [u8];

    fn deref(&self) -> &[u8] {
        // SAFETY: only `default`, `strm_iov` and `strm_queued_iov` make one. The bytes stay until a call by `&mut Pool`, which `'pool` excludes.
        unsafe { slice::from_raw_parts(self.base, self.length) }
    }
}

#[derive(Clone, Copy, Default)]
#[repr(C)]
pub(crate) struct QueueSpec {
    pub hiwat: u32,
    pub lowat: u32,
    pub service: u32,
    pub next: u32,
}

#[derive(Default)]
#[repr(C)]
pub(crate) struct QueueInfo {
    pub msgs: u32,
    pub bytes: u32,
    pub read: u32,
    pub noenable: u32,
    pub enabled: u32,
}

#[derive(Default)]
#[repr(C)]
pub(crate) struct BandInfo {
    pub bytes: u32,
    pub full: u32,
    pub wanted: u32,
}

/// Where a pool's memory is, as `struct strm_allocator` of strm.h.
#[derive(Clone, Copy, Debug)]
#[repr(C)]
pub struct Allocator {
    /// Returns the address of `bytes` bytes at a multiple of `align`, or null.
    pub allocate: unsafe extern "C" fn(context: *mut c_void, bytes: usize, align: usize) -> *mut c_void,
    /// Takes back what `allocate` returned.
    pub release: unsafe extern "C" fn(context: *mut c_void, at: *mut c_void, bytes: usize),
    /// Passed to both.
    pub context: *mut c_void,
}

#[repr(C)]
pub(crate) struct RawConfig {
    id: u32,
    mblks: u32,
    classes: *const ClassSpec,
    class_count: usize,
    queues: *const QueueSpec,
    queue_count: usize,
    bufcalls: u32,
    first_id: u32,
}

// SAFETY: these are the declarations of strm.h.
unsafe extern "C" {
    fn strm_open(pool: &mut Handle, config: &RawConfig) -> c_int;
    fn strm_open_with(pool: &mut Handle, config: &RawConfig, allocator: &Allocator) -> c_int;
    fn strm_memory(config: &RawConfig, bytes: &mut usize) -> c_int;
    pub(crate) safe fn strm_close(pool: &mut Handle) -> c_int;
    pub(crate) safe fn strm_is_open(pool: &Handle) -> c_int;
    pub(crate) safe fn strm_freeb(pool: &mut Handle, msg: Name, rest: &mut Name) -> c_int;
    pub(crate) safe fn strm_freemsg(pool: &mut Handle, msg: Name) -> c_int;
    fn strm_write(pool: &mut Handle, msg: Name, place: u32, bytes: *const c_void, length: usize) -> c_int;
    fn strm_read(pool: &Handle, msg: Name, at: u32, into: *mut c_void, length: usize, count: &mut usize) -> c_int;
    fn strm_blocks(pool: &Handle, msg: Name, from: u32, into: *mut BlockInfo, length: usize, count: &mut usize) -> c_int;
    fn strm_bytes(pool: &Handle, msg: Name, place: u32, bytes: &mut *const u8, length: &mut usize) -> c_int;
    fn strm_iov(pool: &Handle, msg: Name, from: u32, into: *mut Iov<'_>, length: usize, count: &mut usize) -> c_int;
    fn strm_room(pool: &mut Handle, msg: Name, place: u32, at: &mut *mut u8, length: &mut usize) -> c_int;
    fn strm_edit(pool: &mut Handle, msg: Name, place: u32, at: &mut *mut u8, length: &mut usize) -> c_int;
    fn strm_window(pool: &mut Handle, msg: Name, place: u32, base: &mut *mut u8, capacity: &mut usize) -> c_int;
    fn strm_region(pool: &Handle, place: u32, base: &mut *const u8, size: &mut usize, stride: &mut usize) -> c_int;
    fn strm_overwrite(pool: &mut Handle, msg: Name, at: u32, bytes: *const c_void, length: usize) -> c_int;
    fn strm_prepend(pool: &mut Handle, msg: Name, bytes: *const c_void, length: usize) -> c_int;
    fn strm_shape_all(pool: &mut Handle, msg: Name, shapes: *const BlockShape, length: usize) -> c_int;
    pub(crate) safe fn strm_same_msg(a: Name, b: Name) -> c_int;
    pub(crate) safe fn strm_is_no_msg(msg: Name) -> c_int;
    pub(crate) safe fn strm_linkb(pool: &mut Handle, msg: Name, tail: Name) -> c_int;
    pub(crate) safe fn strm_rmvb(pool: &mut Handle, msg: Name, place: u32, block: &mut Name, rest: &mut Name) -> c_int;
    pub(crate) safe fn strm_transfer(pool: &mut Handle, other: &mut Handle, msg: Name, moved: &mut Name) -> c_int;
    pub(crate) safe fn strm_putq(pool: &mut Handle, queue: u32, msg: Name) -> c_int;
    pub(crate) safe fn strm_putbq(pool: &mut Handle, queue: u32, msg: Name) -> c_int;
    pub(crate) safe fn strm_hold(pool: &mut Handle, queue: u32, msg: Name) -> c_int;
    pub(crate) safe fn strm_serve(pool: &mut Handle, held: u32, service: &mut Service, msg: &mut Name) -> c_int;
    pub(crate) safe fn strm_insq(pool: &mut Handle, queue: u32, place: u32, msg: Name) -> c_int;
    pub(crate) safe fn strm_insq_at(pool: &mut Handle, queue: u32, before: u32, msg: Name) -> c_int;
    fn strm_read_queued(pool: &Handle, queue: u32, place: u32, at: u32, into: *mut c_void, length: usize, count: &mut usize) -> c_int;
    fn strm_queued_bytes(pool: &Handle, head: u32, place: u32, bytes: &mut *const u8, length: &mut usize) -> c_int;
    fn strm_queued_iov(pool: &Handle, head: u32, from: u32, into: *mut Iov<'_>, length: usize, count: &mut usize) -> c_int;
    fn strm_takeq(pool: &mut Handle, queue: u32, flush: u32, msgs: *mut Message, length: usize, count: &mut usize) -> c_int;
    fn strm_takeq_band(pool: &mut Handle, queue: u32, band: u32, flush: u32, msgs: *mut Message, length: usize, count: &mut usize) -> c_int;
    fn strm_allocb_n(pool: &mut Handle, size: u32, msgs: *mut Message, length: usize, count: &mut usize) -> c_int;
    fn strm_freemsg_n(pool: &mut Handle, msgs: *const Message, length: usize, count: &mut usize) -> c_int;
    fn strm_putq_n(pool: &mut Handle, queue: u32, msgs: *const Message, length: usize, count: &mut usize) -> c_int;
    fn strm_getq_n(pool: &mut Handle, queue: u32, msgs: *mut Message, length: usize, count: &mut usize) -> c_int;
    pub(crate) safe fn strm_strqset(pool: &mut Handle, queue: u32, band: u32, hiwat: u32, lowat: u32) -> c_int;
    pub(crate) safe fn strm_queue_spec(pool: &Handle, queue: u32, spec: &mut QueueSpec) -> c_int;
    pub(crate) safe fn strm_queue_info(pool: &Handle, queue: u32, info: &mut QueueInfo) -> c_int;
    pub(crate) safe fn strm_band_info(pool: &Handle, queue: u32, band: u32, info: &mut BandInfo) -> c_int;
    fn strm_report(pool: &Handle, text: *mut c_char, length: usize) -> usize;
    safe fn strm_error(code: c_int) -> *const c_char;
    fn strm_name(code: c_int, text: *mut c_char, length: usize) -> usize;
    fn strm_version(text: *mut c_char, length: usize) -> usize;
}

/// A type of a method's parameter, with that of strm.h.
pub(crate) trait Argument {
    type InC;
    fn in_c(self) -> Self::InC;
}

/// A type that a method returns, with that which strm.h stores.
pub(crate) trait Answer: Sized {
    type InC: Default;
    fn of(stored: Self::InC) -> Self;

    /// What a call stores. `STRM_NONE` is `None`.
    #[inline]
    fn made(call: impl FnOnce(&mut Self::InC) -> c_int) -> Result<Self, Refusal> {
        stored(call).map(Self::of)
    }
}

impl<T: Answer> Answer for Option<T> {
    type InC = T::InC;

    #[inline]
    fn of(stored: T::InC) -> Self {
        Some(T::of(stored))
    }

    #[inline]
    fn made(call: impl FnOnce(&mut T::InC) -> c_int) -> Result<Self, Refusal> {
        found(call).map(|it| it.map(T::of))
    }
}

macro_rules! types {
    (arguments: $($kind:ty as $in_c:ty = $of:expr;)*) => {
        $(impl Argument for $kind {
            type InC = $in_c;

            #[inline]
            fn in_c(self) -> $in_c {
                let in_c: fn($kind) -> $in_c = $of;
                in_c(self)
            }
        })*
    };
    (answers: $($kind:ty as $in_c:ty = $of:expr;)*) => {
        $(impl Answer for $kind {
            type InC = $in_c;

            #[inline]
            fn of(stored: $in_c) -> $kind {
                let of: fn($in_c) -> $kind = $of;
                of(stored)
            }
        })*
    };
    (numbers: $($kind:ty)*) => {
        types! { answers: $($kind as $kind = |stored| stored;)* }
    };
}

types! { arguments:
    u32 as u32 = |it| it;
    i32 as i32 = |it| it;
    MsgType as u32 = |it| it.0;
    Flush as u32 = |it| it as u32;
    &Message as Name = |it| it.0;
}

types! { answers:
    bool as u32 = |yes| yes == 1;
    Message as Name = Message;
}

types! { numbers: u32 Name Queued BlockInfo BlockPlace Marks Census ClassInfo Wish }

/// Declares calls of strm.h, and makes the methods that pass their arguments on to them. A row begins with `look` if its call takes the handle to
/// read it, and otherwise with `call`. It ends with what the call stores.
macro_rules! calls {
    ($($(#[$section:meta])* impl Pool { $(
        $(#[$doc:meta])* $kind:ident $name:ident($($of:ident: $type:ty),*) $(-> $stored:ident: $answer:ty)?;
    )* })*) => {
        pub(crate) mod strm {
            use super::*;

            // SAFETY: these are the declarations of strm.h.
            unsafe extern "C" {
                $($(
                    #[link_name = concat!("strm_", stringify!($name))]
                    pub(crate) safe fn $name(
                        pool: handle!($kind) $(, $of: <$type as Argument>::InC)* $(, $stored: &mut <$answer as Answer>::InC)?
                    ) -> c_int;
                )*)*
            }
        }

        $(
            $(#[$section])*
            impl Pool {
                $(method! { $(#[$doc])* $kind $name($($of: $type),*) $($answer)? })*
            }
        )*
    };
}

macro_rules! handle {
    (look) => { &Handle };
    (call) => { &mut Handle };
}

macro_rules! method {
    ($(#[$doc:meta])* look $name:ident($($of:ident: $type:ty),*) $answer:ty) => {
        $(#[$doc])*
        #[inline]
        pub fn $name(&self $(, $of: $type)*) -> Result<$answer, Refusal> {
            Answer::made(|stored| strm::$name(&self.handle $(, $of.in_c())*, stored))
        }
    };
    ($(#[$doc:meta])* call $name:ident($($of:ident: $type:ty),*) $answer:ty) => {
        $(#[$doc])*
        #[inline]
        pub fn $name(&mut self $(, $of: $type)*) -> Result<$answer, Refusal> {
            Answer::made(|stored| strm::$name(&mut self.handle $(, $of.in_c())*, stored))
        }
    };
    ($(#[$doc:meta])* call $name:ident($($of:ident: $type:ty),*)) => {
        $(#[$doc])*
        #[inline]
        pub fn $name(&mut self $(, $of: $type)*) -> Result<(), Refusal> {
            done(strm::$name(&mut self.handle $(, $of.in_c())*))
        }
    };
}

calls! {
    /// Messages, made and freed.
    impl Pool {
        /// Allocates a message of one block with a data block of `size` bytes or more.
        call allocb(size: u32) -> msg: Message;

        /// Whether `allocb` of this size would succeed now.
        look testb(size: u32) -> yes: bool;

        /// Duplicates the first block.
        call dupb(msg: &Message) -> copy: Message;

        /// Duplicates all blocks.
        call dupmsg(msg: &Message) -> copy: Message;

        /// Copies the first block.
        call copyb(msg: &Message) -> copy: Message;

        /// Copies all blocks.
        call copymsg(msg: &Message) -> copy: Message;
    }

    /// Bytes and fields of a message.
    impl Pool {
        /// Sets the type of a block.
        call settype(msg: &Message, place: u32, r#type: MsgType);

        /// Sets the band of a message.
        call setband(msg: &Message, band: u32);

        /// Counts the bytes of a message.
        look size(msg: &Message) -> bytes: u32;

        /// Counts the bytes in blocks of type `DATA`.
        look msgdsize(msg: &Message) -> bytes: u32;

        /// What a message is like.
        look message(msg: &Message) -> info: Queued;

        /// The fields of a block.
        look block(msg: &Message, place: u32) -> block: BlockInfo;

        /// The number of a block, among all message blocks of the pool.
        look block_number(msg: &Message, place: u32) -> number: u32;

        /// Whether the pool has the message.
        look has(msg: &Message) -> yes: bool;

        /// The name of the held message whose first block has the number `head`.
        look name_at(head: u32) -> msg: Option<Name>;

        /// The data block of a block, and where its bytes are.
        look place(msg: &Message, place: u32) -> r#where: BlockPlace;

        /// Makes headroom in a block without bytes.
        call reserve(msg: &Message, place: u32, count: u32);

        /// Moves the write place of a block past bytes that its data block has.
        call advance(msg: &Message, place: u32, count: u32);

        /// Makes `length` bytes of a block's data block, from `at` on, those of the block.
        call shape(msg: &Message, place: u32, at: u32, length: u32);
    }

    /// Messages joined, parted and trimmed.
    impl Pool {
        /// Leaves only the first block in a message, and returns the others.
        call unlinkb(msg: &Message) -> rest: Option<Message>;

        /// Trims bytes from the head of a message, or if `count` is negative from its tail.
        call adjmsg(msg: &Message, count: i32);

        /// Gathers the first `count` bytes in the first block; -1 means all of one type.
        call pullupmsg(msg: &Message, count: i32);
    }

    /// Queues.
    impl Pool {
        /// Takes the first message off a queue.
        call getq(queue: u32) -> msg: Option<Message>;

        /// Takes the message at a place off a queue.
        call rmvq(queue: u32, place: u32) -> msg: Message;

        /// Takes the message whose first block is `head` off its queue.
        call rmvq_msg(head: u32) -> msg: Message;

        /// Counts the messages on a queue.
        look qsize(queue: u32) -> msgs: u32;

        /// What the message at a place of a queue is like.
        look queued_at(queue: u32, place: u32) -> queued: Queued;

        /// The number of the first block of the first message on a queue.
        look first_queued(queue: u32) -> head: Option<u32>;

        /// The same of the last message.
        look last_queued(queue: u32) -> head: Option<u32>;

        /// The same of the message after that whose first block is `head`.
        look queued_after(head: u32) -> after: Option<u32>;

        /// The same of the message before that whose first block is `head`.
        look queued_before(head: u32) -> before: Option<u32>;

        /// The queue that has the message whose first block is `head`.
        look queue_of(head: u32) -> queue: u32;

        /// Frees messages of a queue.
        call flushq(queue: u32, flush: Flush);

        /// Frees messages of a band of a queue.
        call flushband(queue: u32, band: u32, flush: Flush);
    }

    /// Flow control, service and wishes.
    impl Pool {
        /// Whether a message of a band may be sent to a queue.
        call bcanput(queue: u32, band: u32) -> yes: bool;

        /// The water marks of a band.
        look strqget(queue: u32, band: u32) -> marks: Marks;

        /// Enables a queue, even if enabling is off.
        call qenable(queue: u32);

        /// Switches enabling off.
        call noenable(queue: u32);

        /// Switches enabling on.
        call enableok(queue: u32);

        /// Takes the first queue off the run list.
        call next_service() -> queue: Option<u32>;

        /// The queue at a place of the run list.
        look run_at(place: u32) -> queue: Option<u32>;

        /// Records a wish for a message of `size` bytes. Returns its id.
        call bufcall(size: u32) -> id: u32;

        /// Withdraws a wish.
        call unbufcall(id: u32);

        /// Removes the oldest wish that can be granted now.
        call take_ready() -> wish: Option<Wish>;

        /// The wish at a place, the oldest first.
        look wish_at(place: u32) -> wish: Option<Wish>;
    }

    /// What there is.
    impl Pool {
        /// Counts the message blocks: free, on queues, and held.
        look census() -> census: Census;

        /// The size class at a place.
        look class_info(place: u32) -> info: Option<ClassInfo>;

        /// The fewest message blocks that were free.
        look least_free_blocks() -> fewest: u32;

        /// The same of the data blocks of the size class at a place.
        look least_free(place: u32) -> fewest: Option<u32>;

        /// Makes those that are free now the fewest.
        call reset_least();
    }
}

/// Has a call read a configuration.
pub(crate) fn with_config(config: &Config, call: impl FnOnce(&RawConfig) -> c_int) -> c_int {
    let mut queues = [QueueSpec::default(); 16];
    for (into, from) in queues.iter_mut().zip(config.queues) {
        *into = (*from).into();
    }
    call(&RawConfig {
        id: config.id,
        mblks: config.mblks,
        classes: config.classes.as_ptr(),
        class_count: config.classes.len(),
        queues: queues.as_ptr(),
        queue_count: config.queues.len(),
        bufcalls: config.bufcalls,
        first_id: config.first_id,
    })
}

pub(crate) fn open(handle: &mut Handle, config: &Config) -> c_int {
    // SAFETY: the arrays have as many items as their counts say; strm_open refuses more than 16 queues before it reads them.
    with_config(config, |raw| unsafe { strm_open(handle, raw) })
}

pub(crate) fn memory(config: &Config, bytes: &mut usize) -> c_int {
    // SAFETY: as in `open`.
    with_config(config, |raw| unsafe { strm_memory(raw, bytes) })
}

#[inline]
pub(crate) fn write(pool: &mut Handle, msg: Name, place: u32, bytes: &[u8]) -> c_int {
    // SAFETY: the pointer and the length are those of a slice. It is none of this pool, since `&mut Handle` ends all slices of `bytes`.
    unsafe { strm_write(pool, msg, place, bytes.as_ptr().cast(), bytes.len()) }
}

#[inline]
pub(crate) fn overwrite(pool: &mut Handle, msg: Name, at: u32, bytes: &[u8]) -> c_int {
    // SAFETY: as in `write`.
    unsafe { strm_overwrite(pool, msg, at, bytes.as_ptr().cast(), bytes.len()) }
}

#[inline]
pub(crate) fn prepend(pool: &mut Handle, msg: Name, bytes: &[u8]) -> c_int {
    // SAFETY: as in `write`.
    unsafe { strm_prepend(pool, msg, bytes.as_ptr().cast(), bytes.len()) }
}

#[inline]
pub(crate) fn shape_all(pool: &mut Handle, msg: Name, shapes: &[BlockShape]) -> c_int {
    // SAFETY: the pointer and the length are those of a slice.
    unsafe { strm_shape_all(pool, msg, shapes.as_ptr(), shapes.len()) }
}

#[inline]
pub(crate) fn read(pool: &Handle, msg: Name, at: u32, into: &mut [u8], count: &mut usize) -> c_int {
    // SAFETY: the pointer and the length are those of a slice that nothing else uses.
    unsafe { strm_read(pool, msg, at, into.as_mut_ptr().cast(), into.len(), count) }
}

#[inline]
pub(crate) fn read_queued(pool: &Handle, queue: u32, place: u32, at: u32, into: &mut [u8], count: &mut usize) -> c_int {
    // SAFETY: as in `read`.
    unsafe { strm_read_queued(pool, queue, place, at, into.as_mut_ptr().cast(), into.len(), count) }
}

#[inline]
pub(crate) fn blocks(pool: &Handle, msg: Name, from: u32, into: &mut [BlockInfo], count: &mut usize) -> c_int {
    // SAFETY: as in `read`; the call stores numbers only.
    unsafe { strm_blocks(pool, msg, from, into.as_mut_ptr(), into.len(), count) }
}

#[inline]
pub(crate) fn iov<'pool>(pool: &'pool Handle, msg: Name, from: u32, into: &mut [Iov<'pool>], count: &mut usize) -> c_int {
    // SAFETY: as in `read`; what the call stores are bytes of the pool, which stay for `'pool`.
    unsafe { strm_iov(pool, msg, from, into.as_mut_ptr(), into.len(), count) }
}

#[inline]
pub(crate) fn queued_iov<'pool>(pool: &'pool Handle, head: u32, from: u32, into: &mut [Iov<'pool>], count: &mut usize) -> c_int {
    // SAFETY: as in `iov`.
    unsafe { strm_queued_iov(pool, head, from, into.as_mut_ptr(), into.len(), count) }
}

/// The bytes that a look finds in place. They are the pool's until the next call by `&mut Handle`, as strm.h says.
#[inline]
fn readable(pool: &Handle, look: impl FnOnce(&Handle, &mut *const u8, &mut usize) -> c_int) -> Result<&[u8], c_int> {
    let (mut first, mut length) = (core::ptr::null(), 0);
    match look(pool, &mut first, &mut length) {
        // SAFETY: the look was done, so the pointer is not null and leads to that many bytes, which no look changes.
        0 => Ok(unsafe { slice::from_raw_parts(first, length) }),
        code => Err(code),
    }
}

#[inline]
pub(crate) fn bytes(pool: &Handle, msg: Name, place: u32) -> Result<&[u8], c_int> {
    // SAFETY: both places are variables.
    readable(pool, |pool, first, length| unsafe { strm_bytes(pool, msg, place, first, length) })
}

#[inline]
pub(crate) fn queued_bytes(pool: &Handle, head: u32, place: u32) -> Result<&[u8], c_int> {
    // SAFETY: as in `bytes`.
    readable(pool, |pool, first, length| unsafe { strm_queued_bytes(pool, head, place, first, length) })
}

/// What `strm_room` and the like find: bytes of the pool that are this slice's until the next call by `&Handle` or `&mut Handle`.
#[inline]
fn writable(pool: &mut Handle, call: impl FnOnce(&mut Handle, &mut *mut u8, &mut usize) -> c_int) -> Result<&mut [u8], c_int> {
    let (mut first, mut length) = (core::ptr::null_mut(), 0);
    match call(pool, &mut first, &mut length) {
        // SAFETY: the call was done, so the pointer is not null and leads to that many bytes. No other block refers to them, and the pool is lent.
        0 => Ok(unsafe { slice::from_raw_parts_mut(first, length) }),
        code => Err(code),
    }
}

#[inline]
pub(crate) fn room(pool: &mut Handle, msg: Name, place: u32) -> Result<&mut [u8], c_int> {
    // SAFETY: both places are variables.
    writable(pool, |pool, first, length| unsafe { strm_room(pool, msg, place, first, length) })
}

#[inline]
pub(crate) fn edit(pool: &mut Handle, msg: Name, place: u32) -> Result<&mut [u8], c_int> {
    // SAFETY: as in `room`.
    writable(pool, |pool, first, length| unsafe { strm_edit(pool, msg, place, first, length) })
}

#[inline]
pub(crate) fn window(pool: &mut Handle, msg: Name, place: u32) -> Result<&mut [u8], c_int> {
    // SAFETY: as in `room`.
    writable(pool, |pool, first, length| unsafe { strm_window(pool, msg, place, first, length) })
}

/// The data blocks of a size class. They are lent as by `readable`.
pub(crate) fn region<'pool>(pool: &'pool Handle, place: u32, at: &mut (&'pool [u8], usize)) -> c_int {
    let (mut base, mut size) = (core::ptr::null(), 0);
    // SAFETY: all places are variables.
    let code = unsafe { strm_region(pool, place, &mut base, &mut size, &mut at.1) };
    if code == 0 {
        // SAFETY: as in `readable`.
        at.0 = unsafe { slice::from_raw_parts(base, size) };
    }
    code
}

#[inline]
pub(crate) fn allocb_n(pool: &mut Handle, size: u32, into: &mut [Message], count: &mut usize) -> c_int {
    // SAFETY: as in `read`; a message is a name.
    unsafe { strm_allocb_n(pool, size, into.as_mut_ptr(), into.len(), count) }
}

#[inline]
pub(crate) fn getq_n(pool: &mut Handle, queue: u32, into: &mut [Message], count: &mut usize) -> c_int {
    // SAFETY: as in `read`; a message is a name.
    unsafe { strm_getq_n(pool, queue, into.as_mut_ptr(), into.len(), count) }
}

#[inline]
pub(crate) fn takeq(pool: &mut Handle, queue: u32, flush: u32, into: &mut [Message], count: &mut usize) -> c_int {
    // SAFETY: as in `read`; a message is a name.
    unsafe { strm_takeq(pool, queue, flush, into.as_mut_ptr(), into.len(), count) }
}

#[inline]
pub(crate) fn takeq_band(pool: &mut Handle, queue: u32, band: u32, flush: u32, into: &mut [Message], count: &mut usize) -> c_int {
    // SAFETY: as in `read`; a message is a name.
    unsafe { strm_takeq_band(pool, queue, band, flush, into.as_mut_ptr(), into.len(), count) }
}

#[inline]
pub(crate) fn freemsg_n(pool: &mut Handle, from: &[Message], count: &mut usize) -> c_int {
    // SAFETY: as in `write`; a message is a name.
    unsafe { strm_freemsg_n(pool, from.as_ptr(), from.len(), count) }
}

#[inline]
pub(crate) fn putq_n(pool: &mut Handle, queue: u32, from: &[Message], count: &mut usize) -> c_int {
    // SAFETY: as in `write`; a message is a name.
    unsafe { strm_putq_n(pool, queue, from.as_ptr(), from.len(), count) }
}

/// The report of a pool.
pub(crate) fn report(pool: &Handle) -> String {
    // SAFETY: no byte is written to an array of length 0.
    let length = unsafe { strm_report(pool, core::ptr::null_mut(), 0) };
    let mut text = vec![0; length + 1];
    // SAFETY: the pointer and the length are those of the vector.
    unsafe { strm_report(pool, text.as_mut_ptr().cast(), text.len()) };
    text.truncate(length);
    String::from_utf8(text).unwrap_or_default()
}

/// The text of a code.
pub(crate) fn text_of(code: c_int) -> &'static str {
    // SAFETY: the text ends with a 0, and stays as long as the library is loaded.
    unsafe { CStr::from_ptr(strm_error(code)) }.to_str().unwrap_or("")
}

/// The name of a code, in the buffer.
pub(crate) fn name_of(code: c_int, text: &mut [u8; 32]) -> &str {
    // SAFETY: the pointer and the length are those of the buffer.
    let length = unsafe { strm_name(code, text.as_mut_ptr().cast(), text.len()) };
    core::str::from_utf8(&text[..length]).unwrap_or("")
}

/// The version of the library, in the buffer.
pub(crate) fn version(text: &mut [u8; 32]) -> &str {
    // SAFETY: the pointer and the length are those of the buffer.
    let length = unsafe { strm_version(text.as_mut_ptr().cast(), text.len()) };
    core::str::from_utf8(&text[..length]).unwrap_or("")
}

impl Pool {
    /// strm_open_with
    ///
    /// ```
    /// use std::alloc::{alloc, dealloc, Layout};
    /// use std::ffi::c_void;
    /// # use strm::{Allocator, ClassSpec, Config, Pool, QueueSpec};
    ///
    /// unsafe extern "C" fn allocate(_: *mut c_void, bytes: usize, align: usize) -> *mut c_void {
    ///     alloc(Layout::from_size_align(bytes, align).unwrap()).cast()
    /// }
    ///
    /// unsafe extern "C" fn release(_: *mut c_void, at: *mut c_void, bytes: usize) {
    ///     dealloc(at.cast(), Layout::from_size_align(bytes, 16).unwrap());
    /// }
    ///
    /// let config = Config {
    ///     mblks: 4,
    ///     classes: &[ClassSpec { size: 16, count: 2 }],
    ///     queues: &[QueueSpec::default()],
    ///     ..Config::default()
    /// };
    /// let allocator = Allocator { allocate, release, context: std::ptr::null_mut() };
    /// let mut pool = unsafe { Pool::open_with(&config, &allocator) }.unwrap();
    /// assert!(pool.allocb(4).is_ok());
    /// ```
    ///
    /// # Safety
    ///
    /// The functions do what strm.h says, on any thread, as long as the pool is there.
    pub unsafe fn open_with(config: &Config<'_>, allocator: &Allocator) -> Result<Pool, Refusal> {
        let mut handle = Handle::CLOSED;
        // SAFETY: as in `open`; the caller speaks for the allocator.
        let code = with_config(config, |raw| unsafe { strm_open_with(&mut handle, raw, allocator) });
        Refusal::of(code).map_or(Ok(Pool { handle }), Err)
    }

    /// Takes over a handle that C opened, or returns `None` if it is not open.
    ///
    /// # Safety
    ///
    /// The handle was not changed since strm_open, and is used nowhere else from now on.
    pub unsafe fn from_handle(handle: Handle) -> Option<Pool> {
        (strm_is_open(&handle) == 1).then_some(Pool { handle })
    }
}

/// What channels are over: a pool of strm_mt.h, with its lock.
#[cfg(feature = "channel")]
pub(crate) mod mt {
    use core::ffi::{c_int, c_long};
    use core::ops::Deref;

    use super::{with_config, Config, Handle, Name, RawConfig};

    /// `struct timespec`: seconds and nanoseconds.
    #[repr(C)]
    pub(crate) struct Time(pub i64, pub c_long);

    /// `struct strm_mt`, whose fields are C's alone.
    #[derive(Debug)]
    #[repr(C)]
    pub(crate) struct Mt {
        _fields: [u8; 0],
    }

    /// A pool that is open until this is dropped.
    #[derive(Debug)]
    pub(crate) struct Open(*mut Mt);

    // SAFETY: these are the declarations of strm_mt.h and time.h. An `&Mt` leads to an open pool, and strm_mt.h has any thread make the `safe` calls.
    unsafe extern "C" {
        fn strm_mt_open(mt: &mut *mut Mt, config: &RawConfig) -> c_int;
        fn strm_mt_close(mt: *mut Mt) -> c_int;
        fn strm_mt_lock(mt: &Mt) -> *mut Handle;
        fn strm_mt_unlock(mt: &Mt);
        pub(crate) safe fn strm_mt_alloc(mt: &Mt, size: u32, msg: &mut Name, deadline: Option<&Time>) -> c_int;
        pub(crate) safe fn strm_mt_send(mt: &Mt, queue: u32, msg: Name, deadline: Option<&Time>) -> c_int;
        pub(crate) safe fn strm_mt_receive(mt: &Mt, queue: u32, msg: &mut Name, deadline: Option<&Time>) -> c_int;
        pub(crate) safe fn strm_mt_shut(mt: &Mt, queue: u32) -> c_int;
        pub(crate) safe fn clock_gettime(clock: c_int, at: &mut Time) -> c_int;
    }

    // SAFETY: strm_mt.h lets any thread make its calls, at the same time but for closing.
    unsafe impl Send for Open {}
    // SAFETY: the same.
    unsafe impl Sync for Open {}

    impl Drop for Open {
        fn drop(&mut self) {
            // SAFETY: the pool is open, and no thread has a reference to it.
            unsafe { strm_mt_close(self.0) };
        }
    }

    impl Deref for Open {
        type Target = Mt;

        fn deref(&self) -> &Mt {
            // SAFETY: only `open` makes one, of a pool that `drop` closes.
            unsafe { &*self.0 }
        }
    }

    pub(crate) fn open(config: &Config) -> Result<Open, c_int> {
        let mut mt = core::ptr::null_mut();
        // SAFETY: as in the `open` above.
        match with_config(config, |raw| unsafe { strm_mt_open(&mut mt, raw) }) {
            0 => Ok(Open(mt)),
            code => Err(code),
        }
    }

    /// Has `work` use the pool while its lock is held. It does not panic, and makes no call of strm_mt.h.
    pub(crate) fn locked<T>(mt: &Mt, work: impl FnOnce(&mut Handle) -> T) -> T {
        // SAFETY: between the two calls no other thread uses the pool.
        unsafe {
            let result = work(&mut *strm_mt_lock(mt));
            strm_mt_unlock(mt);
            result
        }
    }
}
