//! Does the drawn calls of tests/c/drawn.c through the crate of bindings/rust. It takes the place of tests/c/face.c. A call whose method takes its
//! numbers needs no arm: tests/bindings/run makes these.
use std::ffi::{c_char, c_int, c_uint, CStr};

use strm::{BandInfo, BlockInfo, BlockPlace, BlockShape, Census, ClassInfo, Flush, Handle, Iov, Marks, Message, MsgType, Name, Pool, Queued};
use strm::{QueueInfo, Refusal, Rejected, Wish};

const REGISTERS: usize = 26;
const MOST_OCTETS: usize = 64;
const MOST_ITEMS: usize = 4;
const UNTOUCHED: u8 = 0xA5;

// The kinds of replies, as `KINDS` of calls.h has them.
const DONE: u32 = 0;
const YES: u32 = 1;
const NO: u32 = 2;
const NOTHING: u32 = 3;
const EMPTY: u32 = 4;
const TOLD_BYTES: u32 = 7;
const TOLD_BLOCKS: u32 = 14;
const TOLD_NAME: u32 = 15;
const TOLD_IOV: u32 = 16;
const TOLD_SPEC: u32 = 20;
const TOLD_COUNT: u32 = 24;
const TOLD_SERVICE: u32 = 25;
const REFUSED: u32 = 26;

#[repr(C)]
pub struct Form {
    verb: *const c_char,
    call: *const c_char,
    letters: *const c_char,
    arguments: *const c_char,
    is_look: c_int,
    weight: c_uint,
    answers: u64,
}

#[repr(C)]
pub struct Face {
    pool: Handle,
    registers: [Name; REGISTERS],
    holds: [c_int; REGISTERS],
    broken: c_int,
}

#[repr(C)]
pub struct Call {
    verb: u32,
    x: c_int,
    y: c_int,
    z: c_int,
    queue: u32,
    place: u32,
    band: u32,
    number: u32,
    r#type: u32,
    flush: u32,
    hiwat: u32,
    lowat: u32,
    length: u32,
    items: u32,
    count: i32,
    many: [c_int; MOST_ITEMS],
    shapes: [BlockShape; MOST_ITEMS],
    octets: [u8; MOST_OCTETS],
}

#[repr(C)]
pub struct Reply {
    kind: u32,
    numbers: [u32; 1 + 5 * MOST_ITEMS],
    octets: [u8; MOST_OCTETS],
}

extern "C" {
    static forms: Form;
    fn kind_of(verb: c_int) -> u32;
}

/// Why there is no reply.
enum Fault {
    Refused(Refusal),
    Broken,
}

impl From<Refusal> for Fault {
    fn from(why: Refusal) -> Fault {
        Fault::Refused(why)
    }
}

type Told = Result<Reply, Fault>;

fn told(kind: u32, numbers: &[u32]) -> Reply {
    let mut reply = Reply { kind, numbers: [0; 1 + 5 * MOST_ITEMS], octets: [0; MOST_OCTETS] };
    reply.numbers[..numbers.len()].copy_from_slice(numbers);
    reply
}

fn done((): ()) -> Reply {
    told(DONE, &[])
}

/// What a method returned, as a reply. A message goes into its register.
trait Returned {
    fn told(self, face: &mut Face, call: &Call) -> Told;
}

impl Returned for () {
    fn told(self, _: &mut Face, _: &Call) -> Told {
        Ok(done(self))
    }
}

impl Returned for bool {
    fn told(self, _: &mut Face, _: &Call) -> Told {
        Ok(told(if self { YES } else { NO }, &[]))
    }
}

impl Returned for Message {
    fn told(self, face: &mut Face, call: &Call) -> Told {
        face.put(call.y, self).map(done)
    }
}

impl<T: Returned> Returned for Option<T> {
    fn told(self, face: &mut Face, call: &Call) -> Told {
        self.map_or(Ok(told(NOTHING, &[])), |it| it.told(face, call))
    }
}

macro_rules! numbers {
    ($($kind:ty: $it:ident => $($number:expr),+;)*) => {
        $(impl Returned for $kind {
            fn told(self, _: &mut Face, call: &Call) -> Told {
                let $it = self;
                // SAFETY: it reads a table by a verb.
                Ok(told(unsafe { kind_of(call.verb as c_int) }, &[$($number),+]))
            }
        })*
    };
}

numbers! {
    u32: it => it;
    Marks: it => it.hiwat, it.lowat;
    Wish: it => it.id, it.size;
    Census: it => it.free, it.queued, it.held;
    ClassInfo: it => it.size, it.free, it.total;
    BlockInfo: it => it.r#type.0, it.length, it.band, it.room, it.names;
    BlockPlace: it => it.data, it.at, it.length, it.capacity;
    Queued: it => it.head, it.r#type.0, it.band, it.bytes, it.blocks;
    QueueInfo: it => it.msgs, it.bytes, it.read.into(), it.noenable.into(), it.enabled.into();
    BandInfo: it => it.bytes, it.full.into(), it.wanted.into();
}

fn must(holds: bool) -> Result<(), Fault> {
    if holds { Ok(()) } else { Err(Fault::Broken) }
}

/// The lengths and the first bytes of some blocks.
fn told_iov(iov: &[Iov]) -> Reply {
    let numbers: Vec<u32> = std::iter::once(iov.len() as u32).chain(iov.iter().map(|iov| iov.len() as u32)).collect();
    let mut reply = told(TOLD_IOV, &numbers);
    for (into, byte) in reply.octets.iter_mut().zip(iov.iter().flat_map(|iov| iov.iter())) {
        *into = *byte;
    }
    reply
}

fn told_bytes(bytes: &[u8]) -> Reply {
    let mut reply = told(TOLD_BYTES, &[bytes.len() as u32]);
    let had = bytes.len().min(MOST_OCTETS);
    reply.octets[..had].copy_from_slice(&bytes[..had]);
    reply
}

/// The bytes that a look copied, which must not touch the buffer after them.
fn told_read(read: impl FnOnce(&mut [u8]) -> Result<usize, Refusal>) -> Told {
    let mut bytes = [UNTOUCHED; MOST_OCTETS + 1];
    let count = read(&mut bytes[..MOST_OCTETS])?;
    must(bytes[count..].iter().all(|byte| *byte == UNTOUCHED))?;
    Ok(told_bytes(&bytes[..count]))
}

/// Bytes in place, once octets were written there.
fn told_written(found: &mut [u8], octets: &[u8]) -> Reply {
    let length = octets.len().min(found.len());
    found[..length].copy_from_slice(&octets[..length]);
    told_bytes(found)
}

fn numbers_of(info: &BlockInfo) -> [u32; 5] {
    [info.r#type.0, info.length, info.band, info.room, info.names]
}

impl Face {
    /// Gives a register a new message.
    fn put(&mut self, reg: c_int, msg: Message) -> Result<(), Fault> {
        let at = reg as usize;
        must(msg.name() != self.registers[at])?;
        self.registers[at] = msg.into_name();
        self.holds[at] = 1;
        Ok(())
    }

    /// Empties a register whose message was handed over. One that was refused must come back as it was.
    fn spent<T>(&mut self, reg: c_int, result: Result<T, Rejected>) -> Result<T, Fault> {
        match result {
            Ok(it) => {
                self.holds[reg as usize] = 0;
                Ok(it)
            }
            Err(Rejected { why, message }) => {
                must(message.into_name() == self.registers[reg as usize])?;
                Err(Fault::Refused(why))
            }
        }
    }

    /// Registers get messages, beside one that the vector has before.
    fn gave_many(&mut self, pool: &mut Pool, word: &str, call: &Call) -> Told {
        let before = Name { pool: 7, head: 7, stamp: 7 };
        let mut msgs = vec![pool.adopt(before)];
        let items = call.items as usize;
        let flush = if call.flush == 0 { Flush::All } else { Flush::Data };
        let result = match word {
            "allocb_n" => pool.allocb_n(call.number, items, &mut msgs),
            "getq_n" => pool.getq_n(call.queue, items, &mut msgs),
            "takeq" => pool.takeq(call.queue, flush, items, &mut msgs),
            _ => pool.takeq_band(call.queue, call.band, flush, items, &mut msgs),
        };
        must(msgs.len() == 1 + *result.as_ref().unwrap_or(&0) && msgs.remove(0).into_name() == before)?;
        let count = result?;
        for (msg, reg) in msgs.into_iter().zip(call.many) {
            self.put(reg, msg)?;
        }
        Ok(if word == "getq_n" && items > 0 && count == 0 { told(NOTHING, &[]) } else { told(TOLD_COUNT, &[count as u32]) })
    }

    fn took_many(&mut self, pool: &mut Pool, word: &str, call: &Call) -> Told {
        let regs: Vec<usize> = call.many[..call.items as usize].iter().map(|reg| *reg as usize).collect();
        let mut msgs: Vec<Message> = regs.iter().map(|reg| pool.adopt(self.registers[*reg])).collect();
        let result = if word == "freemsg_n" { pool.freemsg_n(&mut msgs) } else { pool.putq_n(call.queue, &mut msgs) };
        let count = *result.as_ref().unwrap_or(&0);
        must(msgs.into_iter().map(Message::into_name).eq(regs[count..].iter().map(|reg| self.registers[*reg])))?;
        for reg in &regs[..count] {
            self.holds[*reg] = 0;
        }
        Ok(told(TOLD_COUNT, &[result? as u32]))
    }

    fn apply(&mut self, pool: &mut Pool, other: &mut Face, word: &str, call: &Call) -> Told {
        let Call { queue, place, band, number, count, hiwat, lowat, .. } = *call;
        let (flush, kind) = (if call.flush == 0 { Flush::All } else { Flush::Data }, MsgType(call.r#type));
        let octets = &call.octets[..call.length as usize];
        let x = pool.adopt(self.registers[call.x as usize]);

        Ok(match word {
            "strqset" => done(pool.strqset(queue, band, Marks { hiwat, lowat })?),
            "name_at" => match pool.name_at(number)? {
                None => told(NOTHING, &[]),
                Some(name) => {
                    let reg = (0..REGISTERS).find(|reg| self.holds[*reg] != 0 && self.registers[*reg] == name).ok_or(Fault::Broken)?;
                    told(TOLD_NAME, &[reg as u32])
                }
            },
            "queued_at" => {
                let it = pool.queued_at(queue, place)?;
                must(pool.queued(queue).nth(place as usize) == Some(it))?;
                return it.told(self, call);
            }
            "read_queued" => told_read(|into| pool.read_queued(queue, place, number, into))?,
            "region" => pool.region(place)?.map_or(told(NOTHING, &[]), |(bytes, stride)| {
                let mut reply = told_bytes(bytes);
                reply.numbers[1] = stride as u32;
                reply
            }),
            "queued_bytes" => told_bytes(pool.queued_bytes(number, place)?),
            "queued_iov" => {
                let mut iov = [Iov::default(); MOST_ITEMS];
                let count = pool.queued_iov(number, place, &mut iov[..call.items as usize])?;
                told_iov(&iov[..count])
            }
            "queue_spec" => {
                let it = pool.queue_spec(queue)?;
                told(TOLD_SPEC, &[it.hiwat, it.lowat, it.service.into(), it.next.unwrap_or(u32::MAX)])
            }
            "allocb_n" | "getq_n" | "takeq" | "takeq_band" => return self.gave_many(pool, word, call),
            "freemsg_n" | "putq_n" => return self.took_many(pool, word, call),
            "write" => done(pool.write(&x, place, octets)?),
            "linkb" => { let tail = pool.adopt(self.registers[call.z as usize]); done(self.spent(call.z, pool.linkb(&x, tail))?) }
            "rmvb" => {
                let (block, rest) = self.spent(call.x, pool.rmvb(x, place))?;
                rest.map_or(Ok(()), |rest| self.put(call.x, rest))?;
                return block.told(self, call);
            }
            "read" => told_read(|into| pool.read(&x, place, into))?,
            "freeb" => { let rest = self.spent(call.x, pool.freeb(x))?; done(rest.map_or(Ok(()), |rest| self.put(call.x, rest))?) }
            "freemsg" => done(self.spent(call.x, pool.freemsg(x))?),
            "putq" => done(self.spent(call.x, pool.putq(queue, x))?),
            "putbq" => done(self.spent(call.x, pool.putbq(queue, x))?),
            "hold" => done(self.spent(call.x, pool.hold(queue, x))?),
            "serve" => {
                let Some((service, msg)) = pool.serve(place)? else { return Ok(told(NOTHING, &[])) };
                self.put(call.y, msg)?;
                told(TOLD_SERVICE, &[service.queue, service.next, service.held])
            }
            "insq" => done(self.spent(call.x, pool.insq(queue, place, x))?),
            "blocks" => {
                let mut infos = [BlockInfo::default(); MOST_ITEMS];
                let count = pool.block_infos(&x, place, &mut infos[..call.items as usize])?;
                must(pool.blocks(&x).skip(place as usize).take(count).map(|(info, _)| info).eq(infos[..count].iter().copied()))?;
                let numbers: Vec<u32> = std::iter::once(count as u32).chain(infos[..count].iter().flat_map(numbers_of)).collect();
                told(TOLD_BLOCKS, &numbers)
            }
            "bytes" => told_bytes(pool.bytes(&x, place)?),
            "iov" => {
                let mut iov = [Iov::default(); MOST_ITEMS];
                let count = pool.iov(&x, place, &mut iov[..call.items as usize])?;
                must(pool.blocks(&x).skip(place as usize).take(count).map(|(_, bytes)| bytes).eq(iov[..count].iter().map(|iov| &**iov)))?;
                told_iov(&iov[..count])
            }
            "overwrite" => done(pool.overwrite(&x, place, octets)?),
            "prepend" => done(pool.prepend(&x, octets)?),
            "room" => told_written(pool.room(&x, place)?, octets),
            "window" => told_written(pool.window(&x, place)?, octets),
            "shape_all" => done(pool.shape_all(&x, &call.shapes[..call.items as usize])?),
            "insq_at" => done(self.spent(call.x, pool.insq_at(queue, (number != u32::MAX).then_some(number), x))?),
            "edit" => told_written(pool.edit(&x, place)?, octets),
            "transfer" => {
                let mut into = other.lend();
                let moved = self.spent(call.x, pool.transfer(&mut into, x));
                other.pool = into.into_handle();
                return moved?.told(other, call);
            }
            _ => return include!(env!("ARMS")),
        })
    }

    /// The pool of the handle, which is back in the face once the call was done.
    fn lend(&mut self) -> Pool {
        let closed = Handle { at: std::ptr::null_mut(), state: 0 };
        // SAFETY: drawn.c opened the handle, and the face has none meanwhile.
        unsafe { Pool::from_handle(std::mem::replace(&mut self.pool, closed)) }.expect("drawn.c opened it")
    }
}

/// # Safety
///
/// The pointers lead to what drawn.c has there: two faces, or one twice, and a call.
#[no_mangle]
pub unsafe extern "C" fn face_apply(face: *mut Face, other: *mut Face, call: *const Call) -> Reply {
    let (call, form) = (&*call, &*(&raw const forms).add((*call).verb as usize));
    let (word, names) = (CStr::from_ptr(form.call).to_str().unwrap(), CStr::from_ptr(form.letters).to_str().unwrap());
    let face = &mut *face;
    let mut pool = face.lend();
    let told_of = if names.contains('w') {
        face.apply(&mut pool, &mut *other, word, call)
    } else {
        let mut none = Face { pool: Handle { at: std::ptr::null_mut(), state: 0 }, registers: [Name::default(); REGISTERS], holds: [0; REGISTERS], broken: 0 };
        face.apply(&mut pool, &mut none, word, call)
    };
    face.pool = pool.into_handle();
    told_of.unwrap_or_else(|fault| match fault {
        Fault::Refused(Refusal::Invalid) => told(EMPTY, &[]),
        Fault::Refused(why) if why.code() > 0 => told(REFUSED, &[why.code() as u32]),
        _ => {
            face.broken = 1;
            told(NOTHING, &[])
        }
    })
}
