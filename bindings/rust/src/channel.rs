//! A channel between threads, over strm_mt.h, with the feature `channel`. Tested, not proved.

use core::ffi::c_int;
use core::time::Duration;

use crate::raw::mt::{self, Open, Time};
use crate::raw::{self, Handle};
use crate::{done, refused, stored, Census, ClassSpec, Config, Name, QueueSpec, Refusal, NO_QUEUE};

const NEVER: Time = Time(0, 0);
const CLOCK_MONOTONIC: c_int = 1;

fn after(most: Duration) -> Time {
    let mut now = NEVER;
    mt::clock_gettime(CLOCK_MONOTONIC, &mut now);
    let at = Duration::new(now.0 as u64, now.1 as u32).saturating_add(most);
    Time(i64::try_from(at.as_secs()).unwrap_or(i64::MAX), at.subsec_nanos().into())
}

/// A channel, which threads use by references. Messages come in the order in which they were sent, those of greater bands first.
#[derive(Debug)]
pub struct Channel(Open);

impl Channel {
    /// Nothing was sent or received, since that would take longer.
    pub const TIMED_OUT: Refusal = Refusal::Other(-31);
    /// Nothing was sent, since the channel is closed; or received, since it is closed and empty.
    pub const CLOSED: Refusal = Refusal::Other(-32);

    /// Has room for `count` messages of at most `size` bytes. A band is full that has `hiwat` bytes, so that messages of others have room.
    pub fn open(size: u32, count: u32, hiwat: u32) -> Result<Channel, Refusal> {
        let (classes, queues) = ([ClassSpec { size, count }], [QueueSpec { hiwat, ..QueueSpec::default() }]);
        let config = Config { mblks: count, classes: &classes, queues: &queues, ..Config::default() };
        mt::open(&config).map(Channel).map_err(refused)
    }

    fn locked<T>(&self, work: impl FnOnce(&mut Handle) -> T) -> T {
        mt::locked(&self.0, work)
    }

    fn send_by(&self, deadline: Option<&Time>, bytes: &[u8], band: u32) -> Result<(), Refusal> {
        let mut msg = Name::default();
        done(mt::strm_mt_alloc(&self.0, u32::try_from(bytes.len()).unwrap_or(u32::MAX), &mut msg, deadline))?;
        let made = self.locked(|pool| match raw::write(pool, msg, 0, bytes) {
            0 => raw::strm::setband(pool, msg, band),
            code => code,
        });
        let sent = done(made).and_then(|()| done(mt::strm_mt_send(&self.0, 0, msg, deadline)));
        if sent.is_err() {
            self.locked(|pool| raw::strm_freemsg(pool, msg));
        }
        sent
    }

    fn receive_by(&self, deadline: Option<&Time>, into: &mut [u8]) -> Result<usize, Refusal> {
        let (mut msg, mut count) = (Name::default(), 0);
        done(mt::strm_mt_receive(&self.0, 0, &mut msg, deadline))?;
        self.locked(|pool| {
            raw::read(pool, msg, 0, into, &mut count);
            raw::strm_freemsg(pool, msg)
        });
        Ok(count)
    }

    /// Sends a message in a band, once there is room.
    pub fn send(&self, bytes: &[u8], band: u32) -> Result<(), Refusal> {
        self.send_by(None, bytes, band)
    }

    /// The same, if there is room now.
    pub fn try_send(&self, bytes: &[u8], band: u32) -> Result<(), Refusal> {
        self.send_by(Some(&NEVER), bytes, band)
    }

    /// The same, if there is room in time.
    pub fn send_timeout(&self, bytes: &[u8], band: u32, most: Duration) -> Result<(), Refusal> {
        self.send_by(Some(&after(most)), bytes, band)
    }

    /// Receives a message, once there is one, and returns the number of its bytes. Those for which there is no room are lost.
    pub fn receive(&self, into: &mut [u8]) -> Result<usize, Refusal> {
        self.receive_by(None, into)
    }

    /// The same, if there is one now.
    pub fn try_receive(&self, into: &mut [u8]) -> Result<usize, Refusal> {
        self.receive_by(Some(&NEVER), into)
    }

    /// The same, if one comes in time.
    pub fn receive_timeout(&self, into: &mut [u8], most: Duration) -> Result<usize, Refusal> {
        self.receive_by(Some(&after(most)), into)
    }

    /// Closes the channel for ever. What was sent can still be received.
    pub fn close(&self) {
        mt::strm_mt_shut(&self.0, NO_QUEUE);
    }

    /// strm_census
    pub fn census(&self) -> Result<Census, Refusal> {
        self.locked(|pool| stored(|census| raw::strm::census(pool, census)))
    }
}
