//! Makes each call of `Channel` with each of its results.
use std::thread;
use std::time::{Duration, Instant};

use strm::{Channel, Refusal};

const SOON: Duration = Duration::from_millis(20);

fn received(way: &Channel) -> Result<Vec<u8>, Refusal> {
    let mut bytes = [0; 8];
    way.receive(&mut bytes).map(|count| bytes[..count].to_vec())
}

fn main() {
    let way = Channel::open(8, 3, 4).expect("a channel");
    let mut bytes = [0; 8];

    assert_eq!(Channel::open(0, 1, 1).map(drop), Err(Refusal::BadClassSize));
    assert_eq!(way.send(b"too large", 0), Err(Refusal::TooLarge));
    assert_eq!(way.send(b"a", 256), Err(Refusal::BadArgument));
    assert_eq!(way.try_receive(&mut bytes), Err(Channel::TIMED_OUT));
    let began = Instant::now();
    assert_eq!(way.receive_timeout(&mut bytes, SOON), Err(Channel::TIMED_OUT));
    assert_eq!(way.send(b"lion", 0), Ok(()));
    assert_eq!(way.try_send(b"bear", 0), Err(Channel::TIMED_OUT));
    assert_eq!(way.send_timeout(b"bear", 0, SOON), Err(Channel::TIMED_OUT));
    assert!(began.elapsed() >= 2 * SOON);
    assert_eq!(way.send(b"fox", 1), Ok(()));
    assert_eq!(way.census().map(|census| (census.queued, census.held)), Ok((2, 0)));
    assert_eq!(received(&way), Ok(b"fox".to_vec()));
    assert_eq!(way.receive_timeout(&mut bytes, Duration::MAX), Ok(4));

    thread::scope(|scope| {
        scope.spawn(|| assert_eq!(received(&way), Ok(b"owl".to_vec())));
        assert_eq!(way.send_timeout(b"owl", 0, Duration::from_secs(3600)), Ok(()));
    });
    assert_eq!(way.send(b"last", 0), Ok(()));
    thread::scope(|scope| {
        scope.spawn(|| assert_eq!(way.send(b"late", 0), Err(Channel::CLOSED)));
        way.close();
    });
    assert_eq!(way.try_send(b"late", 0), Err(Channel::CLOSED));
    assert_eq!(received(&way), Ok(b"last".to_vec()));
    assert_eq!(received(&way), Err(Channel::CLOSED));
    assert_eq!(way.census().map(|census| census.free), Ok(3));
}
