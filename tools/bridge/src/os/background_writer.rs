//! Writing to what may make its writer wait, as a terminal, a journal or a disk does: a thread of its own writes, and
//! nobody else waits. A file on a disk can't be waited for by epoll(7). Standard error can't be told not to wait:
//! `O_NONBLOCK` would hold for all who share it.
use std::collections::VecDeque;
use std::io;
use std::sync::{Arc, Condvar, Mutex, MutexGuard, PoisonError};
use std::thread;

use crate::os::clock::Duration;

/// How many pieces wait at most, however small they are: each takes memory of its own.
const MOST_PIECES: usize = 1 << 16;

/// Pieces wait here, in order and a bounded number of octets, until a thread has written them.
#[derive(Debug)]
pub struct BackgroundWriter(Arc<Shared>);

#[derive(Debug)]
struct Shared {
    most_octets: usize,
    waiting: Mutex<Waiting>,
    changed: Condvar,
}

#[derive(Debug, Default)]
struct Waiting {
    pieces: VecDeque<Vec<u8>>,
    /// Of these pieces, and of the one that is being written.
    octets: usize,
    has_begun: bool,
    is_closed: bool,
}

impl BackgroundWriter {
    /// Begins a thread that calls `write` with each piece; so many octets wait at most. It returns once the thread has
    /// begun: from then on that makes no calls of the system but those of `write` and of its waits (`os::seccomp`).
    pub fn start(most_octets: usize, write: impl FnMut(&[u8]) + Send + 'static) -> io::Result<BackgroundWriter> {
        let shared = Arc::new(Shared { most_octets, waiting: Mutex::default(), changed: Condvar::new() });
        let of_thread = Arc::clone(&shared);
        thread::Builder::new().spawn(move || of_thread.write_all(write))?;
        let begun = shared.changed.wait_while(shared.lock(), |waiting| !waiting.has_begun);
        drop(begun.unwrap_or_else(PoisonError::into_inner));
        Ok(BackgroundWriter(shared))
    }

    /// A piece waits from now on. If there is no room for it, it comes back.
    pub fn push(&self, piece: Vec<u8>) -> Result<(), Vec<u8>> {
        let mut waiting = self.0.lock();
        if piece.len() > self.0.most_octets - waiting.octets || waiting.pieces.len() >= MOST_PIECES {
            return Err(piece);
        }
        waiting.octets += piece.len();
        waiting.pieces.push_back(piece);
        self.0.changed.notify_all();
        Ok(())
    }

    /// Whether all is written.
    pub fn is_empty(&self) -> bool {
        self.0.lock().octets == 0
    }

    /// Waits until all is written, for so long at most, and answers how many octets aren't.
    pub fn finish(&self, most: Duration) -> usize {
        let waited = self.0.changed.wait_timeout_while(self.0.lock(), most.into(), |waiting| waiting.octets > 0);
        waited.unwrap_or_else(PoisonError::into_inner).0.octets
    }

    /// Forgets the pieces that wait. The one that is being written goes on.
    pub fn abandon(&self) {
        let mut waiting = self.0.lock();
        let octets: usize = waiting.pieces.drain(..).map(|piece| piece.len()).sum();
        waiting.octets -= octets;
    }
}

impl Drop for BackgroundWriter {
    fn drop(&mut self) {
        self.0.lock().is_closed = true;
        self.0.changed.notify_all();
    }
}

impl Shared {
    fn lock(&self) -> MutexGuard<'_, Waiting> {
        self.waiting.lock().unwrap_or_else(PoisonError::into_inner)
    }

    /// What the thread does: writes what waits, until nobody pushes any more.
    fn write_all(&self, mut write: impl FnMut(&[u8])) {
        // The allocator makes calls of its own if a thread allocates for the first time.
        self.lock().pieces.reserve(1);
        self.lock().has_begun = true;
        self.changed.notify_all();
        while let Some(piece) = self.next() {
            write(&piece);
            self.lock().octets -= piece.len();
            self.changed.notify_all();
        }
    }

    /// The next piece; `None` if none comes any more.
    fn next(&self) -> Option<Vec<u8>> {
        let idle = |waiting: &mut Waiting| waiting.pieces.is_empty() && !waiting.is_closed;
        let waited = self.changed.wait_while(self.lock(), idle);
        waited.unwrap_or_else(PoisonError::into_inner).pieces.pop_front()
    }
}

#[cfg(test)]
mod tests {
    use super::*;
    use std::sync::mpsc::{channel, Receiver, Sender};

    const LONG: Duration = Duration::from_secs(20);
    const SHORT: Duration = Duration::from_millis(20);

    #[test]
    fn all_is_written_in_order() {
        let (to, written) = channel();
        let writer = BackgroundWriter::start(1 << 20, move |piece| to.send(piece.to_vec()).unwrap()).unwrap();
        let pieces: Vec<Vec<u8>> = (0..1000u32).map(|number| number.to_string().into_bytes()).collect();
        assert!(pieces.iter().all(|piece| writer.push(piece.clone()).is_ok()));
        assert_eq!(writer.finish(LONG), 0);
        assert_eq!(written.try_iter().collect::<Vec<_>>(), pieces);
        // The thread ends with who pushes, and closes what it writes to.
        drop(writer);
        assert!(written.recv().is_err());
    }

    /// Nobody waits while nothing is taken; what has no room isn't kept, and later there is room again.
    #[test]
    fn what_has_no_room_is_refused() {
        let ((go_on, goes_on), (to, written)) = (channel(), channel());
        let writer = BackgroundWriter::start(10, move |piece| {
            goes_on.recv().unwrap();
            to.send(piece.to_vec()).unwrap();
        })
        .unwrap();
        let push = |octet, length| writer.push(vec![octet; length]);
        assert_eq!([push(1, 6), push(2, 5), push(3, 4)], [Ok(()), Err(vec![2; 5]), Ok(())]);
        assert_eq!([push(4, 1), push(4, 0)], [Err(vec![4]), Ok(())]);
        assert_eq!(writer.finish(SHORT), 10);
        (0..4).for_each(|_| go_on.send(()).unwrap());
        assert_eq!(writer.finish(LONG), 0);
        assert_eq!([push(5, 11), push(6, 10)], [Err(vec![5; 11]), Ok(())]);
        assert_eq!(writer.finish(LONG), 0);
        assert_eq!(written.try_iter().collect::<Vec<_>>(), [vec![1; 6], vec![3; 4], vec![], vec![6; 10]]);
    }

    /// A writer that writes a piece for each word that it gets, what it has written, and how it gets words.
    fn held() -> (BackgroundWriter, Sender<()>, Receiver<Vec<u8>>) {
        let ((go_on, goes_on), (to, written)) = (channel(), channel());
        let writer = BackgroundWriter::start(1 << 20, move |piece| {
            if goes_on.recv().is_ok() {
                to.send(piece.to_vec()).unwrap();
            }
        });
        (writer.unwrap(), go_on, written)
    }

    #[test]
    fn small_pieces_are_bounded_too() {
        let (writer, _go_on, _written) = held();
        let taken = (0..2 * MOST_PIECES).filter(|_| writer.push(vec![1]).is_ok()).count();
        assert!((MOST_PIECES..MOST_PIECES + 2).contains(&taken), "{taken}");
    }

    /// What waits is never written; what comes later is.
    #[test]
    fn what_is_abandoned_is_not_written() {
        let (writer, go_on, written) = held();
        (1..4).for_each(|octet| writer.push(vec![octet]).unwrap());
        go_on.send(()).unwrap();
        assert_eq!(written.recv().unwrap(), [1]);
        writer.abandon();
        writer.push(vec![4]).unwrap();
        (0..2).for_each(|_| go_on.send(()).unwrap());
        writer.finish(LONG);
        drop(writer);
        let rest: Vec<_> = written.iter().collect();
        assert!(rest == [[4]] || rest == [[2], [4]], "{rest:?}");
    }
}
