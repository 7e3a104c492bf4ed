//! What a line does to datagrams, and those that are under way.

use crate::draw::Drawn;
use std::cmp::Ordering;
use std::collections::BinaryHeap;

/// Bytes of the headers of IPv4 and UDP.
const HEADERS: u64 = 28;

/// The most by which a datagram is held back that others overtake, or that is repeated, in microseconds.
const HELD_BACK: u64 = 20_000;

/// How a line treats the datagrams that go one way over it. The default is a line that loses nothing and takes no time.
///
/// ```
/// let bad = gofnjerta::Line { loss: 0.1, delay: 40, jitter: 20, ..gofnjerta::Line::default() };
/// # assert_eq!(bad.queue, 100);
/// ```
#[derive(Clone, Copy, Debug, PartialEq)]
pub struct Line {
    /// The share of datagrams that are lost, 0 to 1.
    pub loss: f64,
    /// How many milliseconds a datagram takes.
    pub delay: u32,
    /// Up to how many milliseconds more it takes, as drawn for each. Their order stays.
    pub jitter: u32,
    /// The share of datagrams that are held back for up to 20 milliseconds more, while later ones overtake them, 0 to 1.
    pub reorder: f64,
    /// The share of datagrams that arrive a second time, up to 20 milliseconds later, 0 to 1.
    pub repeat: f64,
    /// How many bytes the line carries in a second, where each datagram counts 28 more for its headers; 0: no limit.
    pub rate: u32,
    /// For how many milliseconds a datagram may wait until the line is free. One that would wait longer is lost. It is 100 by default.
    pub queue: u32,
}

impl Default for Line {
    fn default() -> Line {
        Line { loss: 0.0, delay: 0, jitter: 0, reorder: 0.0, repeat: 0.0, rate: 0, queue: 100 }
    }
}

/// A line one way, with what it is at. Times are in microseconds.
#[derive(Clone, Debug, Default)]
pub(crate) struct Way {
    pub(crate) line: Line,
    /// When all that it took has been sent.
    free_at: u64,
    /// When the last datagram arrives that keeps its place.
    last: u64,
    /// Until when it drops all.
    pub(crate) down_until: u64,
}

impl Way {
    pub(crate) fn new(line: Line) -> Way {
        Way { line, ..Way::default() }
    }

    /// When a datagram of so many bytes arrives that is sent now, and when it arrives a second time. Each datagram takes as many draws.
    pub(crate) fn carry(&mut self, drawn: &mut Drawn, now: u64, length: usize) -> (Option<u64>, Option<u64>) {
        let line = self.line;
        let is_lost = drawn.happens(line.loss);
        let jitter = drawn.below(u64::from(line.jitter) * 1000 + 1);
        let is_held_back = drawn.happens(line.reorder);
        let held_back = 1 + drawn.below(HELD_BACK);
        let is_repeated = drawn.happens(line.repeat);
        let repeated = 1 + drawn.below(HELD_BACK);
        if is_lost || now < self.down_until {
            return (None, None);
        }
        let sent = match self.sent_at(now, length) {
            Some(sent) => sent,
            None => return (None, None),
        };
        let mut due = sent + u64::from(line.delay) * 1000 + jitter;
        if is_held_back {
            due += held_back;
        } else {
            due = due.max(self.last);
            self.last = due;
        }
        let again = if is_repeated { Some(due + repeated) } else { None };
        (Some(due), again)
    }

    /// When the line has sent a datagram that comes to it now; `None` if it would wait too long.
    fn sent_at(&mut self, now: u64, length: usize) -> Option<u64> {
        if self.line.rate == 0 {
            return Some(now);
        }
        let begins = self.free_at.max(now);
        if begins - now > u64::from(self.line.queue) * 1000 {
            return None;
        }
        self.free_at = begins + (length as u64 + HEADERS) * 1_000_000 / u64::from(self.line.rate);
        Some(self.free_at)
    }
}

/// What is under way, until it is due.
struct Flight<T> {
    due: u64,
    number: u64,
    load: T,
}

impl<T> PartialEq for Flight<T> {
    fn eq(&self, other: &Flight<T>) -> bool {
        self.cmp(other) == Ordering::Equal
    }
}

impl<T> Eq for Flight<T> {}

impl<T> PartialOrd for Flight<T> {
    fn partial_cmp(&self, other: &Flight<T>) -> Option<Ordering> {
        Some(self.cmp(other))
    }
}

/// The greatest is due first; of those that are due at once, the one that was sent first.
impl<T> Ord for Flight<T> {
    fn cmp(&self, other: &Flight<T>) -> Ordering {
        (other.due, other.number).cmp(&(self.due, self.number))
    }
}

/// All that is under way.
pub(crate) struct Flights<T> {
    heap: BinaryHeap<Flight<T>>,
    number: u64,
}

impl<T> Flights<T> {
    pub(crate) fn new() -> Flights<T> {
        Flights { heap: BinaryHeap::new(), number: 0 }
    }

    /// Sends something that arrives when it is due. It is lost if there is no memory for it.
    pub(crate) fn send(&mut self, due: u64, load: T) {
        if self.heap.try_reserve(1).is_ok() {
            let number = self.number;
            self.number += 1;
            self.heap.push(Flight { due, number, load });
        }
    }

    /// When the next one is due.
    pub(crate) fn due(&self) -> Option<u64> {
        self.heap.peek().map(|flight| flight.due)
    }

    /// The next one, if it is due by now.
    pub(crate) fn arrive(&mut self, now: u64) -> Option<T> {
        if self.due()? > now {
            return None;
        }
        self.heap.pop().map(|flight| flight.load)
    }
}

/// A copy of bytes; `None` if there is no memory for it.
pub(crate) fn copied(bytes: &[u8]) -> Option<Vec<u8>> {
    let mut copy = Vec::new();
    copy.try_reserve_exact(bytes.len()).ok()?;
    copy.extend_from_slice(bytes);
    Some(copy)
}

#[cfg(test)]
mod tests {
    use super::*;

    fn arrivals(line: Line, count: u64, gap: u64) -> Vec<(Option<u64>, Option<u64>)> {
        let (mut way, mut drawn) = (Way::new(line), Drawn::new(7));
        (0..count).map(|i| way.carry(&mut drawn, i * gap, 972)).collect()
    }

    #[test]
    fn loss_and_repeats_are_shares() {
        let line = Line { loss: 0.2, repeat: 0.1, ..Line::default() };
        let all = arrivals(line, 10_000, 1000);
        let lost = all.iter().filter(|at| at.0.is_none()).count();
        let twice = all.iter().filter(|at| at.1.is_some()).count();
        assert!((1_900..2_100).contains(&lost), "{lost} lost");
        assert!((720..880).contains(&twice), "{twice} twice");
    }

    #[test]
    fn jitter_keeps_the_order_and_reordering_does_not() {
        let jitter = Line { delay: 10, jitter: 50, ..Line::default() };
        let all = arrivals(jitter, 1000, 1000);
        assert!(all.windows(2).all(|two| two[0].0 <= two[1].0));
        assert!(all.iter().zip(0..).all(|(at, i)| at.0.map_or(false, |at| at >= i * 1000 + 10_000)));
        let reorder = Line { reorder: 0.2, ..Line::default() };
        let all = arrivals(reorder, 1000, 1000);
        assert!(all.windows(2).any(|two| two[0].0 > two[1].0));
    }

    #[test]
    fn a_rate_fills_a_queue() {
        let line = Line { rate: 100_000, queue: 50, ..Line::default() };
        // 1,000 bytes take 10 ms. One comes each 5 ms, so the queue grows by 5 ms for each until it is full, then each other is lost.
        let all = arrivals(line, 1000, 5000);
        let lost = all.iter().filter(|at| at.0.is_none()).count();
        assert!((480..500).contains(&lost), "{lost} lost");
        assert_eq!(all[0].0, Some(10_000));
        assert_eq!(all[1].0, Some(20_000));
    }
}
