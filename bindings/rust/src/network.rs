//! Hosts and a network in memory.

use crate::draw::Drawn;
use crate::error::Error;
use crate::ffi::{Config, Peer};
use crate::host::Host;
use crate::line::{copied, Flights, Line, Way};
use crate::pcap::Capture;
use std::net::{Ipv4Addr, SocketAddrV4};
use std::path::Path;
use std::{fmt, fs, io};

/// The port of each host in memory.
const PORT: u16 = 7777;

/// The name of a host in a [`Network`].
#[derive(Clone, Copy, Debug, PartialEq, Eq, PartialOrd, Ord, Hash)]
pub struct Node(usize);

struct Member {
    host: Host,
    address: SocketAddrV4,
    /// The host's clock, in milliseconds.
    clock: u64,
    /// When time brings it something, in milliseconds.
    due_at: u64,
    /// The lines to each host.
    ways: Vec<Way>,
}

impl Member {
    fn tick_to(&mut self, clock: u64) -> Result<(), Error> {
        while self.clock < clock {
            let ms = (clock - self.clock).min(60_000);
            self.host.tick(ms as u32)?;
            self.clock += ms;
        }
        Ok(())
    }
}

/// A datagram under way.
struct Parcel {
    from: usize,
    to: usize,
    bytes: Vec<u8>,
}

/// Any number of hosts in memory, and the lines between them, whose clock goes on only by [`pass`](Network::pass). All that is drawn comes
/// from its seed: the same seed and the same calls give the same run, to the byte of each datagram.
///
/// ```
/// use gofnjerta::{Config, Delivery, Event, Line, Network};
///
/// fn main() -> Result<(), gofnjerta::Error> {
///     let mut net = Network::new(1);
///     net.set_line(Line { loss: 0.2, delay: 30, ..Line::default() });
///     let server = net.add(&Config::standard(4, 1))?;
///     let client = net.add(&Config::standard(1, 1))?;
///     let peer = net.connect(client, server, 1, 0)?;
///     net.pass(5_000)?;
///     net.host(client).submit(peer, 0, b"hello", Delivery::Reliable)?;
///     net.pass(5_000)?;
///     let mut room = Vec::new();
///     assert!(matches!(net.host(server).next_event(&mut room)?, Some(Event::Connect { .. })));
///     match net.host(server).next_event(&mut room)? {
///         Some(Event::Receive { data, .. }) => assert_eq!(data, b"hello"),
///         event => panic!("{event:?}"),
///     }
///     Ok(())
/// }
/// ```
pub struct Network {
    drawn: Drawn,
    line: Line,
    /// Microseconds.
    now: u64,
    members: Vec<Member>,
    flights: Flights<Parcel>,
    capture: Option<(usize, Capture)>,
}

impl fmt::Debug for Network {
    fn fmt(&self, f: &mut fmt::Formatter<'_>) -> fmt::Result {
        f.debug_struct("Network").field("hosts", &self.members.len()).field("now", &self.now()).finish_non_exhaustive()
    }
}

impl Network {
    /// A network without hosts, whose lines lose nothing and take no time.
    pub fn new(seed: u64) -> Network {
        Network { drawn: Drawn::new(seed), line: Line::default(), now: 0, members: Vec::new(), flights: Flights::new(), capture: None }
    }

    /// Adds a host, with a secret that is drawn. Its address is 10.0.0.1 for the first one, 10.0.0.2 for the second and so on, with port
    /// 7777. `BadConfig`, `Memory`.
    pub fn add(&mut self, config: &Config) -> Result<Node, Error> {
        let mut host = Host::open(config)?;
        host.set_secret(&self.drawn.key())?;
        let count = self.members.len();
        let mut ways = Vec::new();
        ways.try_reserve(count + 1).map_err(|_| Error::Memory)?;
        self.members.try_reserve(1).map_err(|_| Error::Memory)?;
        for member in &mut self.members {
            member.ways.try_reserve(1).map_err(|_| Error::Memory)?;
        }
        for member in &mut self.members {
            member.ways.push(Way::new(self.line));
        }
        ways.resize(count + 1, Way::new(self.line));
        let ip = u32::from(Ipv4Addr::new(10, 0, 0, 1)) + count as u32;
        self.members.push(Member {
            host,
            address: SocketAddrV4::new(Ipv4Addr::from(ip), PORT),
            clock: self.now(),
            due_at: self.now(),
            ways,
        });
        Ok(Node(count))
    }

    /// A host, for its calls. Its datagrams and its clock are the network's: don't call `receive`, `transmit` and `tick`.
    ///
    /// # Panics
    ///
    /// If the node is of another network that has more hosts.
    pub fn host(&mut self, node: Node) -> &mut Host {
        &mut self.members[node.0].host
    }

    /// The address of a host.
    ///
    /// # Panics
    ///
    /// If the node is of another network that has more hosts.
    pub fn address(&self, node: Node) -> SocketAddrV4 {
        self.members[node.0].address
    }

    /// The host with this address.
    pub fn node_at(&self, address: SocketAddrV4) -> Option<Node> {
        let ip = u32::from(*address.ip()).checked_sub(u32::from(Ipv4Addr::new(10, 0, 0, 1)))?;
        let member = self.members.get(ip as usize)?;
        Some(Node(ip as usize)).filter(|_| member.address == address)
    }

    /// How many milliseconds have passed.
    pub fn now(&self) -> u64 {
        self.now / 1000
    }

    /// All lines are like this from now on, and those of hosts that are added.
    pub fn set_line(&mut self, line: Line) {
        self.line = line;
        for way in self.members.iter_mut().flat_map(|member| &mut member.ways) {
            way.line = line;
        }
    }

    /// The line from one host to another is like this from now on, one way.
    pub fn set_line_between(&mut self, from: Node, to: Node, line: Line) {
        if let Some(way) = self.way(from.0, to.0) {
            way.line = line;
        }
    }

    /// All that is sent by a host or to it is lost, for so many milliseconds from now on. What is under way arrives.
    pub fn outage(&mut self, node: Node, ms: u32) {
        let until = self.now + u64::from(ms) * 1000;
        for other in 0..self.members.len() {
            for (from, to) in [(node.0, other), (other, node.0)] {
                if let Some(way) = self.way(from, to) {
                    way.down_until = until;
                }
            }
        }
    }

    fn way(&mut self, from: usize, to: usize) -> Option<&mut Way> {
        self.members.get_mut(from)?.ways.get_mut(to)
    }

    /// Has a host ask another one for a connection, by [`Host::connect`] with a word that is drawn.
    ///
    /// # Panics
    ///
    /// If a node is of another network that has more hosts.
    pub fn connect(&mut self, from: Node, to: Node, channels: u8, info: u32) -> Result<Peer, Error> {
        let word = self.drawn.next() as u32;
        let to = self.address(to);
        self.host(from).connect(to, channels, info, word)
    }

    /// Time goes on by so many milliseconds. Each host sends what it has to send, when it is due; what arrives by then is received. A
    /// datagram for which there is no memory is lost.
    pub fn pass(&mut self, ms: u32) -> Result<(), Error> {
        let end = self.now + u64::from(ms) * 1000;
        for index in 0..self.members.len() {
            self.send_from(index)?;
        }
        while let Some(next) = self.next_moment().filter(|next| *next <= end) {
            self.now = self.now.max(next);
            self.arrive()?;
            self.tick_due()?;
        }
        self.now = end;
        let clock = self.now();
        for member in &mut self.members {
            member.tick_to(clock)?;
        }
        Ok(())
    }

    /// When the next datagram arrives or time brings a host something.
    fn next_moment(&self) -> Option<u64> {
        let due = self.members.iter().map(|member| member.due_at * 1000).min();
        match (due, self.flights.due()) {
            (Some(due), Some(arrives)) => Some(due.min(arrives)),
            (due, arrives) => due.or(arrives),
        }
    }

    /// All that is due by now arrives, and each receiver sends what it has to send.
    fn arrive(&mut self) -> Result<(), Error> {
        let clock = self.now();
        while let Some(parcel) = self.flights.arrive(self.now) {
            let from = self.members[parcel.from].address;
            let receiver = &mut self.members[parcel.to];
            receiver.tick_to(clock)?;
            if let Some((node, capture)) = &mut self.capture {
                if *node == parcel.to {
                    capture.note(self.now, from, receiver.address, &parcel.bytes);
                }
            }
            receiver.host.receive(from, &parcel.bytes)?;
            self.send_from(parcel.to)?;
        }
        Ok(())
    }

    /// The hosts to which time brings something by now send what they have to send.
    fn tick_due(&mut self) -> Result<(), Error> {
        let clock = self.now();
        for index in 0..self.members.len() {
            if self.members[index].due_at <= clock {
                self.members[index].tick_to(clock)?;
                self.send_from(index)?;
            }
        }
        Ok(())
    }

    /// Takes all that a host has to send now.
    fn send_from(&mut self, from: usize) -> Result<(), Error> {
        let clock = self.now();
        self.members[from].tick_to(clock)?;
        loop {
            let Member { host, address, .. } = &mut self.members[from];
            let address = *address;
            let (to, bytes) = match host.transmit()? {
                Some(datagram) => (datagram.to, copied(datagram.data)),
                None => break,
            };
            if let Some(bytes) = bytes {
                self.send(from, address, to, bytes);
            }
        }
        let member = &mut self.members[from];
        member.due_at = clock + u64::from(member.host.due_in()?.max(1));
        Ok(())
    }

    /// Puts a datagram on its line.
    fn send(&mut self, from: usize, address: SocketAddrV4, to: SocketAddrV4, bytes: Vec<u8>) {
        if let Some((node, capture)) = &mut self.capture {
            if *node == from {
                capture.note(self.now, address, to, &bytes);
            }
        }
        let to = match self.node_at(to) {
            Some(node) => node.0,
            None => return,
        };
        let (first, second) = self.members[from].ways[to].carry(&mut self.drawn, self.now, bytes.len());
        if let (Some(due), Some(bytes)) = (second, copied(&bytes)) {
            self.flights.send(due, Parcel { from, to, bytes });
        }
        if let Some(due) = first {
            self.flights.send(due, Parcel { from, to, bytes });
        }
    }

    /// From now on notes each datagram that a host sends, and each that arrives at it, in place of what was noted before.
    pub fn capture(&mut self, node: Node) {
        self.capture = Some((node.0, Capture::new()));
    }

    /// What was noted: a capture in classic pcap; no bytes if [`capture`](Network::capture) wasn't called. If memory ran out it ends with
    /// the last datagram for which there was room.
    pub fn captured(&self) -> &[u8] {
        match &self.capture {
            Some((_, capture)) => capture.bytes(),
            None => &[],
        }
    }

    /// Writes what was noted to a file. `enet_relay inspect FILE --timeline SVG --at LEFT` draws it, with this host at the left if it sent
    /// the first datagram, and `--at RIGHT` else.
    pub fn write_capture<P: AsRef<Path>>(&self, path: P) -> io::Result<()> {
        fs::write(path, self.captured())
    }
}
