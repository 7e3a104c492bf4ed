//! A host without a socket and a clock.

use crate::error::{Error, Stop};
use crate::ffi::{self, Config, Handle, Held, LineReading, Peer, RawEvent, RawReading, Slots, Totals, Traffic, ROOM};
use std::fmt;
use std::io::Write;
use std::net::{Ipv4Addr, SocketAddrV4};

const CONNECT: u32 = 1;
const RECEIVE: u32 = 3;

const RELIABLE: u8 = 1;
const UNSEQUENCED: u8 = 2;
const UNRELIABLE_FRAGMENT: u8 = 8;

/// For [`Config::generations`]: no slot is ever spent.
pub const ENDLESS: u32 = u32::MAX;

/// The `info` of the `Disconnect` that a client gets from a server that is full ([`Host::set_most`]).
pub const FULL: u32 = u32::MAX;

/// The version of the library that was linked: major, minor and patch.
pub fn version() -> (u32, u32, u32) {
    ffi::version()
}

impl Config {
    /// Settings for most hosts: an mtu of 1,392 bytes, no bandwidth limits, the greatest `max_packet` and `max_waiting`, 1,000,000
    /// generations, and a clock at 0. [`Host::open`] checks them.
    pub fn standard(peers: u16, channels: u8) -> Config {
        ffi::standard(peers, channels)
    }
}

/// How a packet is delivered.
#[derive(Clone, Copy, Debug, PartialEq, Eq, Hash)]
pub enum Delivery {
    /// It is sent again until it is acknowledged, and arrives once, in the order of its channel.
    Reliable,
    /// It may be lost. Those that arrive are in the order of their channel. A long one is cut into pieces that may be lost, so that it is
    /// never made reliable by its length.
    Unreliable,
    /// It may be lost and arrives in any order. One that is too long for a datagram is sent reliably.
    Unsequenced,
}

impl Delivery {
    /// The flags by which a packet is submitted.
    #[inline]
    fn flags(self) -> u8 {
        match self {
            Delivery::Reliable => RELIABLE,
            Delivery::Unreliable => UNRELIABLE_FRAGMENT,
            Delivery::Unsequenced => UNSEQUENCED,
        }
    }

    /// How a packet with these flags came.
    #[inline]
    fn of(flags: u8) -> Delivery {
        match flags {
            RELIABLE => Delivery::Reliable,
            UNSEQUENCED => Delivery::Unsequenced,
            _ => Delivery::Unreliable,
        }
    }
}

/// An event of a host. Each connection has one `Connect`, then its packets in order, then one `Disconnect`, after which the peer's name is
/// spent. A connection that this end asked for and that fails has a `Disconnect` alone.
#[derive(Clone, Copy, Debug, PartialEq, Eq)]
#[non_exhaustive]
pub enum Event<'a> {
    /// A peer is connected.
    #[non_exhaustive]
    Connect {
        /// Its name.
        peer: Peer,
        /// Its address.
        address: SocketAddrV4,
        /// The number of the end that connected; at that end itself 0.
        info: u32,
    },
    /// A connection has ended.
    #[non_exhaustive]
    Disconnect {
        /// The name of the peer, which is spent.
        peer: Peer,
        /// Its address.
        address: SocketAddrV4,
        /// The number that the other end gave; 0 if it gave none, as when this end asked or the peer timed out.
        info: u32,
    },
    /// A packet came.
    #[non_exhaustive]
    Receive {
        /// From whom.
        peer: Peer,
        /// Its address.
        address: SocketAddrV4,
        /// On which channel.
        channel: u8,
        /// How it was carried. A long packet that was submitted without flag 8 of ENet may have been made reliable by its sender.
        delivery: Delivery,
        /// Its bytes, in the room that the caller gave.
        data: &'a [u8],
    },
}

impl Event<'_> {
    /// Whose event it is.
    pub fn peer(&self) -> Peer {
        match self {
            Event::Connect { peer, .. } | Event::Disconnect { peer, .. } | Event::Receive { peer, .. } => *peer,
        }
    }

    /// The address of its peer.
    pub fn address(&self) -> SocketAddrV4 {
        match self {
            Event::Connect { address, .. } | Event::Disconnect { address, .. } | Event::Receive { address, .. } => *address,
        }
    }
}

/// What became of a datagram.
#[derive(Clone, Copy, Debug, PartialEq, Eq)]
pub struct Received {
    /// How many of its commands took effect.
    pub handled: u32,
    /// Why the rest wasn't read; `None` if all of it was.
    pub stop: Option<Stop>,
}

/// A datagram that is to be sent.
#[derive(Clone, Copy, Debug, PartialEq, Eq)]
pub struct Datagram<'a> {
    /// Where it goes.
    pub to: SocketAddrV4,
    /// Whose it is.
    pub peer: Peer,
    /// Its bytes.
    pub data: &'a [u8],
}

/// How far a connection is.
#[derive(Clone, Copy, Debug, PartialEq, Eq, Hash)]
#[non_exhaustive]
pub enum State {
    /// The slot is free.
    Free,
    /// This end asked, and wasn't answered yet.
    Connecting,
    /// This end answered a client that hasn't confirmed it yet.
    Answering,
    /// Packets can be submitted.
    Connected,
    /// It is to end once all is sent and acknowledged.
    DisconnectLater,
    /// This end asked to end it.
    Disconnecting,
    /// The other end asked to end it.
    Acknowledging,
    /// Its last events are not taken yet.
    Ended,
    /// Its last datagram is not sent yet.
    Parting,
    /// A number that this crate doesn't know, from a newer library.
    Other(u32),
}

impl State {
    fn numbered(number: u32) -> State {
        match number {
            0 => State::Free,
            1 => State::Connecting,
            2 => State::Answering,
            3 => State::Connected,
            4 => State::DisconnectLater,
            5 => State::Disconnecting,
            6 => State::Acknowledging,
            7 => State::Ended,
            8 => State::Parting,
            other => State::Other(other),
        }
    }
}

/// What can be read of a peer.
#[derive(Clone, Copy, Debug, PartialEq, Eq)]
#[non_exhaustive]
pub struct Reading {
    /// How far its connection is.
    pub state: State,
    /// The longest datagram, in bytes, as agreed.
    pub mtu: u32,
    /// Bytes of reliable packets that may be in transit: 4,096 to 65,536.
    pub window: u32,
    /// The word of the end that connected.
    pub connect_id: u32,
    /// The mean round trip in milliseconds, 500 at first.
    pub round_trip: u32,
    /// The mean deviation of round trips, in milliseconds.
    pub variance: u32,
    /// Bytes of reliable packets that were sent and are neither acknowledged nor due to be resent.
    pub in_transit: u32,
    /// 0 to 32: of 32 packets that aren't reliable one more than this is sent, from 31 on all.
    pub throttle: u32,
    /// The throttle's interval in milliseconds.
    pub throttle_interval: u32,
    /// By how much the throttle rises in an interval, in parts of 32.
    pub acceleration: u32,
    /// By how much the throttle falls in an interval, in parts of 32.
    pub deceleration: u32,
    /// The peer's address.
    pub address: SocketAddrV4,
    /// The peer's slot for this connection at the other end, 0xFFF before it is known.
    pub slot: u16,
    /// How many channels the connection has.
    pub channels: u8,
    /// The session number of datagrams that come, 0 to 3.
    pub incoming_session: u8,
    /// The session number of datagrams that are sent, 0 to 3.
    pub outgoing_session: u8,
}

impl From<RawReading> for Reading {
    fn from(read: RawReading) -> Reading {
        Reading {
            state: State::numbered(read.state),
            mtu: read.mtu,
            window: read.window,
            connect_id: read.connect_id,
            round_trip: read.round_trip,
            variance: read.variance,
            in_transit: read.in_transit,
            throttle: read.throttle,
            throttle_interval: read.throttle_interval,
            acceleration: read.acceleration,
            deceleration: read.deceleration,
            address: read.address(),
            slot: read.slot,
            channels: read.channels,
            incoming_session: read.incoming_session,
            outgoing_session: read.outgoing_session,
        }
    }
}

/// A host without a socket and a clock. Datagrams that came go in by [`receive`](Host::receive), time by [`tick`](Host::tick); datagrams to
/// send come out by [`transmit`](Host::transmit), events by [`next_event`](Host::next_event). It does the same at each run if these calls
/// are the same.
///
/// It may be moved to another thread, and isn't shared by threads. Dropped, it is closed: no peer is notified.
///
/// ```compile_fail
/// fn share<T: Sync>() {}
/// share::<gofnjerta::Host>();
/// ```
pub struct Host {
    handle: Handle,
    room: Vec<u8>,
    /// Of each slot the last peer whose address is known.
    addresses: Vec<Option<(u32, SocketAddrV4)>>,
    /// The event that the library told and that wasn't returned yet.
    told: RawEvent,
    /// What the peers of the last broadcast answered.
    numbers: Vec<u32>,
}

impl fmt::Debug for Host {
    fn fmt(&self, f: &mut fmt::Formatter<'_>) -> fmt::Result {
        f.debug_struct("Host").field("slots", &self.read_slots()).finish_non_exhaustive()
    }
}

impl Host {
    /// Opens a host. `BadConfig` if a setting is out of its range, `Memory`.
    pub fn open(config: &Config) -> Result<Host, Error> {
        let mut room = Vec::new();
        room.try_reserve_exact(ROOM).map_err(|_| Error::Memory)?;
        room.resize(ROOM, 0);
        let slots = usize::from(config.peers);
        let mut addresses = Vec::new();
        addresses.try_reserve_exact(slots).map_err(|_| Error::Memory)?;
        addresses.resize(slots, None);
        Ok(Host { handle: Handle::open(config)?, room, addresses, told: RawEvent::NONE, numbers: Vec::new() })
    }

    /// Asks the host at an address for a connection with 1 to 255 channels, from the lowest free slot. `info` is a number for its user. A
    /// `Connect` or a `Disconnect` follows. `BadConfig` for no channels, `NoSlot`, `Memory`.
    ///
    /// `word` names the connection: draw it by [`random`](crate::random), anew for each. A stranger who can guess it, and forges the
    /// server's address, can be taken for the server. [`Endpoint::connect`](crate::Endpoint::connect) draws it.
    pub fn connect(&mut self, to: SocketAddrV4, channels: u8, info: u32, word: u32) -> Result<Peer, Error> {
        let peer = self.handle.connect(to, channels, info, word)?;
        self.note(peer, to);
        Ok(peer)
    }

    /// Submits a packet, whose bytes are copied. `NoSuchPeer`, `NotConnected`, `NoSuchChannel`, `TooLarge`, `Full`
    /// ([`set_send_limit`](Host::set_send_limit)), `Memory`.
    #[inline]
    pub fn submit(&mut self, peer: Peer, channel: u8, data: &[u8], delivery: Delivery) -> Result<(), Error> {
        self.handle.submit(peer, channel, delivery.flags(), data)
    }

    /// Submits a packet to each of these peers; they share one copy of its bytes. Peers that have gone or aren't connected are skipped. If
    /// one peer refuses it for another reason, the others still get it, and the first such reason is returned: `NoSuchChannel`, `TooLarge`,
    /// `Full`, `Memory`. Which peers those are, [`broadcast_each`](Host::broadcast_each) tells. No peer gets it if there is no memory for
    /// the copy.
    #[inline]
    pub fn broadcast(&mut self, peers: &[Peer], channel: u8, data: &[u8], delivery: Delivery) -> Result<(), Error> {
        self.handle.broadcast(peers, channel, delivery.flags(), data)
    }

    /// As [`broadcast`](Host::broadcast), and writes to `answers`, in place of what was there, what each peer's submission answered, in the
    /// order of `peers`: what [`submit`](Host::submit) returns, `NoSuchPeer` and `NotConnected` too. Pass the same `Vec` each time. Before
    /// any submission, and with no answer: `TooLarge` above 33,554,432 bytes; `Memory` if there is none for the copy or the answers, after
    /// which the call may be repeated.
    ///
    /// ```
    /// # fn main() -> Result<(), gofnjerta::Error> {
    /// # use gofnjerta::{Config, Delivery, Error, Host, Peer};
    /// # let mut host = Host::open(&Config::standard(1, 1))?;
    /// # let peers: Vec<Peer> = Vec::new();
    /// let mut answers = Vec::new();
    /// host.broadcast_each(&peers, 0, b"round 7", Delivery::Reliable, &mut answers)?;
    /// for (peer, answer) in peers.iter().zip(&answers) {
    ///     if *answer == Err(Error::Full) {
    ///         host.disconnect(*peer, 1)?; // it lacks this packet, so the next ones are no use to it
    ///     }
    /// }
    /// # Ok(())
    /// # }
    /// ```
    pub fn broadcast_each(
        &mut self,
        peers: &[Peer],
        channel: u8,
        data: &[u8],
        delivery: Delivery,
        answers: &mut Vec<Result<(), Error>>,
    ) -> Result<(), Error> {
        answers.clear();
        answers.try_reserve(peers.len()).map_err(|_| Error::Memory)?;
        self.numbers.clear();
        self.numbers.try_reserve(peers.len()).map_err(|_| Error::Memory)?;
        self.numbers.resize(peers.len(), 0);
        self.handle.broadcast_each(peers, channel, delivery.flags(), data, &mut self.numbers)?;
        answers.extend(self.numbers.iter().map(|number| ffi::answer(*number)));
        Ok(())
    }

    /// Takes in a datagram that came from an address. Pass over what comes from port 0, to which nothing can be sent.
    #[inline]
    pub fn receive(&mut self, from: SocketAddrV4, datagram: &[u8]) -> Result<Received, Error> {
        let received = self.handle.receive(from, datagram)?;
        Ok(Received {
            handled: received.handled,
            stop: match received.stop {
                0 => None,
                stop => Some(Stop(stop)),
            },
        })
    }

    /// The next datagram to send; `None` if there is none. Call it until then: after each tick, after datagrams came, and after calls that
    /// send. What can't be sent may be dropped.
    #[inline]
    pub fn transmit(&mut self) -> Result<Option<Datagram<'_>>, Error> {
        Ok(match self.handle.service(&mut self.room)? {
            None => None,
            Some((length, to, peer)) => Some(Datagram { to, peer, data: &self.room[..length] }),
        })
    }

    /// The clock goes on by so many milliseconds, 60,000 at most. Commands whose timeout is over are resent, quiet peers pinged, and peers
    /// dropped that left a command unacknowledged too long. Tick every few milliseconds, or when [`due_in`](Host::due_in) says.
    #[inline]
    pub fn tick(&mut self, ms: u32) -> Result<(), Error> {
        self.handle.tick(ms)
    }

    /// In how many milliseconds time brings something, at most 1,000: a shorter tick only changes the clock. A program that has sent all
    /// that [`transmit`](Host::transmit) gives may sleep that long, unless a datagram comes.
    #[inline]
    pub fn due_in(&self) -> Result<u32, Error> {
        self.handle.due_in()
    }

    /// The next event; `None` if there is none. A packet's bytes are written to `room`, in place of what was there, and the event borrows
    /// them. Pass the same `Vec` each time: it grows to the longest packet, and nothing else is taken from memory. After `Memory` the next
    /// call returns the same event.
    ///
    /// ```
    /// # fn main() -> Result<(), gofnjerta::Error> {
    /// # use gofnjerta::{Config, Event, Host};
    /// # let mut host = Host::open(&Config::standard(1, 1))?;
    /// let mut room = Vec::new();
    /// while let Some(event) = host.next_event(&mut room)? {
    ///     if let Event::Receive { peer, channel, data, delivery, .. } = event {
    ///         let _ = host.submit(peer, channel, data, delivery); // the peer may have gone since
    ///     }
    /// }
    /// # Ok(())
    /// # }
    /// ```
    // A call that isn't inlined hands the event over by memory, which takes some 70 instructions more.
    #[inline(always)]
    pub fn next_event<'a>(&mut self, room: &'a mut Vec<u8>) -> Result<Option<Event<'a>>, Error> {
        if !self.has_event()? {
            return Ok(None);
        }
        if self.told.kind < RECEIVE {
            return Ok(Some(self.begun_or_ended()));
        }
        let data = self.handle.body(room, self.told.length)?;
        self.told.kind = 0;
        let RawEvent { peer, channel, flags, .. } = self.told;
        Ok(Some(Event::Receive { peer, address: self.address_of(peer), channel, delivery: Delivery::of(flags), data }))
    }

    /// The event that is told, which is no packet.
    #[cold]
    fn begun_or_ended(&mut self) -> Event<'static> {
        let RawEvent { kind, info, peer, .. } = self.told;
        let address = self.address_of(peer);
        self.told.kind = 0;
        match kind {
            CONNECT => Event::Connect { peer, address, info },
            _ => Event::Disconnect { peer, address, info },
        }
    }

    /// Whether there is an event, which [`next_event`](Host::next_event) returns.
    #[inline]
    pub(crate) fn has_event(&mut self) -> Result<bool, Error> {
        if self.told.kind == 0 {
            self.handle.next_event(&mut self.told)?;
        }
        Ok(self.told.kind != 0)
    }

    fn note(&mut self, peer: Peer, address: SocketAddrV4) {
        if let Some(place) = self.addresses.get_mut(usize::from(peer.slot)) {
            *place = Some((peer.generation, address));
        }
    }

    /// The address of a peer that has an event: as it was noted, or else as the library has it.
    #[inline]
    fn address_of(&mut self, peer: Peer) -> SocketAddrV4 {
        match self.addresses.get(usize::from(peer.slot)) {
            Some(Some((generation, address))) if *generation == peer.generation => *address,
            _ => self.read_address(peer),
        }
    }

    #[cold]
    fn read_address(&mut self, peer: Peer) -> SocketAddrV4 {
        match self.handle.read_peer(peer) {
            Ok(read) => {
                self.note(peer, read.address());
                read.address()
            }
            Err(_) => SocketAddrV4::new(Ipv4Addr::UNSPECIFIED, 0),
        }
    }

    /// Disconnects a peer, with a number for the other end's user: drops what is queued or held. Packets that wait as events still come,
    /// and then the `Disconnect`, once the other end has acknowledged. `NoSuchPeer`; `NotConnected` if it is disconnecting already.
    pub fn disconnect(&mut self, peer: Peer, info: u32) -> Result<(), Error> {
        self.handle.disconnect(peer, info)
    }

    /// Disconnects a peer at once: the other end is sent one datagram, no event comes here, and the name is spent. `NoSuchPeer`;
    /// `NotConnected` if it is disconnecting already.
    pub fn disconnect_now(&mut self, peer: Peer, info: u32) -> Result<(), Error> {
        self.handle.disconnect_now(peer, info)
    }

    /// Disconnects a peer once everything queued is sent and each reliable packet is acknowledged. `NoSuchPeer`; `NotConnected` if it is
    /// disconnecting already.
    pub fn disconnect_later(&mut self, peer: Peer, info: u32) -> Result<(), Error> {
        self.handle.disconnect_later(peer, info)
    }

    /// Sets the host's secret: 32 bytes that the system drew ([`random`](crate::random)) and that nobody else knows. By them each peer that
    /// begins from now on gets sent times and numbers of its own, so that a stranger who forges an address and doesn't see the answers
    /// can't connect in its name. Set it once, before the first datagram and the first [`connect`](Host::connect).
    /// [`Endpoint`](crate::Endpoint) sets its own.
    pub fn set_secret(&mut self, key: &[u8; 32]) -> Result<(), Error> {
        self.handle.set_secret(key)
    }

    /// From now on a CONNECT that finds no free slot takes that of the peer which has waited longest for its client to confirm the answer:
    /// that peer is let go, with no event. A connected peer keeps its slot. Open the host with [`ENDLESS`] generations, since each CONNECT
    /// that takes a slot uses one up.
    pub fn give_way(&mut self) -> Result<(), Error> {
        self.handle.give_way()
    }

    /// Sets how many peers that began by a CONNECT may be connected or leaving at once: 1 to the number of slots. A client that confirms
    /// where as many are there is told that the host is full (a `Disconnect` with [`FULL`]), and let go, with no event. Open the host
    /// with more slots than that, for those that ask. `BadConfig`.
    pub fn set_most(&mut self, peers: u16) -> Result<(), Error> {
        self.handle.set_most(peers)
    }

    /// Sets the host's bandwidths, in bytes per second; 0: no limit is known. Each connected peer is sent them. `Memory`.
    pub fn set_bandwidth(&mut self, incoming: u32, outgoing: u32) -> Result<(), Error> {
        self.handle.set_bandwidth(incoming, outgoing)
    }

    /// Sets after how many milliseconds of silence a peer is pinged; 0 means 500. `NoSuchPeer`.
    pub fn set_ping_interval(&mut self, peer: Peer, ms: u32) -> Result<(), Error> {
        self.handle.set_ping_interval(peer, ms)
    }

    /// Sets how long a peer may leave a command unacknowledged. It is dropped when a try fails `maximum` milliseconds or more after the
    /// command was first sent, or when one fails that was made `minimum` milliseconds plus its own timeout after that and after the last
    /// acknowledgement of any command, if 2 to the power of (sends - 1) is at least `limit`. 0 means the standard number: 32, 5,000 and
    /// 30,000. `NoSuchPeer`.
    pub fn set_timeout(&mut self, peer: Peer, limit: u32, minimum: u32, maximum: u32) -> Result<(), Error> {
        self.handle.set_timeout(peer, limit, minimum, maximum)
    }

    /// Sets a connected peer's throttle: its interval in milliseconds, and by how much it rises and falls, in parts of 32. The other end is
    /// sent these. `NoSuchPeer`, `NotConnected`, `Memory`.
    pub fn throttle_configure(&mut self, peer: Peer, interval: u32, acceleration: u32, deceleration: u32) -> Result<(), Error> {
        self.handle.throttle_configure(peer, interval, acceleration, deceleration)
    }

    /// Reads a peer. `NoSuchPeer`.
    #[inline]
    pub fn read_peer(&self, peer: Peer) -> Result<Reading, Error> {
        self.handle.read_peer(peer).map(Reading::from)
    }

    /// Reads a peer's allowance in bytes, 2,800 to 131,072: as much may be in transit to it, where each command of a reliable packet counts
    /// 28 more than it carries. It falls if the line drops packets, and grows as they are acknowledged. `NoSuchPeer`.
    pub fn read_allowance(&self, peer: Peer) -> Result<u32, Error> {
        self.handle.read_allowance(peer)
    }

    /// Reads how much went through the host.
    pub fn read_totals(&self) -> Result<Totals, Error> {
        self.handle.read_totals()
    }

    /// Reads how much the host holds of what others sent. It looks at each slot.
    pub fn read_held(&self) -> Result<Held, Error> {
        self.handle.read_held()
    }

    /// Reads how the slots are. It looks at each of them.
    pub fn read_slots(&self) -> Result<Slots, Error> {
        self.handle.read_slots()
    }

    /// Reads how many commands of all peers aren't acknowledged and were sent more than once.
    pub fn read_sent_again(&self) -> Result<u64, Error> {
        self.handle.read_sent_again()
    }

    /// Opens a host, and writes a record of it until it is dropped or a write fails: each call that changes it, and what comes out. The
    /// program `gofnjerta_replay` makes the same calls on a fresh host, and tells where anything else comes out. A record has the host's
    /// secret and each packet. A `BufWriter` saves calls of the system. `BadConfig`, `Memory`.
    pub fn record(config: &Config, writer: Box<dyn Write + Send>) -> Result<Host, Error> {
        let mut host = Host::open(config)?;
        host.handle = Handle::record(config, writer)?;
        Ok(host)
    }

    /// Sets at how many bytes of payload, or commands, that are queued, or sent and not acknowledged, a peer takes no further packet:
    /// `Full`. A packet is a command, or each piece that it is cut into. It holds for all peers, also those to come. What is there already
    /// stays. A peer with nothing queued or unacknowledged is never full: so 0 isn't "no limit", but one packet at a time. Without this
    /// call there is no limit; `u64::MAX` twice is as good as none. It doesn't bound memory: the pieces of a packet that was cut share its
    /// body until the last one is gone.
    pub fn set_send_limit(&mut self, bytes: u64, commands: u64) -> Result<(), Error> {
        self.handle.set_send_limit(bytes, commands)
    }

    /// Reads how the line to a peer is, and what is queued or unacknowledged for it. `NoSuchPeer`.
    pub fn read_line(&self, peer: Peer) -> Result<LineReading, Error> {
        self.handle.read_line(peer)
    }

    /// Reads how many commands went to a peer, and how many were acknowledged. The share of `again` in `sent`, between two readings, grows
    /// if the line loses more, or if its round trips vary more. `NoSuchPeer`.
    pub fn read_traffic(&self, peer: Peer) -> Result<Traffic, Error> {
        self.handle.read_traffic(peer)
    }

    /// Reads why a peer's connection ended, before and after its `Disconnect`, until the next peer of that slot, connected or not, is gone:
    /// ask when you take the `Disconnect`. `None` if it hasn't ended, or ended without a `Disconnect`, or too long ago.
    pub fn ending(&self, peer: Peer) -> Result<Option<Ending>, Error> {
        self.handle.ending(peer).map(Ending::numbered)
    }
}

/// Why a connection ended.
#[derive(Clone, Copy, Debug, PartialEq, Eq, Hash)]
#[non_exhaustive]
pub enum Ending {
    /// This end's DISCONNECT ([`disconnect`](Host::disconnect), `_later`) was acknowledged, or wasn't for longer than this end waits.
    AskedHere,
    /// The other end sent DISCONNECT, with which it also refuses a connection; also if this end had asked.
    AskedThere,
    /// The other end left a command unacknowledged for too long ([`set_timeout`](Host::set_timeout)); also while
    /// [`disconnect_later`](Host::disconnect_later) waits to send its DISCONNECT.
    TimedOut,
    /// No answer of the server to CONNECT took effect for as long as the client waits.
    NeverAnswered,
    /// The server's answer doesn't fit what the client asked for.
    BadAnswer,
    /// A number that this crate doesn't know, from a newer library.
    Other(u32),
}

impl Ending {
    fn numbered(number: u32) -> Option<Ending> {
        Some(match number {
            0 => return None,
            1 => Ending::AskedHere,
            2 => Ending::AskedThere,
            3 => Ending::TimedOut,
            4 => Ending::NeverAnswered,
            5 => Ending::BadAnswer,
            other => Ending::Other(other),
        })
    }
}
