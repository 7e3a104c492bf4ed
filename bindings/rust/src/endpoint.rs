//! A host with a UDP socket and the clock.

use crate::draw::{random, Drawn};
use crate::error::{EndpointError, Error};
use crate::ffi::{wait_for, Config, Peer};
use crate::host::{Delivery, Event, Host, ENDLESS};
use crate::line::{copied, Flights, Line, Way};
use std::fmt;
use std::io::{self, ErrorKind, Write};
use std::net::{Ipv4Addr, SocketAddr, SocketAddrV4, ToSocketAddrs, UdpSocket};
use std::time::{Duration, Instant};

/// The longest datagram of UDP, and one byte more.
const LONGEST: usize = 65_536;

/// How many datagrams are received before some are sent.
const MOST_AT_ONCE: u32 = 256;

/// How many slots a server has for clients that ask, beside those of its players.
const FOR_THOSE_THAT_ASK: u16 = 1024;

/// How many slots a host has at most.
const MOST_SLOTS: u16 = 4095;

/// Conditions for a socket: lines both ways, and what is under way.
struct Simulation {
    drawn: Drawn,
    inward: Way,
    outward: Way,
    coming: Flights<(SocketAddrV4, Vec<u8>)>,
    going: Flights<(SocketAddrV4, Vec<u8>)>,
}

impl Simulation {
    fn new(seed: u64, line: Line) -> Simulation {
        Simulation {
            drawn: Drawn::new(seed),
            inward: Way::new(line),
            outward: Way::new(line),
            coming: Flights::new(),
            going: Flights::new(),
        }
    }
}

/// Puts a datagram on a simulated line.
fn put(flights: &mut Flights<(SocketAddrV4, Vec<u8>)>, arrivals: (Option<u64>, Option<u64>), address: SocketAddrV4, bytes: &[u8]) {
    for due in [arrivals.0, arrivals.1].iter().flatten() {
        if let Some(copy) = copied(bytes) {
            flights.send(*due, (address, copy));
        }
    }
}

/// A host with a UDP socket and the clock: a server, a client, or both. It serves as long as [`service`](Endpoint::service) is called, some
/// ten times a second or more.
///
/// Dropped, it is closed: no peer is notified. To notify them, disconnect each and call `service` until their `Disconnect` events came.
pub struct Endpoint {
    host: Host,
    socket: UdpSocket,
    begun: Instant,
    /// The host's clock, in milliseconds since the beginning.
    clock: u64,
    room: Vec<u8>,
    unsent: u64,
    simulation: Option<Simulation>,
}

impl fmt::Debug for Endpoint {
    fn fmt(&self, f: &mut fmt::Formatter<'_>) -> fmt::Result {
        f.debug_struct("Endpoint").field("address", &self.address()).field("host", &self.host).finish_non_exhaustive()
    }
}

/// The first address of IPv4 that is meant.
fn address_of<A: ToSocketAddrs>(address: A) -> io::Result<SocketAddrV4> {
    for found in address.to_socket_addrs()? {
        if let SocketAddr::V4(found) = found {
            return Ok(found);
        }
    }
    Err(ErrorKind::AddrNotAvailable.into())
}

impl Endpoint {
    /// Opens a host with a socket at an address of IPv4 (port 0: the system chooses), and with a secret that the system draws.
    pub fn open<A: ToSocketAddrs>(address: A, config: &Config) -> Result<Endpoint, EndpointError> {
        Endpoint::over(Host::open(config)?, address)
    }

    /// As [`open`](Endpoint::open), with a host whose record is written until the endpoint is dropped or a write fails ([`Host::record`]).
    /// For a server set the [`Config`] as [`server`](Endpoint::server) does, and call `give_way` and `set_most` of
    /// [`host_mut`](Endpoint::host_mut).
    pub fn record<A: ToSocketAddrs>(address: A, config: &Config, writer: Box<dyn Write + Send>) -> Result<Endpoint, EndpointError> {
        Endpoint::over(Host::record(config, writer)?, address)
    }

    fn over<A: ToSocketAddrs>(mut host: Host, address: A) -> Result<Endpoint, EndpointError> {
        host.set_secret(&random()?)?;
        let mut room = Vec::new();
        room.try_reserve_exact(LONGEST).map_err(|_| Error::Memory)?;
        room.resize(LONGEST, 0);
        let socket = UdpSocket::bind(address_of(address)?)?;
        socket.set_nonblocking(true)?;
        Ok(Endpoint { host, socket, begun: Instant::now(), clock: 0, room, unsent: 0, simulation: None })
    }

    /// Opens a server for so many players, 1 to 4,095, with at most so many channels each. It has up to 1,024 more slots, 4,095 in all, for
    /// clients that ask, of which the oldest gives way ([`Host::give_way`]), and [`ENDLESS`](crate::ENDLESS) generations.
    pub fn server<A: ToSocketAddrs>(address: A, players: u16, channels: u8) -> Result<Endpoint, EndpointError> {
        let slots = players.saturating_add(FOR_THOSE_THAT_ASK).min(MOST_SLOTS);
        let mut config = Config::standard(slots, channels);
        config.generations = ENDLESS;
        let mut endpoint = Endpoint::open(address, &config)?;
        endpoint.host.give_way()?;
        endpoint.host.set_most(players)?;
        Ok(endpoint)
    }

    /// Opens a client with one slot, at a port that the system chooses, whose connection has at most so many channels.
    pub fn client(channels: u8) -> Result<Endpoint, EndpointError> {
        Endpoint::open((Ipv4Addr::UNSPECIFIED, 0), &Config::standard(1, channels))
    }

    /// The address of its socket.
    pub fn address(&self) -> io::Result<SocketAddrV4> {
        match self.socket.local_addr()? {
            SocketAddr::V4(address) => Ok(address),
            SocketAddr::V6(_) => Err(ErrorKind::AddrNotAvailable.into()),
        }
    }

    /// Its host, for readings.
    pub fn host(&self) -> &Host {
        &self.host
    }

    /// Its host, for calls that the endpoint hasn't. Its datagrams and its clock are the endpoint's: don't call `receive`, `transmit` and
    /// `tick`.
    pub fn host_mut(&mut self) -> &mut Host {
        &mut self.host
    }

    /// How many datagrams the system refused to send. They count as lost on the way.
    pub fn unsent(&self) -> u64 {
        self.unsent
    }

    /// Has its datagrams lost and delayed from now on, for tests: of those that come and of those that are sent this share is lost, 0 to 1,
    /// and the others are delayed for so long, each way. Both 0 end it, and what is under way is lost.
    pub fn simulate(&mut self, loss: f64, delay: Duration) -> Result<(), EndpointError> {
        self.simulation = None;
        if loss > 0.0 || delay > Duration::ZERO {
            let line = Line { loss, delay: u32::try_from(delay.as_millis()).unwrap_or(u32::MAX), ..Line::default() };
            let seed = u64::from_ne_bytes(random()?);
            self.simulation = Some(Simulation::new(seed, line));
        }
        Ok(())
    }

    /// Asks the host at an address of IPv4 for a connection with 1 to 255 channels, as [`Host::connect`] does, with a word that the system
    /// draws. The CONNECT is sent by the next [`service`](Endpoint::service).
    pub fn connect<A: ToSocketAddrs>(&mut self, address: A, channels: u8, info: u32) -> Result<Peer, EndpointError> {
        let to = address_of(address)?;
        let word = u32::from_ne_bytes(random()?);
        Ok(self.host.connect(to, channels, info, word)?)
    }

    /// The next event, for which it waits so long at most. An event that is there already is returned at once; else datagrams are received
    /// and sent, and time goes on, until there is one. A packet's bytes are written to `room`, as by [`Host::next_event`].
    #[inline]
    pub fn service<'a>(&mut self, timeout: Duration, room: &'a mut Vec<u8>) -> Result<Option<Event<'a>>, EndpointError> {
        if !self.host.has_event()? {
            self.serve(timeout)?;
        }
        Ok(self.host.next_event(room)?)
    }

    /// Serves until there is an event, so long at most.
    fn serve(&mut self, timeout: Duration) -> Result<(), EndpointError> {
        let begun = Instant::now();
        loop {
            let is_all = self.take_in()?;
            self.flush()?;
            let left = timeout.saturating_sub(begun.elapsed());
            if self.host.has_event()? || left == Duration::ZERO {
                return Ok(());
            }
            if is_all {
                self.wait(left)?;
            }
        }
    }

    /// Sends what was submitted, without waiting for the next [`service`](Endpoint::service).
    pub fn flush(&mut self) -> Result<(), EndpointError> {
        self.go_on()?;
        while let Some(datagram) = self.host.transmit()? {
            match &mut self.simulation {
                None => self.unsent += u64::from(is_refused(&self.socket, datagram.to, datagram.data)),
                Some(simulation) => {
                    let now = self.begun.elapsed().as_micros() as u64;
                    let arrivals = simulation.outward.carry(&mut simulation.drawn, now, datagram.data.len());
                    put(&mut simulation.going, arrivals, datagram.to, datagram.data);
                }
            }
        }
        if let Some(simulation) = &mut self.simulation {
            let now = self.begun.elapsed().as_micros() as u64;
            while let Some((to, bytes)) = simulation.going.arrive(now) {
                self.unsent += u64::from(is_refused(&self.socket, to, &bytes));
            }
        }
        Ok(())
    }

    /// The host's clock goes on to now.
    fn go_on(&mut self) -> Result<(), Error> {
        let now = self.begun.elapsed().as_millis() as u64;
        while self.clock < now {
            let ms = (now - self.clock).min(60_000);
            self.host.tick(ms as u32)?;
            self.clock += ms;
        }
        Ok(())
    }

    /// Receives what came, so many at most. Whether that was all.
    fn take_in(&mut self) -> Result<bool, EndpointError> {
        self.go_on()?;
        let now = self.begun.elapsed().as_micros() as u64;
        let mut is_all = false;
        for _ in 0..MOST_AT_ONCE {
            let (length, from) = match self.socket.recv_from(&mut self.room) {
                Ok((length, SocketAddr::V4(from))) => (length, from),
                Ok(_) => continue,
                Err(error) if error.kind() == ErrorKind::WouldBlock => {
                    is_all = true;
                    break;
                }
                Err(error) if is_passing(&error) => continue,
                Err(error) => return Err(error.into()),
            };
            // Nothing can be sent to port 0.
            if from.port() == 0 {
                continue;
            }
            let bytes = &self.room[..length];
            match &mut self.simulation {
                None => {
                    self.host.receive(from, bytes)?;
                }
                Some(simulation) => {
                    let arrivals = simulation.inward.carry(&mut simulation.drawn, now, length);
                    put(&mut simulation.coming, arrivals, from, bytes);
                }
            }
        }
        if let Some(simulation) = &mut self.simulation {
            while let Some((from, bytes)) = simulation.coming.arrive(now) {
                self.host.receive(from, &bytes)?;
            }
        }
        Ok(is_all)
    }

    /// Waits until something comes or is due, so long at most.
    fn wait(&mut self, left: Duration) -> Result<(), Error> {
        let mut ms = u64::from(self.host.due_in()?).min(left.as_millis() as u64 + 1);
        if let Some(simulation) = &self.simulation {
            let now = self.begun.elapsed().as_micros() as u64;
            for due in [simulation.coming.due(), simulation.going.due()].iter().flatten() {
                ms = ms.min(due.saturating_sub(now) / 1000 + 1);
            }
        }
        wait_for(&self.socket, ms as u32);
        Ok(())
    }

    /// As [`Host::submit`].
    pub fn submit(&mut self, peer: Peer, channel: u8, data: &[u8], delivery: Delivery) -> Result<(), Error> {
        self.host.submit(peer, channel, data, delivery)
    }

    /// As [`Host::broadcast`].
    pub fn broadcast(&mut self, peers: &[Peer], channel: u8, data: &[u8], delivery: Delivery) -> Result<(), Error> {
        self.host.broadcast(peers, channel, data, delivery)
    }

    /// As [`Host::broadcast_each`].
    pub fn broadcast_each(
        &mut self,
        peers: &[Peer],
        channel: u8,
        data: &[u8],
        delivery: Delivery,
        answers: &mut Vec<Result<(), Error>>,
    ) -> Result<(), Error> {
        self.host.broadcast_each(peers, channel, data, delivery, answers)
    }

    /// As [`Host::disconnect`].
    pub fn disconnect(&mut self, peer: Peer, info: u32) -> Result<(), Error> {
        self.host.disconnect(peer, info)
    }

    /// As [`Host::disconnect_now`].
    pub fn disconnect_now(&mut self, peer: Peer, info: u32) -> Result<(), Error> {
        self.host.disconnect_now(peer, info)
    }

    /// As [`Host::disconnect_later`].
    pub fn disconnect_later(&mut self, peer: Peer, info: u32) -> Result<(), Error> {
        self.host.disconnect_later(peer, info)
    }
}

/// Whether the system refuses to send a datagram. It may at one destination and not at others, or for a while.
fn is_refused(socket: &UdpSocket, to: SocketAddrV4, bytes: &[u8]) -> bool {
    loop {
        match socket.send_to(bytes, to) {
            Ok(_) => return false,
            Err(error) if error.kind() == ErrorKind::Interrupted => {}
            Err(_) => return true,
        }
    }
}

/// Whether a reception that failed so says nothing of the next one.
fn is_passing(error: &io::Error) -> bool {
    matches!(error.kind(), ErrorKind::Interrupted | ErrorKind::ConnectionRefused | ErrorKind::ConnectionReset | ErrorKind::OutOfMemory)
}
