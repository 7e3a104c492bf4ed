//! The library for C: its structures and calls as `gofnjerta.h` has them, and a safe layer over these. All unsafe code of the crate is here.
//!
//! The layer keeps what the header asks of a caller. A handle is all zero bytes before it is opened, isn't copied, and has one call at a
//! time: it is no `Sync`, and the library calls back only what takes a record, which doesn't know the handle. Pointers are to Rust's own
//! values, with their true lengths.

use crate::error::Error;
use std::cell::UnsafeCell;
use std::ffi::CStr;
use std::io::Write;
use std::net::{Ipv4Addr, SocketAddrV4, UdpSocket};
use std::os::raw::{c_char, c_int, c_ulong, c_void};
use std::os::unix::io::AsRawFd;
use std::panic::{catch_unwind, AssertUnwindSafe};
use std::{ptr, slice};

/// The settings of a host. [`Config::standard`] fits most.
#[repr(C)]
#[derive(Clone, Copy, Debug, PartialEq, Eq)]
pub struct Config {
    /// Slots, each for one peer at a time: 1 to 4,095.
    pub peers: u16,
    /// Channels that a connection is granted at most: 1 to 255.
    pub channels: u8,
    /// The longest datagram, in bytes: 576 to 4,096.
    pub mtu: u32,
    /// Bytes per second that the host can take in; 0: no limit is known.
    pub incoming: u32,
    /// Bytes per second that the host can send; 0: no limit is known.
    pub outgoing: u32,
    /// The longest packet that is received or submitted, in bytes: 1 to 33,554,432.
    pub max_packet: u32,
    /// Bytes of a peer's waiting packets at which further ones are refused: 1 to 33,554,432. So are further ones if a 128th of that many
    /// packets wait, or 1,024 if that is more.
    pub max_waiting: u32,
    /// How many peers a slot has one after another: 1 and more.
    pub generations: u32,
    /// The clock at the opening, in milliseconds. It wraps.
    pub clock: u32,
}

/// The name of a peer at its host. Each next peer of a slot has the next generation, so an old name never means a new peer.
#[repr(C)]
#[derive(Clone, Copy, Debug, PartialEq, Eq, PartialOrd, Ord, Hash)]
pub struct Peer {
    /// Its slot, below the host's `peers`.
    pub slot: u16,
    /// How many peers the slot had before.
    pub generation: u32,
}

/// How much went through a host. Each number stops at its greatest value.
#[repr(C)]
#[derive(Clone, Copy, Debug, Default, PartialEq, Eq)]
pub struct Totals {
    /// Datagrams that came, refused ones included.
    pub datagrams_in: u64,
    /// Their bytes.
    pub bytes_in: u64,
    /// Datagrams that were given out to be sent.
    pub datagrams_out: u64,
    /// Their bytes.
    pub bytes_out: u64,
}

/// How much a host holds of what others sent. Whatever datagrams come, each number is within what the host's settings allow.
#[repr(C)]
#[derive(Clone, Copy, Debug, Default, PartialEq, Eq)]
pub struct Held {
    /// Channels of the peers on which packets come.
    pub channels: u64,
    /// Channels of the peers that are sent to.
    pub senders: u64,
    /// Packets that came, whole or in part, and weren't taken.
    pub packets: u64,
    /// Those of them that can't be taken yet.
    pub undispatched: u64,
    /// Bytes of the packets, each counted whole from its first piece on.
    pub bytes: u64,
    /// Acknowledgements that wait to be sent.
    pub acknowledgements: u64,
    /// Bytes of memory that all this takes with the host's slots, at most. Not counted are packets that were submitted, and the room of
    /// lists that once held more.
    pub memory: u64,
    /// The most that `memory` can be, by the settings.
    pub most_memory: u64,
}

/// How many slots of a host are so. Each slot is in one of these counts.
#[repr(C)]
#[derive(Clone, Copy, Debug, Default, PartialEq, Eq)]
pub struct Slots {
    /// Free ones that have a generation left.
    pub free: u16,
    /// Free ones that have none left.
    pub spent: u16,
    /// The peer asked for a connection and wasn't answered yet.
    pub connecting: u16,
    /// The peer answered a client that hasn't confirmed it yet.
    pub answering: u16,
    /// Connected ones.
    pub connected: u16,
    /// The connection is to end or ends, or has ended and its last event isn't taken yet.
    pub leaving: u16,
}

/// How the line to a peer is.
#[repr(C)]
#[derive(Clone, Copy, Debug, Default, PartialEq, Eq)]
pub struct LineReading {
    /// The mean round trip in milliseconds, 500 at first.
    pub round_trip: u32,
    /// The mean deviation of round trips, in milliseconds.
    pub variance: u32,
    /// The lowest mean in the throttle's running interval, in milliseconds; 500 at first.
    pub lowest: u32,
    /// The lowest mean in the interval before, in milliseconds; 500 at first.
    pub lowest_before: u32,
    /// 0 to 32: of 32 packets that aren't reliable one more than this is sent, from 31 on all.
    pub throttle: u32,
    /// Bytes that may be in transit, as [`read_allowance`](crate::Host::read_allowance) tells.
    pub allowance: u32,
    /// Bytes of reliable packets that were sent and are neither acknowledged nor due to be resent.
    pub in_transit: u32,
    /// Queued, or sent and not acknowledged, as [`set_send_limit`](crate::Host::set_send_limit) counts them: packets, or the pieces of long
    /// ones.
    pub commands: u64,
    /// Their bytes of payload.
    pub bytes: u64,
}

/// How many commands went to a peer since it began: those with data that ask for an acknowledgement, which are reliable packets, or the
/// pieces of long ones. Each number wraps at 2^64.
#[repr(C)]
#[derive(Clone, Copy, Debug, Default, PartialEq, Eq)]
pub struct Traffic {
    /// Each time that one went.
    pub sent: u64,
    /// Those times that it had gone before.
    pub again: u64,
    /// Commands that were acknowledged, each once.
    pub acknowledged: u64,
}

/// The library's bytes of an address.
#[repr(C)]
#[derive(Clone, Copy)]
struct RawAddress {
    ip: u32,
    port: u16,
}

impl From<SocketAddrV4> for RawAddress {
    #[inline]
    fn from(address: SocketAddrV4) -> RawAddress {
        RawAddress { ip: u32::from(*address.ip()), port: address.port() }
    }
}

impl From<RawAddress> for SocketAddrV4 {
    #[inline]
    fn from(address: RawAddress) -> SocketAddrV4 {
        SocketAddrV4::new(Ipv4Addr::from(address.ip), address.port)
    }
}

const NO_ADDRESS: RawAddress = RawAddress { ip: 0, port: 0 };

const NO_PEER: Peer = Peer { slot: 0, generation: 0 };

/// A handle, whose fields only the library reads.
#[repr(C)]
#[allow(dead_code)]
struct RawHost {
    at: *mut c_void,
    is_open: bool,
}

/// What became of a datagram.
#[repr(C)]
#[derive(Clone, Copy, Default)]
pub(crate) struct RawReceived {
    /// The answer of the call once more.
    #[allow(dead_code)]
    status: u32,
    pub(crate) handled: u32,
    pub(crate) stop: u32,
}

#[repr(C)]
struct RawDatagram {
    length: u32,
    to: RawAddress,
    peer: Peer,
}

/// An event as the library tells it; its kind is 0 if there is none.
#[repr(C)]
#[derive(Clone, Copy)]
pub(crate) struct RawEvent {
    pub(crate) kind: u32,
    pub(crate) info: u32,
    pub(crate) peer: Peer,
    pub(crate) channel: u8,
    pub(crate) flags: u8,
    pub(crate) length: u64,
}

impl RawEvent {
    pub(crate) const NONE: RawEvent = RawEvent { kind: 0, info: 0, peer: NO_PEER, channel: 0, flags: 0, length: 0 };
}

/// What can be read of a peer.
#[repr(C)]
#[derive(Clone, Copy)]
pub(crate) struct RawReading {
    pub(crate) state: u32,
    pub(crate) mtu: u32,
    pub(crate) window: u32,
    pub(crate) connect_id: u32,
    pub(crate) round_trip: u32,
    pub(crate) variance: u32,
    pub(crate) in_transit: u32,
    pub(crate) throttle: u32,
    pub(crate) throttle_interval: u32,
    pub(crate) acceleration: u32,
    pub(crate) deceleration: u32,
    address: RawAddress,
    pub(crate) slot: u16,
    pub(crate) channels: u8,
    pub(crate) incoming_session: u8,
    pub(crate) outgoing_session: u8,
}

impl RawReading {
    pub(crate) fn address(&self) -> SocketAddrV4 {
        self.address.into()
    }
}

/// The room that `gofnjerta_service` needs, in bytes.
pub(crate) const ROOM: usize = 4096;

extern "C" {
    fn gofnjerta_version() -> u32;
    fn gofnjerta_error_name(number: u32) -> *const c_char;
    fn gofnjerta_stop_name(stop: u32) -> *const c_char;
    fn gofnjerta_standard(peers: u16, channels: u8) -> Config;
    fn gofnjerta_open(host: *mut RawHost, config: *const Config) -> u32;
    fn gofnjerta_close(host: *mut RawHost) -> u32;
    fn gofnjerta_connect(host: *mut RawHost, to: RawAddress, channels: u8, info: u32, word: u32, peer: *mut Peer) -> u32;
    fn gofnjerta_submit(host: *mut RawHost, peer: Peer, channel: u8, flags: u8, body: *const c_void, length: usize) -> u32;
    fn gofnjerta_broadcast(
        host: *mut RawHost,
        peers: *const Peer,
        count: usize,
        channel: u8,
        flags: u8,
        body: *const c_void,
        length: usize,
    ) -> u32;
    fn gofnjerta_broadcast_each(
        host: *mut RawHost,
        peers: *const Peer,
        count: usize,
        channel: u8,
        flags: u8,
        body: *const c_void,
        length: usize,
        answers: *mut u32,
    ) -> u32;
    fn gofnjerta_receive(host: *mut RawHost, from: RawAddress, datagram: *const c_void, length: usize, received: *mut RawReceived) -> u32;
    fn gofnjerta_service(host: *mut RawHost, buffer: *mut c_void, room: usize, datagram: *mut RawDatagram) -> u32;
    fn gofnjerta_tick(host: *mut RawHost, ms: u32) -> u32;
    fn gofnjerta_due_in(host: *mut RawHost, ms: *mut u32) -> u32;
    fn gofnjerta_next_event(host: *mut RawHost, event: *mut RawEvent) -> u32;
    fn gofnjerta_body(host: *mut RawHost, buffer: *mut c_void, room: usize) -> u32;
    fn gofnjerta_disconnect(host: *mut RawHost, peer: Peer, info: u32) -> u32;
    fn gofnjerta_disconnect_now(host: *mut RawHost, peer: Peer, info: u32) -> u32;
    fn gofnjerta_disconnect_later(host: *mut RawHost, peer: Peer, info: u32) -> u32;
    fn gofnjerta_set_bandwidth(host: *mut RawHost, incoming: u32, outgoing: u32) -> u32;
    fn gofnjerta_set_secret(host: *mut RawHost, key: *const u8) -> u32;
    fn gofnjerta_give_way(host: *mut RawHost) -> u32;
    fn gofnjerta_set_most(host: *mut RawHost, peers: u16) -> u32;
    fn gofnjerta_throttle_configure(host: *mut RawHost, peer: Peer, interval: u32, acceleration: u32, deceleration: u32) -> u32;
    fn gofnjerta_set_ping_interval(host: *mut RawHost, peer: Peer, ms: u32) -> u32;
    fn gofnjerta_set_timeout(host: *mut RawHost, peer: Peer, limit: u32, minimum: u32, maximum: u32) -> u32;
    fn gofnjerta_read_peer(host: *mut RawHost, peer: Peer, reading: *mut RawReading) -> u32;
    fn gofnjerta_read_allowance(host: *mut RawHost, peer: Peer, bytes: *mut u32) -> u32;
    fn gofnjerta_read_totals(host: *mut RawHost, totals: *mut Totals) -> u32;
    fn gofnjerta_read_held(host: *mut RawHost, held: *mut Held) -> u32;
    fn gofnjerta_read_slots(host: *mut RawHost, slots: *mut Slots) -> u32;
    fn gofnjerta_read_sent_again(host: *mut RawHost, commands: *mut u64) -> u32;
    fn gofnjerta_set_send_limit(host: *mut RawHost, bytes: u64, commands: u64) -> u32;
    fn gofnjerta_read_line(host: *mut RawHost, peer: Peer, line: *mut LineReading) -> u32;
    fn gofnjerta_read_traffic(host: *mut RawHost, peer: Peer, traffic: *mut Traffic) -> u32;
    fn gofnjerta_ending(host: *mut RawHost, peer: Peer, why: *mut u32) -> u32;
    fn gofnjerta_record(host: *mut RawHost, config: *const Config, write: RawWriter, context: *mut c_void) -> u32;
}

type RawWriter = extern "C" fn(*mut c_void, *const c_void, usize) -> c_int;

/// What takes a record.
type Writer = Box<dyn Write + Send>;

/// Writes so many bytes of a record to the writer at `context`. 0 if it took them all.
extern "C" fn write_record(context: *mut c_void, bytes: *const c_void, length: usize) -> c_int {
    // SAFETY: `Handle::record` passed a pointer to its writer, which nothing else uses as long as the handle is open. The library names as
    // many bytes as it passes, and passes some.
    let (writer, bytes) = unsafe { (&mut *context.cast::<Writer>(), slice::from_raw_parts(bytes.cast::<u8>(), length)) };
    match catch_unwind(AssertUnwindSafe(|| writer.write_all(bytes))) {
        Ok(Ok(())) => 0,
        _ => 1,
    }
}

/// What a number that a call returned means.
#[inline]
pub(crate) fn answer(number: u32) -> Result<(), Error> {
    match number {
        0 => Ok(()),
        _ => Err(Error::numbered(number)),
    }
}

/// Makes room for so many bytes, or more.
#[cold]
fn grow(room: &mut Vec<u8>, length: usize) -> Result<(), Error> {
    room.clear();
    room.try_reserve(length).map_err(|_| Error::Memory)
}

/// The version of the library: major, minor and patch.
pub(crate) fn version() -> (u32, u32, u32) {
    // SAFETY: the call has no arguments and no state.
    let version = unsafe { gofnjerta_version() };
    (version >> 16, version >> 8 & 0xFF, version & 0xFF)
}

/// The library's text at a pointer that it returned.
fn text(at: *const c_char) -> &'static str {
    // SAFETY: the header says that the text is the library's and stays.
    unsafe { CStr::from_ptr(at) }.to_str().unwrap_or("?")
}

pub(crate) fn error_name(number: u32) -> &'static str {
    // SAFETY: any number may be asked for.
    text(unsafe { gofnjerta_error_name(number) })
}

pub(crate) fn stop_name(stop: u32) -> &'static str {
    // SAFETY: any number may be asked for.
    text(unsafe { gofnjerta_stop_name(stop) })
}

pub(crate) fn standard(peers: u16, channels: u8) -> Config {
    // SAFETY: any numbers may be passed.
    unsafe { gofnjerta_standard(peers, channels) }
}

/// An open host of the library, and what takes its record: one writer or none, in memory that stays where it is.
pub(crate) struct Handle(UnsafeCell<RawHost>, Vec<Writer>);

// SAFETY: any thread may call or close a handle, one at a time. `UnsafeCell` makes it no `Sync`, so that no two threads call at once.
unsafe impl Send for Handle {}

impl Drop for Handle {
    fn drop(&mut self) {
        // SAFETY: the handle is open, and nothing uses it afterwards.
        unsafe { gofnjerta_close(self.raw()) };
        self.1.clear(); // only now is the record whole
    }
}

impl Handle {
    #[inline]
    fn raw(&self) -> *mut RawHost {
        self.0.get()
    }

    pub(crate) fn open(config: &Config) -> Result<Handle, Error> {
        let mut host = RawHost { at: ptr::null_mut(), is_open: false };
        // SAFETY: the handle is all zero bytes; both pointers are to values of their types.
        answer(unsafe { gofnjerta_open(&mut host, config) })?;
        Ok(Handle(UnsafeCell::new(host), Vec::new()))
    }

    pub(crate) fn record(config: &Config, writer: Writer) -> Result<Handle, Error> {
        let mut host = RawHost { at: ptr::null_mut(), is_open: false };
        let mut writers = Vec::new();
        writers.try_reserve_exact(1).map_err(|_| Error::Memory)?;
        writers.push(writer);
        // SAFETY: the handle is all zero bytes; the pointers are to values of their types. The writer is dropped after the handle is closed.
        answer(unsafe { gofnjerta_record(&mut host, config, write_record, writers.as_mut_ptr().cast()) })?;
        Ok(Handle(UnsafeCell::new(host), writers))
    }

    pub(crate) fn connect(&mut self, to: SocketAddrV4, channels: u8, info: u32, word: u32) -> Result<Peer, Error> {
        let mut peer = NO_PEER;
        // SAFETY: the handle is open, and `peer` is a value of its type.
        answer(unsafe { gofnjerta_connect(self.raw(), to.into(), channels, info, word, &mut peer) })?;
        Ok(peer)
    }

    #[inline]
    pub(crate) fn submit(&mut self, peer: Peer, channel: u8, flags: u8, body: &[u8]) -> Result<(), Error> {
        // SAFETY: the handle is open, and as many bytes can be read as are named.
        answer(unsafe { gofnjerta_submit(self.raw(), peer, channel, flags, body.as_ptr().cast(), body.len()) })
    }

    #[inline]
    pub(crate) fn broadcast(&mut self, peers: &[Peer], channel: u8, flags: u8, body: &[u8]) -> Result<(), Error> {
        // SAFETY: the handle is open, and as many peers and bytes can be read as are named.
        answer(unsafe { gofnjerta_broadcast(self.raw(), peers.as_ptr(), peers.len(), channel, flags, body.as_ptr().cast(), body.len()) })
    }

    /// Writes to `numbers`, which has one for each peer, what its submission answered.
    pub(crate) fn broadcast_each(&mut self, peers: &[Peer], channel: u8, flags: u8, body: &[u8], numbers: &mut [u32]) -> Result<(), Error> {
        assert_eq!(peers.len(), numbers.len());
        let (at, length) = (body.as_ptr().cast(), body.len());
        // SAFETY: the handle is open, as many peers and bytes can be read as are named, and a number can be written for each peer.
        answer(unsafe {
            gofnjerta_broadcast_each(self.raw(), peers.as_ptr(), peers.len(), channel, flags, at, length, numbers.as_mut_ptr())
        })
    }

    #[inline]
    pub(crate) fn receive(&mut self, from: SocketAddrV4, datagram: &[u8]) -> Result<RawReceived, Error> {
        let mut received = RawReceived::default();
        // SAFETY: the handle is open, as many bytes can be read as are named, and `received` is a value of its type.
        answer(unsafe { gofnjerta_receive(self.raw(), from.into(), datagram.as_ptr().cast(), datagram.len(), &mut received) })?;
        Ok(received)
    }

    /// The next datagram is written to the front of the room: its length, where it is to be sent, and its peer.
    #[inline]
    pub(crate) fn service(&mut self, room: &mut [u8]) -> Result<Option<(usize, SocketAddrV4, Peer)>, Error> {
        let mut datagram = RawDatagram { length: 0, to: NO_ADDRESS, peer: NO_PEER };
        // SAFETY: the handle is open, as many bytes can be written as are named, and `datagram` is a value of its type.
        answer(unsafe { gofnjerta_service(self.raw(), room.as_mut_ptr().cast(), room.len(), &mut datagram) })?;
        Ok(match datagram.length {
            0 => None,
            length => Some((length as usize, datagram.to.into(), datagram.peer)),
        })
    }

    #[inline]
    pub(crate) fn tick(&mut self, ms: u32) -> Result<(), Error> {
        // SAFETY: the handle is open.
        answer(unsafe { gofnjerta_tick(self.raw(), ms) })
    }

    #[inline]
    pub(crate) fn due_in(&self) -> Result<u32, Error> {
        let mut ms = 0;
        // SAFETY: the handle is open, and `ms` is a value of its type.
        answer(unsafe { gofnjerta_due_in(self.raw(), &mut ms) })?;
        Ok(ms)
    }

    /// The next event is written; of kind 0 if there is none, or if the call is refused.
    #[inline]
    pub(crate) fn next_event(&mut self, event: &mut RawEvent) -> Result<(), Error> {
        // SAFETY: the handle is open, and `event` is a value of its type.
        answer(unsafe { gofnjerta_next_event(self.raw(), event) })
    }

    /// The bytes of the packet that the last event told of, which are so many, in place of what was in the room. `Memory` if it can't grow
    /// so far: then the call may be repeated.
    #[inline]
    pub(crate) fn body<'a>(&mut self, room: &'a mut Vec<u8>, length: u64) -> Result<&'a [u8], Error> {
        let length = usize::try_from(length).map_err(|_| Error::TooLarge)?;
        if room.capacity() < length {
            grow(room, length)?;
        }
        // SAFETY: the handle is open, and the vector has room for so many bytes. If the answer is 0 the library has written them all.
        unsafe {
            answer(gofnjerta_body(self.raw(), room.as_mut_ptr().cast(), length))?;
            room.set_len(length);
        }
        Ok(room)
    }

    pub(crate) fn disconnect(&mut self, peer: Peer, info: u32) -> Result<(), Error> {
        // SAFETY: the handle is open.
        answer(unsafe { gofnjerta_disconnect(self.raw(), peer, info) })
    }

    pub(crate) fn disconnect_now(&mut self, peer: Peer, info: u32) -> Result<(), Error> {
        // SAFETY: the handle is open.
        answer(unsafe { gofnjerta_disconnect_now(self.raw(), peer, info) })
    }

    pub(crate) fn disconnect_later(&mut self, peer: Peer, info: u32) -> Result<(), Error> {
        // SAFETY: the handle is open.
        answer(unsafe { gofnjerta_disconnect_later(self.raw(), peer, info) })
    }

    pub(crate) fn set_bandwidth(&mut self, incoming: u32, outgoing: u32) -> Result<(), Error> {
        // SAFETY: the handle is open.
        answer(unsafe { gofnjerta_set_bandwidth(self.raw(), incoming, outgoing) })
    }

    pub(crate) fn set_secret(&mut self, key: &[u8; 32]) -> Result<(), Error> {
        // SAFETY: the handle is open, and the key has its 32 bytes.
        answer(unsafe { gofnjerta_set_secret(self.raw(), key.as_ptr()) })
    }

    pub(crate) fn give_way(&mut self) -> Result<(), Error> {
        // SAFETY: the handle is open.
        answer(unsafe { gofnjerta_give_way(self.raw()) })
    }

    pub(crate) fn set_most(&mut self, peers: u16) -> Result<(), Error> {
        // SAFETY: the handle is open.
        answer(unsafe { gofnjerta_set_most(self.raw(), peers) })
    }

    pub(crate) fn throttle_configure(&mut self, peer: Peer, interval: u32, acceleration: u32, deceleration: u32) -> Result<(), Error> {
        // SAFETY: the handle is open.
        answer(unsafe { gofnjerta_throttle_configure(self.raw(), peer, interval, acceleration, deceleration) })
    }

    pub(crate) fn set_ping_interval(&mut self, peer: Peer, ms: u32) -> Result<(), Error> {
        // SAFETY: the handle is open.
        answer(unsafe { gofnjerta_set_ping_interval(self.raw(), peer, ms) })
    }

    pub(crate) fn set_timeout(&mut self, peer: Peer, limit: u32, minimum: u32, maximum: u32) -> Result<(), Error> {
        // SAFETY: the handle is open.
        answer(unsafe { gofnjerta_set_timeout(self.raw(), peer, limit, minimum, maximum) })
    }

    #[inline]
    pub(crate) fn read_peer(&self, peer: Peer) -> Result<RawReading, Error> {
        let mut reading = RawReading {
            state: 0,
            mtu: 0,
            window: 0,
            connect_id: 0,
            round_trip: 0,
            variance: 0,
            in_transit: 0,
            throttle: 0,
            throttle_interval: 0,
            acceleration: 0,
            deceleration: 0,
            address: NO_ADDRESS,
            slot: 0,
            channels: 0,
            incoming_session: 0,
            outgoing_session: 0,
        };
        // SAFETY: the handle is open, and `reading` is a value of its type.
        answer(unsafe { gofnjerta_read_peer(self.raw(), peer, &mut reading) })?;
        Ok(reading)
    }

    pub(crate) fn read_allowance(&self, peer: Peer) -> Result<u32, Error> {
        let mut bytes = 0;
        // SAFETY: the handle is open, and `bytes` is a value of its type.
        answer(unsafe { gofnjerta_read_allowance(self.raw(), peer, &mut bytes) })?;
        Ok(bytes)
    }

    pub(crate) fn read_totals(&self) -> Result<Totals, Error> {
        let mut totals = Totals::default();
        // SAFETY: the handle is open, and `totals` is a value of its type.
        answer(unsafe { gofnjerta_read_totals(self.raw(), &mut totals) })?;
        Ok(totals)
    }

    pub(crate) fn read_held(&self) -> Result<Held, Error> {
        let mut held = Held::default();
        // SAFETY: the handle is open, and `held` is a value of its type.
        answer(unsafe { gofnjerta_read_held(self.raw(), &mut held) })?;
        Ok(held)
    }

    pub(crate) fn read_slots(&self) -> Result<Slots, Error> {
        let mut slots = Slots::default();
        // SAFETY: the handle is open, and `slots` is a value of its type.
        answer(unsafe { gofnjerta_read_slots(self.raw(), &mut slots) })?;
        Ok(slots)
    }

    pub(crate) fn read_sent_again(&self) -> Result<u64, Error> {
        let mut commands = 0;
        // SAFETY: the handle is open, and `commands` is a value of its type.
        answer(unsafe { gofnjerta_read_sent_again(self.raw(), &mut commands) })?;
        Ok(commands)
    }

    pub(crate) fn set_send_limit(&mut self, bytes: u64, commands: u64) -> Result<(), Error> {
        // SAFETY: the handle is open.
        answer(unsafe { gofnjerta_set_send_limit(self.raw(), bytes, commands) })
    }

    pub(crate) fn read_line(&self, peer: Peer) -> Result<LineReading, Error> {
        let mut line = LineReading::default();
        // SAFETY: the handle is open, and `line` is a value of its type.
        answer(unsafe { gofnjerta_read_line(self.raw(), peer, &mut line) })?;
        Ok(line)
    }

    pub(crate) fn read_traffic(&self, peer: Peer) -> Result<Traffic, Error> {
        let mut traffic = Traffic::default();
        // SAFETY: the handle is open, and `traffic` is a value of its type.
        answer(unsafe { gofnjerta_read_traffic(self.raw(), peer, &mut traffic) })?;
        Ok(traffic)
    }

    pub(crate) fn ending(&self, peer: Peer) -> Result<u32, Error> {
        let mut why = 0;
        // SAFETY: the handle is open, and `why` is a value of its type.
        answer(unsafe { gofnjerta_ending(self.raw(), peer, &mut why) })?;
        Ok(why)
    }
}

#[repr(C)]
struct PollFd {
    fd: c_int,
    events: i16,
    revents: i16,
}

const POLLIN: i16 = 1;

extern "C" {
    fn getentropy(buffer: *mut c_void, length: usize) -> c_int;
    fn poll(fds: *mut PollFd, count: c_ulong, timeout: c_int) -> c_int;
}

/// Waits until something came to the socket, for so many milliseconds at most.
pub(crate) fn wait_for(socket: &UdpSocket, ms: u32) {
    let mut asked = PollFd { fd: socket.as_raw_fd(), events: POLLIN, revents: 0 };
    let ms = c_int::try_from(ms).unwrap_or(c_int::MAX);
    // SAFETY: one entry is there, and the socket is open. An answer isn't needed: the socket is read in any case.
    unsafe { poll(&mut asked, 1, ms) };
}

/// Fills up to 256 bytes with bytes that the system drew. Whether it had some to give.
pub(crate) fn draw(bytes: &mut [u8]) -> bool {
    // SAFETY: as many bytes can be written as are named.
    unsafe { getentropy(bytes.as_mut_ptr().cast(), bytes.len()) == 0 }
}

#[cfg(test)]
mod tests {
    use super::*;
    use std::mem::{align_of, size_of, MaybeUninit};
    use std::ptr::addr_of;

    /// The lines of a structure as the header's table has them.
    fn structure<T>(name: &str) -> String {
        format!("GOFNJERTA_STRUCT({name}, {}, {});", size_of::<T>(), align_of::<T>())
    }

    /// How many bytes a field has, by a pointer to it.
    fn size_at<T>(_at: *const T) -> usize {
        size_of::<T>()
    }

    /// The lines of a structure and of each of its fields.
    macro_rules! lines {
        ($lines:ident, $name:literal, $type:ty, $($field:ident),+) => {
            $lines.push(structure::<$type>($name));
            let value = MaybeUninit::<$type>::uninit();
            let begin = value.as_ptr();
            $(
                // SAFETY: only the address of a field is taken.
                let field = unsafe { addr_of!((*begin).$field) };
                $lines.push(format!(
                    "GOFNJERTA_FIELD({}, {}, {}, {});",
                    $name,
                    stringify!($field),
                    field as usize - begin as usize,
                    size_at(field)
                ));
            )+
        };
    }

    fn lines_here() -> Vec<String> {
        let mut lines = Vec::new();
        lines!(lines, "gofnjerta_host", RawHost, at, is_open);
        lines!(lines, "gofnjerta_config", Config, peers, channels, mtu, incoming, outgoing, max_packet, max_waiting, generations, clock);
        lines!(lines, "gofnjerta_address", RawAddress, ip, port);
        lines!(lines, "gofnjerta_peer", Peer, slot, generation);
        lines!(lines, "gofnjerta_received", RawReceived, status, handled, stop);
        lines!(lines, "gofnjerta_datagram", RawDatagram, length, to, peer);
        lines!(lines, "gofnjerta_event", RawEvent, kind, info, peer, channel, flags, length);
        lines!(
            lines,
            "gofnjerta_reading",
            RawReading,
            state,
            mtu,
            window,
            connect_id,
            round_trip,
            variance,
            in_transit,
            throttle,
            throttle_interval,
            acceleration,
            deceleration,
            address,
            slot,
            channels,
            incoming_session,
            outgoing_session
        );
        lines!(
            lines,
            "gofnjerta_line",
            LineReading,
            round_trip,
            variance,
            lowest,
            lowest_before,
            throttle,
            allowance,
            in_transit,
            commands,
            bytes
        );
        lines!(lines, "gofnjerta_traffic", Traffic, sent, again, acknowledged);
        lines!(lines, "gofnjerta_totals", Totals, datagrams_in, bytes_in, datagrams_out, bytes_out);
        lines!(lines, "gofnjerta_held", Held, channels, senders, packets, undispatched, bytes, acknowledgements, memory, most_memory);
        lines!(lines, "gofnjerta_slots", Slots, free, spent, connecting, answering, connected, leaving);
        lines
    }

    #[test]
    fn sizes_and_offsets_are_those_of_the_header() {
        let table = std::fs::read_to_string(env!("GOFNJERTA_LAYOUT")).expect("gofnjerta_layout.h");
        let wanted: Vec<&str> =
            table.lines().filter(|line| line.starts_with("GOFNJERTA_STRUCT(") || line.starts_with("GOFNJERTA_FIELD(")).collect();
        assert!(wanted.len() > 60, "the table has {} lines", wanted.len());
        assert_eq!(lines_here(), wanted);
    }

    #[test]
    fn statuses_are_numbered_as_in_c() {
        for number in 1..50 {
            let error = Error::numbered(number);
            assert_eq!(error.number(), number);
            if let Error::Other(_) = error {
                continue;
            }
            let name = format!("{error:?}");
            assert!(error.name().ends_with(&name), "{} is no {name}", error.name());
        }
        assert_eq!(answer(0), Ok(()));
        assert_eq!(RawReceived::default().status, 0);
    }
}
