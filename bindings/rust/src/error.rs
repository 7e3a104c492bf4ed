//! Why a call was refused, and why a datagram wasn't read to its end.

use crate::ffi;
use std::{fmt, io};

/// Why a call of a [`Host`](crate::Host) was refused. It has then changed nothing in the host.
#[derive(Clone, Copy, Debug, PartialEq, Eq, Hash)]
#[non_exhaustive]
pub enum Error {
    /// No memory was to be had (1). The call may be repeated, except a broadcast, which some peers may have got.
    Memory,
    /// The slot is free or out of range, or has another generation: the peer is gone (2).
    NoSuchPeer,
    /// The peer's state doesn't allow the call (3).
    NotConnected,
    /// The channel isn't below the peer's channel count (4).
    NoSuchChannel,
    /// The packet is longer than `max_packet`, or would be cut into more than 16,384 pieces (5).
    TooLarge,
    /// No slot is free that has a generation left (7).
    NoSlot,
    /// A setting is out of its range, or no channel was asked for (8).
    BadConfig,
    /// As much is queued or unacknowledged for the peer as [`set_send_limit`](crate::Host::set_send_limit) says (9).
    Full,
    /// The handle holds no host (32). No call of this crate returns it.
    Closed,
    /// The handle holds a host already (33). No call of this crate returns it.
    Open,
    /// The buffer is too short (34). No call of this crate returns it.
    Short,
    /// No body was staged (35). No call of this crate returns it.
    Unstaged,
    /// The last event was no packet (36). No call of this crate returns it.
    Untold,
    /// A pointer is NULL (37). No call of this crate returns it.
    Null,
    /// A number that this crate doesn't know, from a newer library.
    Other(u32),
}

impl Error {
    /// The error with this number, which isn't 0.
    #[cold]
    pub(crate) fn numbered(number: u32) -> Error {
        match number {
            1 => Error::Memory,
            2 => Error::NoSuchPeer,
            3 => Error::NotConnected,
            4 => Error::NoSuchChannel,
            5 => Error::TooLarge,
            7 => Error::NoSlot,
            8 => Error::BadConfig,
            9 => Error::Full,
            32 => Error::Closed,
            33 => Error::Open,
            34 => Error::Short,
            35 => Error::Unstaged,
            36 => Error::Untold,
            37 => Error::Null,
            other => Error::Other(other),
        }
    }

    /// Its number in `gofnjerta.h`.
    pub fn number(self) -> u32 {
        match self {
            Error::Memory => 1,
            Error::NoSuchPeer => 2,
            Error::NotConnected => 3,
            Error::NoSuchChannel => 4,
            Error::TooLarge => 5,
            Error::NoSlot => 7,
            Error::BadConfig => 8,
            Error::Full => 9,
            Error::Closed => 32,
            Error::Open => 33,
            Error::Short => 34,
            Error::Unstaged => 35,
            Error::Untold => 36,
            Error::Null => 37,
            Error::Other(number) => number,
        }
    }

    /// Its name as the library gives it, for instance `E5 TooLarge`; `?` for a number that the library doesn't know.
    pub fn name(self) -> &'static str {
        ffi::error_name(self.number())
    }
}

impl fmt::Display for Error {
    fn fmt(&self, f: &mut fmt::Formatter<'_>) -> fmt::Result {
        f.write_str(self.name())
    }
}

impl std::error::Error for Error {}

/// Why the rest of a datagram wasn't read. A program need not care, whatever the datagram is.
#[derive(Clone, Copy, Debug, PartialEq, Eq, Hash)]
pub struct Stop(pub(crate) u32);

impl Stop {
    /// No memory was to be had. The other end sends again what was reliable.
    pub const MEMORY: Stop = Stop(11);

    /// Its number, from 1 on.
    pub fn number(self) -> u32 {
        self.0
    }

    /// Its name as the library gives it, for instance `S6 BadCommand`.
    pub fn name(self) -> &'static str {
        ffi::stop_name(self.0)
    }
}

impl fmt::Display for Stop {
    fn fmt(&self, f: &mut fmt::Formatter<'_>) -> fmt::Result {
        f.write_str(self.name())
    }
}

/// Why a call of an [`Endpoint`](crate::Endpoint) failed.
#[derive(Debug)]
#[non_exhaustive]
pub enum EndpointError {
    /// The host refused it.
    Host(Error),
    /// The system did: a socket, an address or random bytes can't be had.
    System(io::Error),
}

impl fmt::Display for EndpointError {
    fn fmt(&self, f: &mut fmt::Formatter<'_>) -> fmt::Result {
        match self {
            EndpointError::Host(error) => error.fmt(f),
            EndpointError::System(error) => error.fmt(f),
        }
    }
}

impl std::error::Error for EndpointError {
    fn source(&self) -> Option<&(dyn std::error::Error + 'static)> {
        match self {
            EndpointError::Host(error) => Some(error),
            EndpointError::System(error) => Some(error),
        }
    }
}

impl From<Error> for EndpointError {
    fn from(error: Error) -> EndpointError {
        EndpointError::Host(error)
    }
}

impl From<io::Error> for EndpointError {
    fn from(error: io::Error) -> EndpointError {
        EndpointError::System(error)
    }
}
