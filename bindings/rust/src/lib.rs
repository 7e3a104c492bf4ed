//! A host for ENet 1.3: reliable, unreliable and unsequenced packets over UDP, between this program and any that speaks ENet 1.3, as those
//! that use libenet. It is Gofnjerta's proved host, by its library for C. It is for servers and tests on Linux x86-64.
//!
//! - [`Endpoint`] is a host with a UDP socket and the clock: a server or a client.
//! - [`Host`] has neither: datagrams, calls and time go in, datagrams and events come out.
//! - [`Network`] is any number of hosts in memory, on a line that loses, delays, repeats and reorders datagrams as drawn from a seed.
//!
//! A server that sends each packet back:
//!
//! ```no_run
//! use gofnjerta::{Endpoint, Event};
//! use std::time::Duration;
//!
//! fn main() -> Result<(), gofnjerta::EndpointError> {
//!     let mut server = Endpoint::server("0.0.0.0:7777", 32, 2)?; // 32 players, 2 channels
//!     let mut room = Vec::new(); // for the bytes of the packet that is told
//!     loop {
//!         match server.service(Duration::from_secs(1), &mut room)? {
//!             Some(Event::Receive { peer, channel, delivery, data, .. }) => {
//!                 // A peer may have gone since its packet came.
//!                 let _ = server.submit(peer, channel, data, delivery);
//!             }
//!             _ => {}
//!         }
//!     }
//! }
//! ```
//!
//! Proved is the host behind the calls. This crate and the C code between are tested.
//!
//! **Memory.** A call that finds no memory returns [`Error::Memory`] and may be repeated, except a broadcast, which some peers may have
//! got. It doesn't abort the program, except where Rust's own library does: for an address that is given as text, and in
//! [`Network::write_capture`].
//!
//! **Threads.** A host, an endpoint or a network may be moved to another thread, and is used by one at a time.
#![deny(missing_docs)]
#![deny(unsafe_code)]

#[cfg(not(all(target_os = "linux", target_arch = "x86_64")))]
compile_error!("gofnjerta is for Linux on x86-64");

mod draw;
mod endpoint;
mod error;
#[allow(unsafe_code)]
mod ffi;
mod host;
mod line;
mod network;
mod pcap;

pub use draw::random;
pub use endpoint::Endpoint;
pub use error::{EndpointError, Error, Stop};
pub use ffi::{Config, Held, LineReading, Peer, Slots, Totals, Traffic};
pub use host::{version, Datagram, Delivery, Ending, Event, Host, Reading, Received, State, ENDLESS, FULL};
pub use line::Line;
pub use network::{Network, Node};
