//! A small arena: `arena [ADDRESS]`, at 0.0.0.0:7777 if no address is named. It runs until it is stopped.
//!
//! A player moves by a reliable packet of one byte on channel 0: 0 right, 1 left, 2 up, 3 down. Who sends anything else is sent away, with
//! the number 1. Twenty times a second each player gets a snapshot on channel 1, which may be lost: its number, and of each player the slot
//! (2 bytes), x and y (2 bytes each), all little-endian. Once a second it is also sent on channel 0, reliably. A player whose reliable
//! packets are in transit for over a second is slow, by the readings: it gets each fourth snapshot until all is acknowledged.

use gofnjerta::{Delivery, Endpoint, EndpointError, Error, Event, Peer};
use std::collections::BTreeMap;
use std::time::{Duration, Instant};

const ROUND: Duration = Duration::from_millis(50);
const ROUNDS_PER_SECOND: u32 = 20;
const GARBAGE: u32 = 1;

/// What the server knows of a player.
#[derive(Default)]
struct Player {
    x: i16,
    y: i16,
    /// For how many rounds something was in transit to it.
    rounds_in_transit: u32,
}

impl Player {
    fn is_slow(&self) -> bool {
        self.rounds_in_transit > ROUNDS_PER_SECOND
    }
}

#[derive(Default)]
struct Arena {
    players: BTreeMap<Peer, Player>,
    number: u32,
}

impl Arena {
    fn take(&mut self, server: &mut Endpoint, event: Event<'_>) {
        match event {
            Event::Connect { peer, address, .. } => {
                println!("{} in from {address}", peer.slot);
                self.players.insert(peer, Player::default());
            }
            Event::Disconnect { peer, address, .. } => {
                println!("{} out at {address}", peer.slot);
                self.players.remove(&peer);
            }
            Event::Receive { peer, channel, data, .. } => {
                let is_move = channel == 0 && data.len() == 1 && self.step(peer, data[0]);
                // A peer that is disconnecting already is refused.
                if !is_move && server.disconnect(peer, GARBAGE).is_ok() {
                    println!("{} garbage", peer.slot);
                }
            }
            _ => {}
        }
    }

    /// Moves a player. Whether that is a move.
    fn step(&mut self, peer: Peer, step: u8) -> bool {
        let player = self.players.entry(peer).or_default();
        match step {
            0 => player.x = player.x.wrapping_add(1),
            1 => player.x = player.x.wrapping_sub(1),
            2 => player.y = player.y.wrapping_add(1),
            3 => player.y = player.y.wrapping_sub(1),
            _ => return false,
        }
        true
    }

    fn snapshot(&self) -> Vec<u8> {
        let mut snapshot = self.number.to_le_bytes().to_vec();
        for (peer, player) in &self.players {
            for part in [peer.slot.to_le_bytes(), player.x.to_le_bytes(), player.y.to_le_bytes()] {
                snapshot.extend_from_slice(&part);
            }
        }
        snapshot
    }

    /// Notices who is slow.
    fn read(&mut self, server: &Endpoint) {
        for (peer, player) in &mut self.players {
            let was_slow = player.is_slow();
            match server.host().read_peer(*peer) {
                Ok(reading) if reading.in_transit > 0 => player.rounds_in_transit += 1,
                _ => player.rounds_in_transit = 0,
            }
            if player.is_slow() != was_slow {
                println!("{} {}", peer.slot, if was_slow { "steady" } else { "slow" });
            }
        }
    }

    /// Sends everybody where all are.
    fn send(&mut self, server: &mut Endpoint) -> Result<(), Error> {
        self.number += 1;
        let snapshot = self.snapshot();
        let everybody: Vec<Peer> = self.players.keys().copied().collect();
        if self.number % ROUNDS_PER_SECOND == 0 {
            server.broadcast(&everybody, 0, &snapshot, Delivery::Reliable)?;
        }
        let is_for_all = self.number % 4 == 0;
        let steady = self.players.iter().filter(|(_, player)| is_for_all || !player.is_slow());
        let steady: Vec<Peer> = steady.map(|(peer, _)| *peer).collect();
        server.broadcast(&steady, 1, &snapshot, Delivery::Unreliable)
    }
}

fn main() -> Result<(), EndpointError> {
    let address = std::env::args().nth(1);
    let mut server = Endpoint::server(address.as_deref().unwrap_or("0.0.0.0:7777"), 32, 2)?;
    println!("listening at {}", server.address()?);
    let mut arena = Arena::default();
    let (mut next, mut room) = (Instant::now(), Vec::new());
    loop {
        next += ROUND;
        while let Some(event) = server.service(next.saturating_duration_since(Instant::now()), &mut room)? {
            arena.take(&mut server, event);
        }
        arena.read(&server);
        arena.send(&mut server)?;
        server.flush()?;
    }
}
