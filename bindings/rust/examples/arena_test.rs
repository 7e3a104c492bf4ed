//! A game and its test: `arena_test [SEEDS [FIRST]]` plays it over bad lines in memory, with 1,000 seeds from 0 on if nothing is named. If
//! a game goes wrong it prints the seed and leaves the server's datagrams in a capture, which `enet_relay inspect --timeline` draws.

use gofnjerta::{Config, Delivery, Error, Event, Host, Line, Network, Node, Peer};
use std::collections::BTreeMap;

const MOVES: u8 = 0; // the channel of what players do
const SNAPSHOTS: u8 = 1; // the channel of where they are

/// The game: where each player is. A player moves by a byte 0 to 3.
#[derive(Default)]
struct Arena {
    players: BTreeMap<Peer, [i8; 2]>,
}

impl Arena {
    /// Takes what came. Who sends anything but a move is sent away.
    fn take_events(&mut self, host: &mut Host, room: &mut Vec<u8>) -> Result<(), Error> {
        while let Some(event) = host.next_event(room)? {
            match event {
                Event::Connect { peer, .. } => {
                    self.players.insert(peer, [0, 0]);
                }
                Event::Disconnect { peer, .. } => {
                    self.players.remove(&peer);
                }
                Event::Receive { peer, channel: MOVES, data, .. } if data.len() == 1 && data[0] < 4 => {
                    if let Some(at) = self.players.get_mut(&peer) {
                        let [x, y] = *at;
                        *at = [[x + 1, y], [x - 1, y], [x, y + 1], [x, y - 1]][usize::from(data[0])];
                    }
                }
                Event::Receive { peer, .. } => {
                    let _ = host.disconnect(peer, 1);
                }
                _ => {}
            }
        }
        Ok(())
    }

    /// Sends everybody where all are. It may be lost: the next one follows.
    fn send_snapshot(&self, host: &mut Host) -> Result<(), Error> {
        let peers: Vec<Peer> = self.players.keys().copied().collect();
        let snapshot: Vec<u8> = self.players.values().flatten().map(|at| *at as u8).collect();
        host.broadcast(&peers, SNAPSHOTS, &snapshot, Delivery::Unreliable)
    }
}

/// A player: it moves twenty times to the right and twenty to the left once it is in.
struct Player {
    node: Node,
    peer: Peer,
    is_in: bool,
    moves: u8,
    snapshot: Vec<u8>,
}

/// Plays for six seconds, and says what is wrong.
fn play(net: &mut Network) -> Result<Option<String>, Error> {
    net.set_line(Line { loss: 0.1, delay: 30, jitter: 20, reorder: 0.05, repeat: 0.02, ..Line::default() });
    let mut arena = Arena::default();
    let server = net.add(&Config::standard(3, 2))?;
    net.capture(server);
    let (mut players, mut room) = (Vec::new(), Vec::new());
    for _ in 0..3 {
        let node = net.add(&Config::standard(1, 2))?;
        let peer = net.connect(node, server, 2, 0)?;
        players.push(Player { node, peer, is_in: false, moves: 0, snapshot: Vec::new() });
    }
    for _ in 0..120 {
        net.pass(50)?;
        arena.take_events(net.host(server), &mut room)?;
        arena.send_snapshot(net.host(server))?;
        for player in &mut players {
            let host = net.host(player.node);
            while let Some(event) = host.next_event(&mut room)? {
                match event {
                    Event::Connect { .. } => player.is_in = true,
                    Event::Receive { data, .. } => player.snapshot = data.to_vec(),
                    event => return Ok(Some(format!("{event:?} at {:?}", player.node))),
                }
            }
            if player.is_in && player.moves < 40 {
                host.submit(player.peer, MOVES, &[player.moves / 20], Delivery::Reliable)?;
                player.moves += 1;
            }
        }
    }
    let all_back = players.iter().all(|player| player.snapshot == [0; 6]);
    Ok(if all_back { None } else { Some(format!("the players are at {:?}", arena.players)) })
}

fn main() {
    let mut words = std::env::args().skip(1).map(|word| word.parse().expect("a number"));
    let (seeds, first) = (words.next().unwrap_or(1000), words.next().unwrap_or(0));
    for seed in first..first + seeds {
        let mut net = Network::new(seed);
        if let Some(wrong) = play(&mut net).expect("memory") {
            println!("seed {seed}: {wrong}");
            let file = format!("seed-{seed}.pcap");
            net.write_capture(&file).expect("a file");
            println!("its datagrams are in {file}");
            std::process::exit(1);
        }
    }
    println!("{seeds} games went well");
}
