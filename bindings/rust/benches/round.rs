//! A game's rounds over the crate, as round.c makes them over the library for C: `round SHAPE CLIENTS PACKETS BYTES FLAGS ROUNDS`. That
//! file says what they are. `scripts/by-hand/count-rust.sh` counts the instructions of both.

use gofnjerta::{Config, Delivery, Error, Event, Host, Peer};
use std::net::{Ipv4Addr, SocketAddrV4};

const CHANNELS: u8 = 2;
const MS: u32 = 16;
const PORT: u16 = 7777;
const SERVER: u32 = 0x0A00_0001;

/// What the clients took.
#[derive(Default)]
struct Taken {
    packets: u64,
    bytes: u64,
    sum: u64,
}

/// A client, with its address and the name that the server has there.
struct Client {
    host: Host,
    address: SocketAddrV4,
    there: Peer,
}

fn address_of(ip: u32) -> SocketAddrV4 {
    SocketAddrV4::new(Ipv4Addr::from(ip), PORT)
}

/// The clients' datagrams go to the server.
fn carry_up(server: &mut Host, clients: &mut [Client]) -> Result<(), Error> {
    for client in clients {
        while let Some(datagram) = client.host.transmit()? {
            server.receive(client.address, datagram.data)?;
        }
    }
    Ok(())
}

/// The server's datagrams go to the clients.
fn carry_down(server: &mut Host, clients: &mut [Client]) -> Result<(), Error> {
    let from = address_of(SERVER);
    while let Some(datagram) = server.transmit()? {
        let client = u32::from(*datagram.to.ip()) - SERVER - 1;
        clients[client as usize].host.receive(from, datagram.data)?;
    }
    Ok(())
}

/// What came to the server goes back to its sender, or to all.
fn serve(server: &mut Host, room: &mut Vec<u8>, players: &mut Vec<Peer>, is_relay: bool, delivery: Delivery) -> Result<(), Error> {
    while let Some(event) = server.next_event(room)? {
        match event {
            Event::Connect { peer, .. } => players.push(peer),
            Event::Receive { channel, data, .. } if is_relay => server.broadcast(players, channel, data, delivery)?,
            Event::Receive { peer, channel, data, .. } => server.submit(peer, channel, data, delivery)?,
            _ => {}
        }
    }
    Ok(())
}

fn take(client: &mut Host, room: &mut Vec<u8>, taken: &mut Taken) -> Result<(), Error> {
    while let Some(event) = client.next_event(room)? {
        if let Event::Receive { data, .. } = event {
            taken.packets += 1;
            taken.bytes += data.len() as u64;
            if let [first, ..] = data[..] {
                taken.sum += u64::from(first) + u64::from(data[data.len() - 1]);
            }
        }
    }
    Ok(())
}

fn main() -> Result<(), Error> {
    let words: Vec<String> = std::env::args().skip(1).collect();
    if words.len() != 6 {
        std::process::exit(2);
    }
    let number = |at: usize| words[at].parse::<usize>().expect("a number");
    let (is_relay, count, packets, length, rounds) = (words[0] == "relay", number(1), number(2), number(3), number(5));
    let delivery = [Delivery::Unreliable, Delivery::Reliable][usize::from(number(4) == 1)];
    let mut body = vec![0; length];
    let mut room = Vec::new();
    let mut server = Host::open(&Config::standard(count as u16, CHANNELS))?;
    let mut clients = Vec::new();
    let mut players = Vec::new();
    let mut taken = Taken::default();
    for number in 0..count as u32 {
        let mut host = Host::open(&Config::standard(1, CHANNELS))?;
        let there = host.connect(address_of(SERVER), CHANNELS, 0, 1000 + number)?;
        clients.push(Client { host, address: address_of(SERVER + 1 + number), there });
    }
    for round in 0..rounds + 10 {
        server.tick(MS)?;
        for Client { host, there, .. } in &mut clients {
            host.tick(MS)?;
            body.fill(round as u8);
            for n in (0..packets).filter(|_| round >= 10) {
                host.submit(*there, n as u8 % CHANNELS, &body, delivery)?;
            }
        }
        carry_up(&mut server, &mut clients)?;
        serve(&mut server, &mut room, &mut players, is_relay, delivery)?;
        carry_down(&mut server, &mut clients)?;
        for client in &mut clients {
            take(&mut client.host, &mut room, &mut taken)?;
        }
    }
    let Taken { packets, bytes, sum } = taken;
    let totals = server.read_totals()?;
    println!("{packets} packets, {bytes} bytes, sum {sum}; {} datagrams in, {} out", totals.datagrams_in, totals.datagrams_out);
    Ok(())
}
