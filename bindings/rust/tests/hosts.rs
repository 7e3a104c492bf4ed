//! Hosts, networks and endpoints, as a program uses them.

use gofnjerta::{
    random, version, Config, Delivery, Endpoint, EndpointError, Error, Event, Host, Line, Network, Node, Peer, State, Stop, FULL,
};
use std::net::{Ipv4Addr, SocketAddrV4, UdpSocket};
use std::time::{Duration, Instant};

/// A line with all faults.
const BAD: Line = Line { loss: 0.1, delay: 30, jitter: 20, reorder: 0.1, repeat: 0.05, rate: 200_000, queue: 100 };

/// A server for four and a client that is connected to it. The client's peer at the server, and the server's at the client.
fn pair(net: &mut Network) -> Result<(Node, Node, Peer, Peer), Error> {
    let server = net.add(&Config::standard(4, 2))?;
    let client = net.add(&Config::standard(1, 2))?;
    let there = net.connect(client, server, 2, 77)?;
    let mut room = Vec::new();
    for _ in 0..100 {
        net.pass(100)?;
        if let Some(event) = net.host(server).next_event(&mut room)? {
            let here = event.peer();
            assert!(matches!(event, Event::Connect { info: 77, .. }), "{event:?}");
            assert_eq!(event.address(), net.address(client));
            net.pass(2_000)?;
            let event = net.host(client).next_event(&mut room)?.expect("an event of the client");
            assert!(matches!(event, Event::Connect { info: 0, peer, .. } if peer == there), "{event:?}");
            assert_eq!(event.address(), net.address(server));
            return Ok((server, client, here, there));
        }
    }
    panic!("no connection");
}

/// Packets of many lengths go both ways over a bad line; what a host sent and got is captured.
fn talk(seed: u64) -> Result<Vec<u8>, Error> {
    let mut net = Network::new(seed);
    net.set_line(BAD);
    let (server, client, here, there) = pair(&mut net)?;
    net.capture(server);
    let lengths = [0, 1, 2, 100, 1363, 1364, 1365, 5000];
    for (number, length) in lengths.iter().enumerate() {
        net.host(client).submit(there, 0, &vec![number as u8; *length], Delivery::Reliable)?;
        net.host(server).submit(here, 0, &vec![number as u8; *length], Delivery::Reliable)?;
        net.host(client).submit(there, 1, &[number as u8; 2000], Delivery::Unreliable)?;
        net.host(client).submit(there, 1, &[number as u8; 20], Delivery::Unsequenced)?;
    }
    net.pass(20_000)?;
    let mut room = Vec::new();
    for (node, other) in [(server, client), (client, server)] {
        let mut next = 0;
        while let Some(event) = net.host(node).next_event(&mut room)? {
            assert_eq!(event.address(), net.address(other));
            match event {
                Event::Receive { channel: 0, delivery: Delivery::Reliable, data, .. } => {
                    assert_eq!(data, vec![next as u8; lengths[next]]);
                    next += 1;
                }
                Event::Receive { channel: 1, delivery, data, .. } => {
                    assert_eq!(data.len(), if delivery == Delivery::Unsequenced { 20 } else { 2000 });
                    assert_ne!(delivery, Delivery::Reliable);
                }
                event => panic!("seed {seed}: {event:?}"),
            }
        }
        assert_eq!(next, lengths.len(), "seed {seed}");
    }
    Ok(net.captured().to_vec())
}

#[test]
fn all_that_is_reliable_arrives_over_a_bad_line() -> Result<(), Error> {
    for seed in 0..50 {
        talk(seed)?;
    }
    Ok(())
}

#[test]
fn the_same_seed_gives_the_same_run_to_the_byte() -> Result<(), Error> {
    let (first, again, other) = (talk(5)?, talk(5)?, talk(6)?);
    assert!(first.len() > 20_000);
    assert_eq!(first, again);
    assert_ne!(first, other);
    Ok(())
}

#[test]
fn a_capture_is_classic_pcap_of_raw_ip() -> Result<(), Error> {
    let capture = talk(1)?;
    let word = |at: usize| u32::from_le_bytes([capture[at], capture[at + 1], capture[at + 2], capture[at + 3]]) as usize;
    assert_eq!((word(0), word(20)), (0xA1B2_C3D4, 101));
    let (mut at, mut count, mut last) = (24, 0, (0, 0));
    while at < capture.len() {
        let time = (word(at), word(at + 4));
        assert!(time >= last && time.1 < 1_000_000);
        last = time;
        let length = word(at + 8);
        assert_eq!(word(at + 12), length);
        let packet = &capture[at + 16..at + 16 + length];
        assert_eq!((packet[0], packet[9]), (0x45, 17));
        let sum: u32 = packet[..20].chunks(2).map(|two| u32::from(two[0]) << 8 | u32::from(two[1])).sum();
        assert_eq!((sum & 0xFFFF) + (sum >> 16), 0xFFFF);
        at += 16 + length;
        count += 1;
    }
    assert_eq!(at, capture.len());
    assert!(count > 50);
    Ok(())
}

#[test]
fn a_connection_outlasts_a_short_outage_and_not_a_long_one() -> Result<(), Error> {
    let mut net = Network::new(3);
    let (server, client, here, there) = pair(&mut net)?;
    net.outage(client, 3_000);
    net.host(server).submit(here, 0, b"late", Delivery::Reliable)?;
    net.pass(8_000)?;
    let mut room = Vec::new();
    assert!(matches!(net.host(client).next_event(&mut room)?, Some(Event::Receive { data: b"late", .. })));
    net.outage(client, 60_000);
    net.pass(60_000)?;
    let addresses = (net.address(server), net.address(client));
    for (node, peer, address) in [(server, here, addresses.1), (client, there, addresses.0)] {
        let event = net.host(node).next_event(&mut room)?.expect("the end");
        assert!(matches!(event, Event::Disconnect { info: 0, .. }), "{event:?}");
        assert_eq!((event.peer(), event.address()), (peer, address));
        assert_eq!(net.host(node).read_peer(peer), Err(Error::NoSuchPeer));
    }
    Ok(())
}

#[test]
fn disconnects_tell_their_number() -> Result<(), Error> {
    let mut net = Network::new(4);
    let mut room = Vec::new();
    for way in 0..3u32 {
        let mut net = Network::new(u64::from(way));
        let (server, client, here, there) = pair(&mut net)?;
        let host = net.host(server);
        match way {
            0 => host.disconnect(here, 10)?,
            1 => host.disconnect_now(here, 11)?,
            _ => host.disconnect_later(here, 12)?,
        }
        net.pass(3_000)?;
        let event = net.host(client).next_event(&mut room)?.expect("the end");
        assert!(matches!(event, Event::Disconnect { info, .. } if info == 10 + way), "{event:?}");
        assert_eq!((event.peer(), event.address()), (there, net.address(server)));
        let event = net.host(server).next_event(&mut room)?;
        assert_eq!(event.is_some(), way != 1, "{event:?}");
    }
    // Nobody is at the address that is asked.
    let alone = net.add(&Config::standard(1, 1))?;
    let nowhere = SocketAddrV4::new(Ipv4Addr::new(10, 9, 9, 9), 9);
    let peer = net.host(alone).connect(nowhere, 1, 0, 1)?;
    net.pass(60_000)?;
    let event = net.host(alone).next_event(&mut room)?.expect("the end");
    assert_eq!((event.peer(), event.address()), (peer, nowhere));
    assert!(matches!(event, Event::Disconnect { info: 0, .. }));
    Ok(())
}

#[test]
fn a_full_server_says_so() -> Result<(), Error> {
    let mut net = Network::new(8);
    let mut config = Config::standard(4, 1);
    config.generations = gofnjerta::ENDLESS;
    let server = net.add(&config)?;
    net.host(server).give_way()?;
    net.host(server).set_most(2)?;
    assert_eq!(net.host(server).set_most(5), Err(Error::BadConfig));
    let (mut room, mut told) = (Vec::new(), Vec::new());
    for _ in 0..3 {
        let client = net.add(&Config::standard(1, 1))?;
        net.connect(client, server, 1, 0)?;
        net.pass(500)?;
        while let Some(event) = net.host(client).next_event(&mut room)? {
            match event {
                Event::Connect { .. } => told.push(None),
                Event::Disconnect { info, .. } => told.push(Some(info)),
                event => panic!("{event:?}"),
            }
        }
    }
    assert_eq!(told[..2], [None, None]);
    assert!(told[2..].contains(&Some(FULL)), "{told:?}");
    Ok(())
}

#[test]
fn what_is_wrong_is_refused() -> Result<(), Error> {
    assert_eq!(Host::open(&Config::standard(0, 1)).map(|_| ()), Err(Error::BadConfig));
    let mut net = Network::new(1);
    let (server, client, here, there) = pair(&mut net)?;
    let host = net.host(server);
    let gone = Peer { generation: here.generation + 1, ..here };
    assert_eq!(host.submit(gone, 0, b"x", Delivery::Reliable), Err(Error::NoSuchPeer));
    assert_eq!(host.submit(here, 2, b"x", Delivery::Reliable), Err(Error::NoSuchChannel));
    assert_eq!(host.submit(here, 0, &vec![0; 23_000_000], Delivery::Reliable), Err(Error::TooLarge));
    host.broadcast(&[gone, here], 0, b"x", Delivery::Reliable)?;
    assert_eq!(host.broadcast(&[here], 9, b"x", Delivery::Reliable), Err(Error::NoSuchChannel));
    assert_eq!(host.disconnect(gone, 0), Err(Error::NoSuchPeer));
    host.disconnect(here, 0)?;
    assert_eq!(host.disconnect(here, 0), Err(Error::NotConnected));
    assert_eq!(host.connect(SocketAddrV4::new(Ipv4Addr::LOCALHOST, 9), 0, 0, 0), Err(Error::BadConfig));
    assert_eq!(net.host(client).connect(SocketAddrV4::new(Ipv4Addr::LOCALHOST, 9), 1, 0, 0), Err(Error::NoSlot));
    let received = net.host(client).receive(SocketAddrV4::new(Ipv4Addr::LOCALHOST, 9), &[1])?;
    assert_eq!((received.handled, received.stop.map(Stop::name)), (0, Some("S1 Short")));
    assert_eq!(Error::TooLarge.to_string(), "E5 TooLarge");
    assert_eq!(net.host(client).read_peer(there)?.state, State::Connected);
    Ok(())
}

#[test]
fn readings_tell_what_is_there() -> Result<(), Error> {
    let mut net = Network::new(2);
    net.set_line(Line { delay: 40, ..Line::default() });
    let (server, client, here, there) = pair(&mut net)?;
    net.outage(client, 700);
    let host = net.host(server);
    host.submit(here, 0, &[7; 1000], Delivery::Reliable)?;
    host.set_ping_interval(here, 200)?;
    host.set_timeout(here, 0, 10_000, 0)?;
    host.throttle_configure(here, 1000, 3, 4)?;
    host.set_bandwidth(0, 0)?;
    let before = host.read_totals()?;
    net.pass(30)?;
    let host = net.host(server);
    let read = host.read_peer(here)?;
    assert_eq!((read.state, read.channels, read.mtu, read.in_transit), (State::Connected, 2, 1392, 1000));
    assert!((80..=120).contains(&read.round_trip), "{read:?}");
    assert!(host.read_totals()?.datagrams_out > before.datagrams_out);
    assert_eq!(host.read_allowance(here)?, 65_536);
    assert_eq!(host.read_slots()?.connected, 1);
    net.pass(600)?;
    assert!(net.host(server).read_sent_again()? >= 1);
    net.pass(2_000)?;
    let held = net.host(client).read_held()?;
    assert_eq!((held.packets, held.bytes), (1, 1000));
    assert!(held.memory <= held.most_memory);
    let read = net.host(client).read_peer(there)?;
    assert_eq!((read.state, read.connect_id), (State::Connected, net.host(server).read_peer(here)?.connect_id));
    assert_eq!(read.address, net.address(server));
    assert_eq!(net.host(server).read_sent_again()?, 0);
    Ok(())
}

#[test]
fn a_host_goes_to_another_thread() -> Result<(), Error> {
    let mut net = Network::new(9);
    let (server, _, here, _) = pair(&mut net)?;
    let mut net = std::thread::spawn(move || {
        net.pass(100).expect("no error");
        net
    })
    .join()
    .expect("the thread");
    assert_eq!(net.host(server).read_peer(here)?.state, State::Connected);
    fn is_send<T: Send>() {}
    is_send::<Endpoint>();
    assert_eq!(version(), (0, 1, 0));
    Ok(())
}

#[test]
fn endpoints_talk_over_a_simulated_line() -> Result<(), EndpointError> {
    let mut server = Endpoint::server((Ipv4Addr::LOCALHOST, 0), 4, 2)?;
    let mut client = Endpoint::client(2)?;
    client.simulate(0.2, Duration::from_millis(5))?;
    let begun = Instant::now();
    let there = client.connect(server.address()?, 2, 5)?;
    let (mut said, mut came, mut room) = (0, 0u32, Vec::new());
    let wait = Duration::from_millis(2);
    while came < 20 {
        assert!(begun.elapsed() < Duration::from_secs(300), "{came} came");
        match server.service(wait, &mut room)? {
            Some(Event::Receive { peer, channel, data, delivery, .. }) => server.submit(peer, channel, data, delivery)?,
            Some(Event::Connect { address, info, .. }) => {
                assert_eq!((*address.ip(), address.port(), info), (Ipv4Addr::LOCALHOST, client.address()?.port(), 5));
            }
            _ => {}
        }
        match client.service(wait, &mut room)? {
            Some(Event::Receive { data, .. }) => {
                assert_eq!(data, came.to_le_bytes());
                came += 1;
            }
            Some(Event::Connect { .. }) => {
                while said < 20u32 {
                    client.submit(there, 0, &said.to_le_bytes(), Delivery::Reliable)?;
                    said += 1;
                }
            }
            _ => {}
        }
    }
    assert!(begun.elapsed() >= Duration::from_millis(20));
    client.disconnect_later(there, 3)?;
    loop {
        assert!(begun.elapsed() < Duration::from_secs(300));
        server.service(wait, &mut room)?;
        if let Some(event) = client.service(wait, &mut room)? {
            assert!(matches!(event, Event::Disconnect { info: 0, .. }), "{event:?}");
            assert_eq!(event.address(), server.address()?);
            break;
        }
    }
    assert_eq!((server.unsent(), client.unsent()), (0, 0));
    Ok(())
}

#[test]
fn an_endpoint_waits_as_long_as_it_is_told() -> Result<(), EndpointError> {
    let mut server = Endpoint::server((Ipv4Addr::LOCALHOST, 0), 4, 2)?;
    let (begun, mut room) = (Instant::now(), Vec::new());
    assert_eq!(server.service(Duration::from_millis(60), &mut room)?, None);
    let took = begun.elapsed();
    assert!(took >= Duration::from_millis(60) && took < Duration::from_secs(60), "{took:?}");
    // What strangers send isn't told.
    let stranger = UdpSocket::bind((Ipv4Addr::LOCALHOST, 0))?;
    for length in [0, 1, 10, 5000] {
        stranger.send_to(&vec![9; length], server.address()?)?;
    }
    assert_eq!(server.service(Duration::from_millis(20), &mut room)?, None);
    assert_eq!(server.host().read_totals()?.datagrams_in, 4);
    assert!(matches!(Endpoint::open(server.address()?, &Config::standard(1, 1)), Err(EndpointError::System(_))));
    for (players, is_right) in [(0, false), (1, true), (4095, true), (4096, false)] {
        assert_eq!(Endpoint::server((Ipv4Addr::LOCALHOST, 0), players, 1).is_ok(), is_right);
    }
    assert_ne!(random::<16>()?, random::<16>()?);
    Ok(())
}
