//! When a peer is full, how the line to it is, why its connection ended, and records: two hosts without a network between, and two
//! endpoints.

use gofnjerta::{Config, Delivery, Ending, Endpoint, EndpointError, Error, Event, Host, Peer, Traffic, ENDLESS};
use std::fs::File;
use std::io::{self, BufWriter, Write};
use std::net::{Ipv4Addr, SocketAddrV4};
use std::path::Path;
use std::process::Command;
use std::sync::{Arc, Mutex};
use std::time::{Duration, Instant};

/// Where a host is.
fn place(host: u16) -> SocketAddrV4 {
    SocketAddrV4::new(Ipv4Addr::LOCALHOST, 1 + host)
}

/// What one host puts out comes to the other, until neither has anything; then time goes on.
fn pass(hosts: &mut [Host; 2], ms: u32) -> Result<(), Error> {
    loop {
        let mut sent = 0;
        for from in [0, 1] {
            let (left, right) = hosts.split_at_mut(1);
            let (host, other) = if from == 0 { (&mut left[0], &mut right[0]) } else { (&mut right[0], &mut left[0]) };
            while let Some(datagram) = host.transmit()? {
                other.receive(place(from), datagram.data)?;
                sent += 1;
            }
        }
        if sent == 0 {
            break;
        }
    }
    hosts.iter_mut().try_for_each(|host| host.tick(ms))
}

/// Bytes that are shared with who reads them.
#[derive(Clone, Default)]
struct Shared(Arc<Mutex<Vec<u8>>>);

impl Write for Shared {
    fn write(&mut self, bytes: &[u8]) -> io::Result<usize> {
        let mut all = self.0.lock().expect("no panic");
        all.extend_from_slice(bytes);
        Ok(bytes.len())
    }

    fn flush(&mut self) -> io::Result<()> {
        Ok(())
    }
}

/// A writer that fails, or panics.
struct Broken(bool);

impl Write for Broken {
    fn write(&mut self, _: &[u8]) -> io::Result<usize> {
        assert!(!self.0, "the writer panics, which ends the record");
        Err(io::ErrorKind::Other.into())
    }

    fn flush(&mut self) -> io::Result<()> {
        Ok(())
    }
}

#[test]
fn a_full_peer_takes_no_packet_and_the_line_shows_why() -> Result<(), Error> {
    let config = Config::standard(1, 1);
    let mut hosts = [Host::open(&config)?, Host::open(&config)?];
    let peer = hosts[0].connect(place(1), 1, 0, 7)?;
    pass(&mut hosts, 1)?;
    hosts[0].set_send_limit(5, 100)?;
    hosts[0].submit(peer, 0, b"hello", Delivery::Reliable)?;
    assert_eq!(hosts[0].submit(peer, 0, b"", Delivery::Reliable), Err(Error::Full));
    assert_eq!(hosts[0].broadcast(&[peer], 0, b"", Delivery::Unreliable), Err(Error::Full));
    let mut answers = vec![Ok(()); 5];
    let gone = Peer { slot: 0, generation: 1 };
    hosts[0].broadcast_each(&[gone, peer], 0, b"", Delivery::Unreliable, &mut answers)?;
    assert_eq!(answers, [Err(Error::NoSuchPeer), Err(Error::Full)]);
    assert_eq!((Error::Full.number(), Error::Full.name()), (9, "E9 Full"));
    assert_eq!(hosts[0].read_traffic(peer)?, Traffic { sent: 0, again: 0, acknowledged: 0 });
    let line = hosts[0].read_line(peer)?;
    assert_eq!((line.round_trip, line.variance, line.lowest, line.lowest_before), (500, 0, 500, 500));
    assert_eq!((line.throttle, line.allowance, line.in_transit, line.commands, line.bytes), (32, 65536, 0, 1, 5));
    assert_eq!(hosts[0].read_line(gone), Err(Error::NoSuchPeer));
    assert_eq!(hosts[0].read_traffic(gone), Err(Error::NoSuchPeer));
    pass(&mut hosts, 1)?;
    let line = hosts[0].read_line(peer)?;
    assert_eq!((line.commands, line.bytes), (0, 0));
    assert_eq!(hosts[0].read_traffic(peer)?, Traffic { sent: 1, again: 0, acknowledged: 1 });
    hosts[0].broadcast_each(&[peer, gone], 0, b"to all", Delivery::Reliable, &mut answers)?;
    assert_eq!(answers, [Ok(()), Err(Error::NoSuchPeer)]);
    while hosts[0].transmit()?.is_some() {}
    hosts[0].tick(500)?; // this was lost, and goes again after the first mean of a round trip
    pass(&mut hosts, 1)?;
    assert_eq!(hosts[0].read_traffic(peer)?, Traffic { sent: 3, again: 1, acknowledged: 2 });
    assert_eq!(hosts[0].broadcast_each(&[peer], 0, &vec![0; 33_554_433], Delivery::Reliable, &mut answers), Err(Error::TooLarge));
    assert_eq!(answers, []);
    hosts[0].submit(peer, 0, b"", Delivery::Reliable)
}

#[test]
fn endings_are_told() -> Result<(), Error> {
    let config = Config::standard(1, 1);
    let mut hosts = [Host::open(&config)?, Host::open(&config)?];
    let peer = hosts[0].connect(place(1), 1, 0, 7)?;
    pass(&mut hosts, 1)?;
    let other = Peer { slot: 0, generation: 0 };
    assert_eq!((hosts[0].ending(peer)?, hosts[1].ending(other)?), (None, None));
    hosts[0].disconnect(peer, 0)?;
    pass(&mut hosts, 1)?;
    assert_eq!((hosts[0].ending(peer)?, hosts[1].ending(other)?), (Some(Ending::AskedHere), Some(Ending::AskedThere)));
    let mut alone = Host::open(&config)?;
    let nobody = alone.connect(place(1), 1, 0, 7)?;
    for _ in 0..600 {
        while alone.transmit()?.is_some() {}
        alone.tick(100)?;
    }
    assert_eq!(alone.ending(nobody)?, Some(Ending::NeverAnswered));
    Ok(())
}

#[test]
fn a_record_has_each_call_until_the_host_is_dropped() -> Result<(), Error> {
    let config = Config::standard(1, 1);
    let bytes = Shared::default();
    let mut host = Host::record(&config, Box::new(bytes.clone()))?;
    host.connect(place(1), 1, 2, 3)?;
    assert!(host.transmit()?.is_some());
    host.tick(10)?;
    assert_eq!(host.submit(Peer { slot: 0, generation: 0 }, 0, b"", Delivery::Reliable), Err(Error::NotConnected));
    let host = std::thread::spawn(move || host).join().expect("no panic");
    drop(host);
    let record = bytes.0.lock().expect("no panic");
    // The head, the settings, the connection, the datagram, the tick and the end; each entry with its kind and its hash.
    assert_eq!(record.len(), 16 + (31 + 9) + (21 + 9) + (24 + 9) + (4 + 9) + 9);
    assert_eq!(&record[..8], b"gofnjrec");
    assert_eq!(Host::record(&Config::standard(0, 1), Box::new(bytes.clone())).err(), Some(Error::BadConfig));
    for panics in [false, true] {
        let mut host = Host::record(&config, Box::new(Broken(panics)))?;
        host.tick(10)?; // the host goes on
    }
    Ok(())
}

/// A client says 20 packets and disconnects; the server sends each back until the client has gone.
fn echo(server: &mut Endpoint, client: &mut Endpoint) -> Result<(), EndpointError> {
    let (begun, wait, mut room) = (Instant::now(), Duration::from_millis(1), Vec::new());
    let (mut back, mut ends) = (0u32, 0);
    let there = client.connect(server.address()?, 2, 5)?;
    while ends < 2 {
        assert!(begun.elapsed() < Duration::from_secs(300), "{back} came back");
        match server.service(wait, &mut room)? {
            Some(Event::Receive { peer, channel, data, delivery, .. }) => server.submit(peer, channel, data, delivery)?,
            Some(Event::Disconnect { .. }) => ends += 1,
            _ => {}
        }
        match client.service(wait, &mut room)? {
            Some(Event::Connect { .. }) => {
                for number in 0..20u32 {
                    client.submit(there, 1, &vec![7; 200 * number as usize], Delivery::Reliable)?;
                }
            }
            Some(Event::Receive { data, .. }) => {
                assert_eq!(data, vec![7; 200 * back as usize]);
                back += 1;
                if back == 20 {
                    client.disconnect(there, 3)?;
                }
            }
            Some(Event::Disconnect { .. }) => ends += 1,
            _ => {}
        }
    }
    Ok(())
}

#[test]
fn a_recorded_endpoint_can_be_replayed() -> Result<(), EndpointError> {
    let path = Path::new(env!("CARGO_TARGET_TMPDIR")).join("endpoint.record");
    let mut config = Config::standard(8, 2);
    config.generations = ENDLESS;
    let mut server = Endpoint::record((Ipv4Addr::LOCALHOST, 0), &config, Box::new(BufWriter::new(File::create(&path)?)))?;
    server.host_mut().give_way()?;
    server.host_mut().set_most(4)?;
    echo(&mut server, &mut Endpoint::client(2)?)?;
    drop(server);
    let replayed = Command::new(env!("GOFNJERTA_REPLAY")).arg(&path).output()?;
    assert!(replayed.status.success(), "{replayed:?}");
    let refused = Endpoint::record((Ipv4Addr::LOCALHOST, 0), &Config::standard(0, 1), Box::new(Shared::default()));
    assert!(matches!(refused, Err(EndpointError::Host(Error::BadConfig))), "{refused:?}");
    Ok(())
}
