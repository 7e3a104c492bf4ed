//! Each growth of memory is refused in turn: a call that is refused so returns `Memory` and succeeds when it is repeated, what a datagram
//! carried for which there was no memory comes again, nothing is lost and nothing leaks. It needs the library of `refuse.c` before the C
//! library, and under valgrind also sees leaks:
//!
//!     cc -shared -fPIC tests/refuse.c -o refuse.so
//!     LD_PRELOAD=./refuse.so valgrind --soname-synonyms=somalloc=nouserintercepts --leak-check=full PROGRAM
//!
//! Without that library it says so and ends well.

use gofnjerta::{Config, Delivery, Endpoint, EndpointError, Error, Event, Host, Line, Network, Peer, Stop};
use std::ffi::CString;
use std::net::{Ipv4Addr, SocketAddrV4};
use std::os::raw::{c_char, c_long, c_void};
use std::time::Duration;

extern "C" {
    fn dlsym(handle: *mut c_void, name: *const c_char) -> *mut c_void;
}

type RefuseAt = extern "C" fn(c_long) -> c_long;

/// `refuse_at` of `refuse.c`, if it is loaded.
fn find_refuse_at() -> Option<RefuseAt> {
    let name = CString::new("refuse_at").expect("a name");
    // SAFETY: the name ends with a zero byte, and NULL stands for all that is loaded.
    let found = unsafe { dlsym(std::ptr::null_mut(), name.as_ptr()) };
    if found.is_null() {
        return None;
    }
    // SAFETY: it is that function, of this type.
    Some(unsafe { std::mem::transmute::<*mut c_void, RefuseAt>(found) })
}

/// How many calls were refused.
#[derive(Default)]
struct Count(u32);

impl Count {
    /// A call that may be refused once.
    fn again<T, E: Into<EndpointError>>(&mut self, mut call: impl FnMut() -> Result<T, E>) -> T {
        for _ in 0..2 {
            match call().map_err(E::into) {
                Ok(done) => return done,
                Err(EndpointError::Host(Error::Memory)) => self.0 += 1,
                Err(_) => panic!("another error"),
            }
        }
        panic!("refused twice");
    }
}

/// The address of one of two hosts.
fn address(number: u8) -> SocketAddrV4 {
    SocketAddrV4::new(Ipv4Addr::new(10, 0, 0, number), 7000)
}

fn carry(count: &mut Count, from: &mut Host, address: SocketAddrV4, to: &mut Host) {
    while let Some(datagram) = from.transmit().expect("no call is refused here") {
        let received = to.receive(address, datagram.data).expect("no call is refused here");
        count.0 += u32::from(received.stop == Some(Stop::MEMORY));
    }
}

fn settle(count: &mut Count, a: &mut Host, b: &mut Host) {
    for _ in 0..60 {
        carry(count, a, address(1), b);
        carry(count, b, address(2), a);
        count.again(|| a.tick(100));
        count.again(|| b.tick(100));
    }
}

/// Two hosts: a packet in pieces, short ones to one peer and to all, and each other call.
fn two_hosts(count: &mut Count, body: &[u8]) {
    let mut a = count.again(|| Host::open(&Config::standard(2, 2)));
    let mut b = count.again(|| Host::open(&Config::standard(1, 2)));
    count.again(|| a.set_secret(&[7; 32]));
    count.again(|| a.give_way());
    count.again(|| a.set_most(1));
    let peer = count.again(|| b.connect(address(1), 2, 1, 2));
    settle(count, &mut a, &mut b);
    count.again(|| b.submit(peer, 0, body, Delivery::Reliable));
    count.again(|| b.submit(peer, 1, &body[..50], Delivery::Reliable));
    let (gone, mut answers) = (Peer { slot: 0, generation: 9 }, Vec::new());
    count.again(|| b.broadcast_each(&[gone, peer], 0, &body[..100], Delivery::Reliable, &mut answers));
    assert!(answers[0] == Err(Error::NoSuchPeer));
    if answers[1] == Err(Error::Memory) {
        count.0 += 1;
        count.again(|| b.broadcast(&[peer], 0, &body[..100], Delivery::Reliable));
    }
    count.again(|| b.set_bandwidth(0, 0));
    count.again(|| b.throttle_configure(peer, 5000, 2, 2));
    count.again(|| b.set_ping_interval(peer, 0));
    count.again(|| b.set_timeout(peer, 0, 0, 0));
    settle(count, &mut a, &mut b);
    count.again(|| b.read_peer(peer));
    count.again(|| b.read_allowance(peer));
    count.again(|| b.read_traffic(peer));
    count.again(|| b.read_totals());
    count.again(|| a.read_held());
    count.again(|| a.read_slots());
    count.again(|| a.read_sent_again());
    count.again(|| a.due_in());
    count.again(|| b.disconnect_later(peer, 5));
    settle(count, &mut a, &mut b);
    let (mut bytes, mut others, mut ends) = (0, 0, 0);
    let mut room = Vec::new();
    let mut take = |event: Event<'_>| {
        assert!(event.address() == address(2));
        match event {
            Event::Receive { data, .. } => {
                assert!(body.starts_with(data));
                bytes += data.len();
            }
            Event::Disconnect { info: 5, .. } => ends += 1,
            _ => others += 1,
        }
    };
    while count.again(|| a.next_event(&mut room).map(|event| event.map(&mut take))).is_some() {}
    assert!((bytes, others, ends) == (body.len() + 150, 1, 1));
    while count.again(|| b.next_event(&mut room).map(|event| event.is_some())) {}
}

/// A network in memory, with a capture, where what finds no memory is lost on the way.
fn network(count: &mut Count, body: &[u8]) {
    let mut net = Network::new(1);
    net.set_line(Line { loss: 0.05, delay: 20, repeat: 0.05, ..Line::default() });
    let server = count.again(|| net.add(&Config::standard(2, 1)));
    let client = count.again(|| net.add(&Config::standard(1, 1)));
    net.capture(server);
    let peer = count.again(|| net.connect(client, server, 1, 0));
    count.again(|| net.pass(3000));
    count.again(|| net.host(client).submit(peer, 0, body, Delivery::Reliable));
    count.again(|| net.pass(5000));
    let (mut room, mut bytes) = (Vec::new(), 0);
    let mut take = |event: Event<'_>| {
        if let Event::Receive { data, .. } = event {
            assert!(data == body);
            bytes += data.len();
        }
    };
    while count.again(|| net.host(server).next_event(&mut room).map(|event| event.map(&mut take))).is_some() {}
    assert!(bytes == body.len());
}

/// Two endpoints.
fn endpoints(count: &mut Count) {
    let mut server = count.again(|| Endpoint::server((Ipv4Addr::LOCALHOST, 0), 1, 1));
    let mut client = count.again(|| Endpoint::client(1));
    count.again(|| client.simulate(0.0, Duration::from_millis(1)));
    let address = server.address().expect("an address");
    let mut room = Vec::new();
    let is_hello = |event: Option<Event<'_>>| matches!(event, Some(Event::Receive { data: b"hello", .. }));
    let mut peer: Option<Peer> = Some(count.again(|| client.connect(address, 1, 0)));
    loop {
        count.again(|| client.service(Duration::from_millis(1), &mut room).map(|event| event.is_some()));
        if count.again(|| server.service(Duration::from_millis(1), &mut room).map(is_hello)) {
            return;
        }
        if let Some(there) = peer {
            let submitted = client.submit(there, 0, b"hello", Delivery::Reliable);
            count.0 += u32::from(submitted == Err(Error::Memory));
            if submitted.is_ok() {
                peer = None;
            }
        }
    }
}

/// Runs a scenario with each growth refused in turn, until it has no more. How many there were, and how many calls and datagrams were refused.
fn each_refused(refuse_at: RefuseAt, mut scenario: impl FnMut(&mut Count)) -> (c_long, u32) {
    let mut count = Count::default();
    for number in 0.. {
        refuse_at(number);
        scenario(&mut count);
        if refuse_at(-1) >= 0 {
            return (number, count.0);
        }
    }
    unreachable!()
}

fn main() {
    let refuse_at = match find_refuse_at() {
        Some(found) => found,
        None => return println!("passed over: refuse.c isn't loaded"),
    };
    let body: Vec<u8> = (0..5000).map(|i| (i * 7) as u8).collect();
    let hosts = each_refused(refuse_at, |count| two_hosts(count, &body));
    let networks = each_refused(refuse_at, |count| network(count, &body));
    let sockets = each_refused(refuse_at, endpoints);
    for (name, (growths, refused)) in [("hosts", hosts), ("network", networks), ("endpoints", sockets)] {
        println!("{name}: {growths} growths, {refused} refusals");
        assert!(growths > 10 && refused > 5);
    }
}
