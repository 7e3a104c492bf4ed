//! A server that sends each packet back: `echo [ADDRESS]`, at 0.0.0.0:7777 if no address is named. It runs until it is stopped.

use gofnjerta::{Endpoint, EndpointError, Event};
use std::time::Duration;

fn main() -> Result<(), EndpointError> {
    let address = std::env::args().nth(1);
    let address = address.as_deref().unwrap_or("0.0.0.0:7777");
    let mut server = Endpoint::server(address, 32, 2)?;
    println!("listening at {}", server.address()?);
    let mut room = Vec::new();
    loop {
        match server.service(Duration::from_secs(1), &mut room)? {
            Some(Event::Connect { peer, address, .. }) => println!("{peer:?} from {address}"),
            Some(Event::Disconnect { peer, address, .. }) => println!("{peer:?} at {address} has gone"),
            Some(Event::Receive { peer, channel, data, delivery, .. }) => {
                // The peer may have gone since.
                if let Err(why) = server.submit(peer, channel, data, delivery) {
                    println!("{peer:?} isn't answered: {why}");
                }
            }
            _ => {}
        }
    }
}
