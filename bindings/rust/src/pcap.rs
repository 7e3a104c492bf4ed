//! Datagrams as a capture in classic pcap, which `enet_relay inspect` and Wireshark read.

use std::net::SocketAddrV4;

/// The link type of raw IP.
const RAW_IP: u32 = 101;

/// A capture, as bytes of a file.
pub(crate) struct Capture {
    bytes: Vec<u8>,
    /// Whether a datagram is missing, since there was no memory.
    is_cut: bool,
}

impl Capture {
    pub(crate) fn new() -> Capture {
        let mut capture = Capture { bytes: Vec::new(), is_cut: false };
        let mut head = [0; 24];
        head[..4].copy_from_slice(&0xA1B2_C3D4u32.to_le_bytes());
        head[4..6].copy_from_slice(&2u16.to_le_bytes());
        head[6..8].copy_from_slice(&4u16.to_le_bytes());
        head[16..20].copy_from_slice(&65_535u32.to_le_bytes());
        head[20..24].copy_from_slice(&RAW_IP.to_le_bytes());
        capture.add(&[&head]);
        capture
    }

    /// Adds parts, all or none. After one that found no memory none is added any more.
    fn add(&mut self, parts: &[&[u8]]) {
        let length = parts.iter().map(|part| part.len()).sum();
        if self.is_cut || self.bytes.try_reserve(length).is_err() {
            self.is_cut = true;
            return;
        }
        for part in parts {
            self.bytes.extend_from_slice(part);
        }
    }

    /// Adds a datagram that passed at so many microseconds.
    pub(crate) fn note(&mut self, now: u64, from: SocketAddrV4, to: SocketAddrV4, body: &[u8]) {
        let length = body.len() + 28;
        let mut packet = [0; 16];
        packet[..4].copy_from_slice(&((now / 1_000_000) as u32).to_le_bytes());
        packet[4..8].copy_from_slice(&((now % 1_000_000) as u32).to_le_bytes());
        packet[8..12].copy_from_slice(&(length as u32).to_le_bytes());
        packet[12..].copy_from_slice(&(length as u32).to_le_bytes());
        let mut head = [0; 28];
        head[0] = 0x45;
        head[2..4].copy_from_slice(&(length as u16).to_be_bytes());
        head[8] = 64;
        head[9] = 17;
        head[12..16].copy_from_slice(&from.ip().octets());
        head[16..20].copy_from_slice(&to.ip().octets());
        let sum = checksum(&head[..20]);
        head[10..12].copy_from_slice(&sum.to_be_bytes());
        head[20..22].copy_from_slice(&from.port().to_be_bytes());
        head[22..24].copy_from_slice(&to.port().to_be_bytes());
        head[24..26].copy_from_slice(&(length as u16 - 20).to_be_bytes());
        self.add(&[&packet, &head, body]);
    }

    pub(crate) fn bytes(&self) -> &[u8] {
        &self.bytes
    }
}

/// The checksum of a header of IPv4.
fn checksum(head: &[u8]) -> u16 {
    let mut sum = 0;
    for word in head.chunks(2) {
        sum += u32::from(u16::from_be_bytes([word[0], word[1]]));
    }
    while sum > 0xFFFF {
        sum = (sum & 0xFFFF) + (sum >> 16);
    }
    !(sum as u16)
}
