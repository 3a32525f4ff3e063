//! The scripted socket: what manta takes of std's UdpSocket. What is sent is noted, what arrives is the list's.
use crate::script;
pub use crate::socket2::{Domain, Protocol, SockAddr, Socket, Type};
use std::io;
use std::net::{SocketAddr, SocketAddrV4};

pub struct UdpSocket;

impl UdpSocket {
    pub fn send_to(&self, packet: &[u8], to: SocketAddrV4) -> io::Result<usize> {
        script::sent(packet, to);
        Ok(packet.len())
    }

    pub fn recv_from(&self, buf: &mut [u8]) -> io::Result<(usize, SocketAddr)> {
        let (octets, from) = script::receive()?;
        buf[..octets.len()].copy_from_slice(&octets);
        Ok((octets.len(), from))
    }

    pub fn set_nonblocking(&self, on: bool) -> io::Result<()> {
        script::look_ahead(on);
        Ok(())
    }
}
