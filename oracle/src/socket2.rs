//! What manta takes of socket2: a socket that is made and bound as it asks, and then is the one of socket.rs.
use crate::socket::UdpSocket;
use std::io;
use std::net::SocketAddrV4;
use std::time::Duration;

pub struct Domain;
impl Domain {
    pub const IPV4: Self = Self;
}

pub struct Type;
impl Type {
    pub const DGRAM: Self = Self;
}

pub struct Protocol;
impl Protocol {
    pub const UDP: Self = Self;
}

pub struct SockAddr;
impl From<SocketAddrV4> for SockAddr {
    fn from(_: SocketAddrV4) -> Self {
        Self
    }
}

/// A socket that is not bound yet.
pub struct Socket;

impl Socket {
    pub fn new(_: Domain, _: Type, _: Option<Protocol>) -> io::Result<Self> {
        Ok(Self)
    }

    pub fn set_recv_buffer_size(&self, _: usize) -> io::Result<()> {
        Ok(())
    }

    pub fn bind(&self, _: &SockAddr) -> io::Result<()> {
        Ok(())
    }

    pub fn set_read_timeout(&self, _: Option<Duration>) -> io::Result<()> {
        Ok(())
    }
}

impl From<Socket> for UdpSocket {
    fn from(_: Socket) -> Self {
        Self
    }
}
