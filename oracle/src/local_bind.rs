//! What discovery.rs binds a probe's socket by. Nothing here probes.
pub fn bind_udp_for(_: std::net::IpAddr) -> std::io::Result<std::net::UdpSocket> {
    Err(std::io::ErrorKind::Unsupported.into())
}
