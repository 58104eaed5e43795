//! Who may connect.

use std::fmt;
use std::net::IpAddr;
use std::str::FromStr;

/// A range of addresses, as `10.0.0.0/8`, `2001:db8::/32` or `127.0.0.1`.
///
/// An IPv4 address that is mapped into IPv6 is one of IPv4, in a range and where it is asked for.
///
/// ```
/// use fulltimehen_server::Cidr;
///
/// let local: Cidr = "10.0.0.0/8".parse()?;
/// assert!(local.contains("10.1.2.3".parse()?));
/// assert!(local.contains("::ffff:10.1.2.3".parse()?));
/// assert!(!local.contains("11.0.0.0".parse()?));
/// assert!("10.0.0.0/33".parse::<Cidr>().is_err());
/// # Ok::<(), Box<dyn std::error::Error>>(())
/// ```
#[derive(Clone, Copy, Debug, PartialEq, Eq)]
pub struct Cidr {
    ip: IpAddr,
    length: u32,
}

/// The text isn't a range of addresses: an address, and perhaps `/` and the number of bits that count.
///
/// ```
/// use fulltimehen_server::{Cidr, CidrError};
///
/// let refused: Result<Cidr, CidrError> = "10.0.0.0/33".parse();
/// assert!(refused.unwrap_err().to_string().starts_with("\"10.0.0.0/33\" isn't a range of addresses"));
/// ```
#[derive(Clone, Debug, PartialEq, Eq, thiserror::Error)]
#[error("{0:?} isn't a range of addresses, as 10.0.0.0/8 or 2001:db8::/32")]
pub struct CidrError(String);

fn bits(ip: IpAddr) -> (u128, u32) {
    match ip {
        IpAddr::V4(ip) => (u128::from(u32::from(ip)) << 96, 32),
        IpAddr::V6(ip) => (u128::from(ip), 128),
    }
}

impl Cidr {
    /// Whether the range has the address.
    #[must_use]
    pub fn contains(&self, ip: IpAddr) -> bool {
        let ip = ip.to_canonical();
        let differ = bits(ip).0 ^ bits(self.ip).0;
        ip.is_ipv4() == self.ip.is_ipv4() && differ.leading_zeros() >= self.length
    }
}

impl FromStr for Cidr {
    type Err = CidrError;

    fn from_str(text: &str) -> Result<Cidr, CidrError> {
        let error = || CidrError(text.to_owned());
        let (ip, length) = match text.split_once('/') {
            Some((ip, length)) => (ip, Some(length)),
            None => (text, None),
        };
        let ip: IpAddr = ip.parse().map_err(|_| error())?;
        let most = bits(ip).1;
        let length = match length {
            Some(length) if length.starts_with('+') => return Err(error()),
            Some(length) => length.parse().map_err(|_| error())?,
            None => most,
        };
        if length > most {
            return Err(error());
        }
        match ip.to_canonical() {
            // The first 96 bits of a mapped address say that it is one.
            canonical if canonical.is_ipv4() && ip.is_ipv6() => {
                let length = u32::checked_sub(length, 96).ok_or_else(error)?;
                Ok(Cidr { ip: canonical, length })
            }
            ip => Ok(Cidr { ip, length }),
        }
    }
}

impl fmt::Display for Cidr {
    fn fmt(&self, f: &mut fmt::Formatter<'_>) -> fmt::Result {
        write!(f, "{}/{}", self.ip, self.length)
    }
}

#[cfg(test)]
mod tests {
    use super::*;

    #[test]
    fn a_range_has_what_its_first_bits_say() {
        for (range, inside, outside) in [
            ("0.0.0.0/0", "255.255.255.255", "::1"),
            ("192.168.1.128/25", "192.168.1.129", "192.168.1.1"),
            ("127.0.0.1", "127.0.0.1", "127.0.0.2"),
            ("2001:db8::/33", "2001:db8:7fff::1", "2001:db8:8000::1"),
            ("::/0", "::1", "1.1.1.1"),
            ("::ffff:10.0.0.0/104", "10.255.0.1", "11.0.0.1"),
        ] {
            let range: Cidr = range.parse().unwrap();
            assert!(range.contains(inside.parse().unwrap()), "{range} {inside}");
            assert!(!range.contains(outside.parse().unwrap()), "{range} {outside}");
        }
        for text in
            ["", "10.0.0.0/", "10.0.0.0/+8", "10.0.0.0/33", "::/129", "a/8", "::ffff:1.2.3.4/8"]
        {
            assert!(text.parse::<Cidr>().is_err(), "{text}");
        }
    }
}
