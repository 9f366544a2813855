//! Addresses and prefixes, and their texts.

use std::io::{self, Write};
use std::net::{IpAddr, Ipv4Addr, Ipv6Addr};

#[derive(Clone, Copy, PartialEq, Eq, PartialOrd, Ord, Hash)]
pub enum Family {
    V4,
    V6,
}

/// Prefixes stand in the order of their families, then of their numbers, then of their lengths.
#[derive(Clone, Copy, PartialEq, Eq, PartialOrd, Ord, Hash)]
pub struct Prefix {
    pub family: Family,
    pub number: u128,
    pub length: u32,
}

impl Family {
    pub fn width(self) -> u32 {
        match self {
            Family::V4 => 32,
            Family::V6 => 128,
        }
    }
}

/// A decimal number of at most three digits, with no zero in front.
fn length_of(text: &str) -> Option<u32> {
    let plain = text == "0" || !text.starts_with('0');
    let digits = (1..=3).contains(&text.len()) && text.bytes().all(|b| b.is_ascii_digit());
    if plain && digits { text.parse().ok() } else { None }
}

impl Prefix {
    pub fn full(family: Family, number: u128) -> Prefix {
        Prefix { family, number, length: family.width() }
    }

    /// What the text spells; its host bits stay. Without a length it is an address.
    pub fn read(text: &str) -> Option<Prefix> {
        let (address, length) = match text.rsplit_once('/') {
            Some((address, length)) => (address, Some(length)),
            None => (text, None),
        };
        let (family, number) = match address.parse::<IpAddr>().ok()? {
            IpAddr::V4(ip) => (Family::V4, u128::from(u32::from(ip))),
            IpAddr::V6(ip) => (Family::V6, u128::from(ip)),
        };
        let length = match length {
            Some(length) => length_of(length)?,
            None => family.width(),
        };
        (length <= family.width()).then_some(Prefix { family, number, length })
    }

    /// The bits behind the length, all of them set.
    pub fn host_bits(&self) -> u128 {
        let count = self.family.width() - self.length;
        if count == 128 { u128::MAX } else { (1 << count) - 1 }
    }

    pub fn masked(self) -> Prefix {
        Prefix { number: self.number & !self.host_bits(), ..self }
    }

    /// The last address; the host bits are zero.
    pub fn last(&self) -> u128 {
        self.number | self.host_bits()
    }

    /// Whether all addresses of the other prefix lie in this one.
    pub fn covers(&self, other: &Prefix) -> bool {
        self.family == other.family
            && self.length <= other.length
            && (self.number..=self.last()).contains(&other.number)
    }

    /// Writes the address.
    pub fn write_address(&self, out: &mut impl Write) -> io::Result<()> {
        if self.family == Family::V4 {
            return write!(out, "{}", Ipv4Addr::from(self.number as u32));
        }
        let ip = Ipv6Addr::from(self.number);
        match ip.to_ipv4_mapped() {
            // Std writes these with dots; the register writes groups of hex digits alone.
            Some(_) => {
                let [.., high, low] = ip.segments();
                write!(out, "::ffff:{high:x}:{low:x}")
            }
            None => write!(out, "{ip}"),
        }
    }

    /// Writes the address and the length.
    pub fn write(&self, out: &mut impl Write) -> io::Result<()> {
        self.write_address(out)?;
        write!(out, "/{}", self.length)
    }
}
