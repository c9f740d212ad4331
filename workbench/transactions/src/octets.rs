//! Octets as they are written.

use std::fmt;
use std::str::FromStr;

/// Octets, which are written as pairs of hexadecimal digits. Blanks may stand between them.
///
/// ```
/// use edd_transactions::Octets;
///
/// let octets: Octets = "00 2a FE".parse()?;
/// assert_eq!((octets.0.as_slice(), octets.to_string()), (&[0, 0x2A, 0xFE][..], "00 2A FE".into()));
/// assert_eq!("002aFE".parse(), Ok(octets));
/// assert!("0".parse::<Octets>().is_err() && "0g".parse::<Octets>().is_err());
/// # Ok::<(), edd_transactions::OctetsError>(())
/// ```
#[derive(Clone, Debug, Default, PartialEq, Eq)]
pub struct Octets(pub Vec<u8>);

/// Why a text says no octets.
#[derive(Clone, Copy, Debug, PartialEq, Eq, thiserror::Error)]
#[error("octets are pairs of hexadecimal digits, as in 00 2A FE")]
pub struct OctetsError;

impl FromStr for Octets {
    type Err = OctetsError;

    fn from_str(text: &str) -> Result<Octets, OctetsError> {
        let groups = text.split_ascii_whitespace().map(group);
        let groups = groups.collect::<Result<Vec<_>, _>>()?;
        Ok(Octets(groups.concat()))
    }
}

/// The octets of digits without blanks.
fn group(digits: &str) -> Result<Vec<u8>, OctetsError> {
    let digits = digits.chars().map(|digit| digit.to_digit(16));
    let digits = digits.collect::<Option<Vec<u32>>>().ok_or(OctetsError)?;
    let octet = |pair: &[u32]| match pair {
        [high, low] => u8::try_from(high << 4 | low).map_err(|_| OctetsError),
        _ => Err(OctetsError),
    };
    digits.chunks(2).map(octet).collect()
}

impl fmt::Display for Octets {
    fn fmt(&self, f: &mut fmt::Formatter<'_>) -> fmt::Result {
        f.write_str(&to_hex(&self.0))
    }
}

/// Octets with blanks between them.
pub(crate) fn to_hex(octets: &[u8]) -> String {
    let octets: Vec<String> = octets.iter().map(|octet| format!("{octet:02X}")).collect();
    octets.join(" ")
}
