//! Names of nodes, as lines show them.

use std::fmt;

/// A name as a line shows it: `%` and two hexadecimal digits for a byte that is not printable
/// ASCII, a space or a `%`, and `-` for a name of no bytes.
pub struct Shown<'a>(pub &'a [u8]);

impl fmt::Display for Shown<'_> {
    fn fmt(&self, formatter: &mut fmt::Formatter<'_>) -> fmt::Result {
        match self.0 {
            b"" => return formatter.write_str("-"),
            b"-" => return formatter.write_str("%2D"),
            _ => (),
        }
        for &byte in self.0 {
            if byte.is_ascii_graphic() && byte != b'%' {
                write!(formatter, "{}", char::from(byte))?;
            } else {
                write!(formatter, "%{byte:02X}")?;
            }
        }
        Ok(())
    }
}

/// The path of a node as a line shows it: each name after a `/`.
pub struct ShownPath<'a>(pub &'a [u8]);

impl fmt::Display for ShownPath<'_> {
    fn fmt(&self, formatter: &mut fmt::Formatter<'_>) -> fmt::Result {
        let mut names = self.0.split(|&byte| byte == b'/').skip(1);
        names.try_for_each(|name| write!(formatter, "/{}", Shown(name)))
    }
}

/// Returns the bytes of a name that a line shows.
pub fn name_of(shown: &str) -> Vec<u8> {
    if shown == "-" {
        return Vec::new();
    }
    let (mut name, mut left) = (Vec::new(), shown.as_bytes());
    while let [first, later @ ..] = left {
        let escaped = (*first == b'%').then(|| shown_byte(later)).flatten();
        name.push(escaped.unwrap_or(*first));
        left = if escaped.is_some() {
            &later[2..]
        } else {
            later
        };
    }
    name
}

/// Returns the byte that two hexadecimal digits show.
fn shown_byte(digits: &[u8]) -> Option<u8> {
    let digits = std::str::from_utf8(digits.get(..2)?).ok()?;
    u8::from_str_radix(digits, 16).ok()
}

#[cfg(test)]
mod tests {
    use super::{name_of, Shown, ShownPath};

    #[test]
    fn names_are_shown_and_read() {
        for (name, shown) in [
            (&b"kernel@1"[..], "kernel@1"),
            (b"", "-"),
            (b"-", "%2D"),
            (b"a-b", "a-b"),
            (b"100% \xff", "100%25%20%FF"),
        ] {
            assert_eq!(Shown(name).to_string(), shown);
            assert_eq!(name_of(shown), name);
        }
        assert_eq!(ShownPath(b"/-/a b@1").to_string(), "/%2D/a%20b@1");
        assert_eq!(name_of("/%2D/a%20b@1"), b"/-/a b@1");
        assert_eq!(name_of("%"), b"%");
    }
}
