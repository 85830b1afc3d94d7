//! How text strings and names are spelled: test 10.

/// RFC 3629, section 4, row by row.
pub fn is_utf8(mut bytes: &[u8]) -> bool {
    while let Some(at) = bytes.iter().position(|byte| *byte > 0x7f) {
        bytes = match &bytes[at..] {
            [0xc2..=0xdf, 0x80..=0xbf, rest @ ..] => rest,
            [0xe0, 0xa0..=0xbf, 0x80..=0xbf, rest @ ..] => rest,
            [0xe1..=0xec, 0x80..=0xbf, 0x80..=0xbf, rest @ ..] => rest,
            [0xed, 0x80..=0x9f, 0x80..=0xbf, rest @ ..] => rest,
            [0xee..=0xef, 0x80..=0xbf, 0x80..=0xbf, rest @ ..] => rest,
            [0xf0, 0x90..=0xbf, 0x80..=0xbf, 0x80..=0xbf, rest @ ..] => rest,
            [0xf1..=0xf3, 0x80..=0xbf, 0x80..=0xbf, 0x80..=0xbf, rest @ ..] => rest,
            [0xf4, 0x80..=0x8f, 0x80..=0xbf, 0x80..=0xbf, rest @ ..] => rest,
            _ => return false,
        }
    }
    true
}

/// "An identifier is a text string of 1 to 64 bytes: a letter or underscore,
/// then letters, digits, underscore, hyphen, full stop."
pub fn is_identifier(bytes: &[u8]) -> bool {
    let Some((first, rest)) = bytes.split_first() else {
        return false;
    };
    bytes.len() <= 64
        && (first.is_ascii_alphabetic() || *first == b'_')
        && rest.iter().all(|b| b.is_ascii_alphanumeric() || matches!(b, b'_' | b'-' | b'.'))
}

/// "A namespace name is an identifier, or "!" and an identifier."
pub fn is_namespace_name(bytes: &[u8]) -> bool {
    is_identifier(bytes.strip_prefix(b"!").unwrap_or(bytes))
}

#[cfg(test)]
mod tests {
    use super::*;

    fn agrees(bytes: &[u8]) {
        assert_eq!(is_utf8(bytes), std::str::from_utf8(bytes).is_ok(), "{bytes:02x?}");
    }

    /// Every string of up to two bytes, and of three and four bytes those whose
    /// later bytes lie on both sides of a boundary of the RFC's table.
    #[test]
    fn utf8_agrees_with_the_standard_library() {
        const EDGES: [u8; 14] =
            [0x00, 0x7f, 0x80, 0x8f, 0x90, 0x9f, 0xa0, 0xbf, 0xc0, 0xc2, 0xdf, 0xe0, 0xf4, 0xff];
        agrees(&[]);
        for a in 0..=255 {
            agrees(&[a]);
            for b in 0..=255 {
                agrees(&[a, b]);
            }
            for b in EDGES {
                for c in EDGES {
                    agrees(&[a, b, c]);
                    for d in EDGES {
                        agrees(&[a, b, c, d]);
                        agrees(&[b'x', a, b, c, d, b'y']);
                    }
                }
            }
        }
    }

    #[test]
    fn names() {
        let long = [b'a'; 65];
        assert!(is_identifier(b"a") && is_identifier(b"_") && is_identifier(b"Z9_-."));
        assert!(is_identifier(&long[..64]) && !is_identifier(&long));
        for wrong in ["", "9", "-a", ".a", "a b", "a/b", "!", "!a", "a!", "\u{fc}", "a\0"] {
            assert!(!is_identifier(wrong.as_bytes()), "{wrong:?}");
        }
        assert!(is_namespace_name(b"a") && is_namespace_name(b"!a"));
        let private = [b"!".as_slice(), &long].concat();
        assert!(is_namespace_name(&private[..65]) && !is_namespace_name(&private));
        for wrong in ["", "!", "!!a", "!9", "a!"] {
            assert!(!is_namespace_name(wrong.as_bytes()), "{wrong:?}");
        }
    }
}
