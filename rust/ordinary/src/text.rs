//! Text fields: ASCII letters and digits, padded with spaces on one side.

use crate::refusal::Refusal;

/// Letters and digits, then spaces; anything else is 5.
#[inline]
pub fn padded_right(field: &[u8]) -> Result<(), Refusal> {
    let mut padding = field.iter().skip_while(|byte| byte.is_ascii_alphanumeric());
    let lawful = padding.all(is_space);
    lawful.then_some(()).ok_or(Refusal::Form)
}

/// Spaces, then letters and digits; anything else is 5.
#[inline]
pub fn padded_left(field: &[u8]) -> Result<(), Refusal> {
    let mut text = field.iter().skip_while(|byte| is_space(byte));
    let lawful = text.all(u8::is_ascii_alphanumeric);
    lawful.then_some(()).ok_or(Refusal::Form)
}

/// A field of nothing but spaces is 6.
#[inline]
pub fn not_blank(field: &[u8]) -> Result<(), Refusal> {
    if field.iter().all(is_space) {
        Err(Refusal::Blank)
    } else {
        Ok(())
    }
}

#[inline]
fn is_space(byte: &u8) -> bool {
    *byte == b' '
}

#[cfg(test)]
mod tests {
    use super::*;

    #[test]
    fn padding_stands_on_its_own_side_only() {
        for (field, right, left) in [
            (b"ab12  ", true, false),
            (b"  ab12", false, true),
            (b"aZ09bY", true, true),
            (b"      ", true, true),
            (b"a b   ", false, false),
            (b"   a b", false, false),
            (b" a    ", false, false),
            (b"a-b   ", false, false),
            (b"ab\t   ", false, false),
            (b"\x00ab   ", false, false),
            (b"a\xe9    ", false, false),
        ] {
            assert_eq!(padded_right(field).is_ok(), right, "{field:?}");
            assert_eq!(padded_left(field).is_ok(), left, "{field:?}");
        }
        assert_eq!(padded_right(b" a"), Err(Refusal::Form));
        assert_eq!(padded_left(b"a "), Err(Refusal::Form));
    }

    #[test]
    fn blank_is_nothing_but_spaces() {
        assert_eq!(not_blank(b"    "), Err(Refusal::Blank));
        assert_eq!(not_blank(b"   x"), Ok(()));
        assert_eq!(not_blank(b"\0\0"), Ok(()));
    }
}
