//! The smallest case that still shows a difference.

/// How many bytes are tried, all in all, before what is left is taken for the smallest.
const EFFORT: usize = 100_000_000;

/// Takes bytes away, from the lent bytes and from the output, for as long as the desks differ.
pub fn smallest(
    lent: &[u8],
    out: &[u8],
    differ: impl Fn(&[u8], &[u8]) -> bool,
) -> (Vec<u8>, Vec<u8>) {
    let lent = lessened(lent, |lent| differ(lent, out));
    let out = lessened(out, |out| differ(&lent, out));
    (lent, out)
}

/// Takes away pieces, the large ones first, and keeps what is left where that still differs. Very
/// long bytes are given up on before every piece was tried.
fn lessened(bytes: &[u8], differs: impl Fn(&[u8]) -> bool) -> Vec<u8> {
    let mut least = bytes.to_vec();
    let mut piece = least.len();
    let mut effort = EFFORT;
    while piece > 0 && effort > 0 {
        let mut place = 0;
        while place + piece <= least.len() && effort > 0 {
            let rest = [&least[..place], &least[place + piece..]].concat();
            effort = effort.saturating_sub(rest.len());
            if differs(&rest) {
                least = rest;
            } else {
                place += 1;
            }
        }
        piece /= 2;
    }
    least
}

#[cfg(test)]
mod tests {
    use super::*;

    #[test]
    fn only_what_matters_is_left() {
        let differ =
            |lent: &[u8], out: &[u8]| lent.windows(2).any(|pair| pair == b"ab") && out.len() > 2;
        let (lent, out) = smallest(b"..a.ab..b..", &[7; 20], differ);
        assert_eq!((&lent[..], &out[..]), (&b"ab"[..], &[7; 3][..]));
    }
}
