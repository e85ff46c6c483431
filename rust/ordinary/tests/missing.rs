//! What is missing where messages are held: a list of ranges, of which a request names the first.

mod common;

use common::desk::Desk;
use common::had::ranges;
use common::{memx, memx_data, ufo_e, ufo_numbered, ufo_s};
use ordinary::kinds::Sequence;

#[test]
fn missing_is_a_list_of_ranges() {
    let mut desk = Desk::ufo(1);
    desk.take(&ufo_numbered(3, 1));
    desk.take(&ufo_numbered(5, 2));
    desk.take(&ufo_numbered(9, 1));
    assert_eq!(ranges(&desk.record), [(1, 2), (4, 4), (7, 8)]);
    desk.take(&ufo_s(13, &[]));
    let all = [(1, 2), (4, 4), (7, 8), (10, 12)];
    assert_eq!(ranges(&desk.record), all);
    let standing = desk.record.standing().unwrap();
    assert_eq!((standing.complete, standing.missing), (false, 4));
    assert_eq!(standing.first, Some((Sequence(1), Sequence(2))));
    assert_eq!(desk.request(), (1, 2));
    desk.take(&ufo_e(12));
    assert_eq!(ranges(&desk.record), all);
    assert!(!desk.record.standing().unwrap().complete);
}

#[test]
fn at_most_seventeen_ranges_are_missing() {
    let mut desk = Desk::ufo(8);
    for far in (1..=31).step_by(2) {
        desk.take(&ufo_numbered(8 + far, 1));
    }
    desk.take(&ufo_s(101, &[]));
    let mut expected: Vec<(u64, u64)> = (8..=38).step_by(2).map(|one| (one, one)).collect();
    expected.push((40, 100));
    assert_eq!(expected.len(), 17);
    assert_eq!(ranges(&desk.record), expected);
    assert_eq!(desk.record.standing().unwrap().missing, 17);
}

#[test]
fn a_request_names_the_first_range_and_65_535_at_most() {
    let mut desk = Desk::memx(1);
    for (top, count) in [(65_534, 65_534), (65_535, 65_535), (65_536, 65_535)] {
        desk.take(&memx(0, 7, top));
        assert_eq!(desk.request(), (1, count));
    }
    desk.take(&memx_data(7, 32, &[b"far"]));
    assert_eq!(desk.request(), (1, 31));
    desk.take(&memx_data(7, 3, &[b"near"]));
    assert_eq!(desk.request(), (1, 2));
    desk.take(&memx_data(7, 2, &[b"nearer"]));
    assert_eq!(desk.request(), (1, 1));
    desk.take(&memx_data(7, 1, &[b"next"]));
    assert_eq!(desk.request(), (4, 28));
}
