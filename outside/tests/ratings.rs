use outside::{arithmetic, library};

#[test]
fn the_whole_table() {
    let worked: Vec<u32> = (0..512).map(library::rating).collect();
    assert_eq!(worked, arithmetic::ratings());
}

#[test]
fn the_entries_that_are_written_down() {
    let written = [
        (0, 1_000_000_000),
        (1, 999_700_000),
        (2, 999_400_090),
        (3, 999_100_269),
        (511, 857_852_349),
    ];
    for (k, rating) in written {
        assert_eq!(library::rating(k), rating, "T[{k}]");
    }
}

#[test]
fn places_past_the_table_are_refused() {
    for k in [512, 513, 1 << 32, usize::MAX] {
        assert_eq!(library::rating(k), u32::MAX, "k = {k}");
    }
}
