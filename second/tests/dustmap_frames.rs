//! The program `dustmap`, byte for byte.

mod common;

use common::frame;
use second::dustmap::run;

fn insert(number: i32, rect: [i32; 4]) -> Vec<u8> {
    frame(1, &[&[number][..], &rect].concat())
}

fn delete(number: i32, rect: [i32; 4]) -> Vec<u8> {
    frame(2, &[&[number][..], &rect].concat())
}

#[test]
fn the_documents_example() {
    let input = [
        insert(7, [0, 0, 10, 10]),
        insert(7, [0, 0, 10, 10]),
        frame(4, &[10, 10, 20, 20]),
        delete(7, [0, 0, 10, 11]),
    ]
    .concat();
    let due = "1 0 0 0\n2 6 0 0\n3 0 1 1\n7 0 0 10 10\n4 5 0 0\n";
    assert_eq!(run(&input), due);
}

#[test]
fn an_insert_frame_has_24_bytes() {
    let bytes = insert(7, [0, -1, 10, 258]);
    let due = [22, 0, 1, 0, 7, 0, 0, 0, 0, 0, 0, 0, 255, 255, 255, 255, 10, 0, 0, 0, 2, 1, 0, 0];
    assert_eq!(bytes, due);
    assert_eq!(run(&bytes), "1 0 0 0\n");
}

#[test]
fn empty_input_prints_nothing() {
    assert_eq!(run(&[]), "");
}

#[test]
fn update_and_search() {
    let update = frame(3, &[7, 0, 0, 1, 1, -5, -5, -4, -4]);
    let input =
        [insert(7, [0, 0, 1, 1]), update, frame(4, &[-5, -5, -5, -5]), frame(4, &[0, 0, 1, 1])];
    assert_eq!(run(&input.concat()), "1 0 0 0\n2 0 0 0\n3 0 1 1\n7 -5 -5 -4 -4\n4 0 0 1\n");
}

/// A frame cut anywhere is a bad frame; the lines before it stay.
#[test]
fn cut_frames() {
    let first = insert(7, [0, 0, 10, 10]);
    for kept in 1..24 {
        let input = [&first[..], &first[..kept]].concat();
        assert_eq!(run(&input), "1 0 0 0\nbad frame 2\n", "{kept} bytes kept");
    }
}

#[test]
fn odd_and_wrong_lengths() {
    let good = insert(7, [0, 0, 10, 10]);
    for length in [0_u16, 1, 2, 3, 4, 18, 21, 23, 26, 38, 32_768, 65_535] {
        let mut bad = good.clone();
        bad[..2].copy_from_slice(&length.to_le_bytes());
        bad.extend([0; 40]);
        let input = [&good[..], &bad[..], &good[..]].concat();
        assert_eq!(run(&input), "1 0 0 0\nbad frame 2\n", "length {length}");
    }
}

#[test]
fn a_length_right_for_another_kind() {
    let searches = [(4, 5), (4, 9), (5, 5), (5, 9), (6, 5), (6, 9)];
    let changes = [(1, 4), (1, 9), (2, 4), (2, 9), (3, 5), (3, 4)];
    for (kind, words) in changes.into_iter().chain(searches) {
        assert_eq!(run(&frame(kind, &vec![1; words])), "bad frame 1\n", "{kind}, {words} words");
    }
}

#[test]
fn unknown_kinds() {
    for kind in [0, 7, 8, 255, 256, 257, 1_025, 65_535] {
        for words in [4, 5, 9] {
            assert_eq!(run(&frame(kind, &vec![1; words])), "bad frame 1\n", "kind {kind}");
        }
    }
}

#[test]
fn nothing_follows_a_bad_frame() {
    let input = [frame(4, &[0, 0, 0, 0]), frame(9, &[1]), frame(4, &[0, 0, 0, 0])].concat();
    assert_eq!(run(&input), "1 0 0 1\nbad frame 2\n");
}

#[test]
fn refusals_of_requests_go_on() {
    let input =
        [insert(0, [0, 0, 1, 1]), insert(0, [2, 0, 1, 1]), frame(4, &[0, 1, 0, 0])].concat();
    assert_eq!(run(&input), "1 4 0 0\n2 3 0 0\n3 3 0 0\n");
}

/// 65 records at one point: 8 gives found and opened, and no record lines. Each frame has a
/// found list of its own.
#[test]
fn more_than_64_found() {
    let mut input: Vec<u8> = (1..=65).flat_map(|n| insert(n, [5, 5, 5, 5])).collect();
    input.extend(frame(4, &[5, 5, 5, 5]));
    input.extend(delete(1, [5, 5, 5, 5]));
    input.extend(frame(4, &[5, 5, 5, 5]));
    input.extend(frame(4, &[5, 5, 5, 5]));
    let output = run(&input);
    let lines: Vec<&str> = output.lines().collect();
    assert_eq!(lines.len(), 65 + 1 + 1 + 2 * (1 + 64));
    assert!(lines[65].starts_with("66 8 65 "));
    assert_eq!(lines[66], "67 0 0 0");
    assert!(lines[67].starts_with("68 0 64 "));
    assert_eq!(lines[68], "2 5 5 5 5");
    assert_eq!(lines[131], "65 5 5 5 5");
    assert!(lines[132].starts_with("69 0 64 "));
}
