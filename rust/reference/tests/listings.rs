//! The listing program, as a function and as a process.

mod common;

use common::*;
use panstrait_reference::listing;
use panstrait_samples::*;
use std::io::Write;
use std::process::{Command, Stdio};

fn printed(input: &[u8]) -> String {
    String::from_utf8(listing(input)).expect("plain text")
}

#[test]
fn under_two_bytes() {
    for input in [&[][..], &[4], &[0], &[11], &[12], &[13], &[255]] {
        assert_eq!(printed(input), "refused 2\n");
    }
}

/// n counts before the number of bytes.
#[test]
fn n_out_of_range_and_no_table() {
    for n in [0, 12, 13, 255] {
        for input in [
            &[n, 4][..],
            &[n, 0],
            &[n, 4, 0],
            &[n, 4, 0, 0, 0, 0, 0, 0, 0],
        ] {
            assert_eq!(printed(input), "refused 1\n");
        }
    }
}

/// Tables over 12 variables are compiled, and not listed.
#[test]
fn tables_over_12_variables() {
    for table in tables::structured(12) {
        assert!(compiled(12, &table, 12).is_ok());
        for limit in [0, 12, 13] {
            let mut input = listing_input(12, limit, &table);
            assert_eq!(printed(&input), "refused 1\n");
            input.pop();
            assert_eq!(printed(&input), "refused 1\n");
        }
    }
}

#[test]
fn an_address_limit_out_of_range_over_11_variables() {
    let input = listing_input(11, 13, &tables::all_different(11));
    assert_eq!(printed(&input[..input.len() - 1]), "refused 2\n");
    assert_eq!(printed(&input), "refused 8\n");
}

#[test]
fn each_refusal() {
    let over = GREATEST + 1;
    assert_eq!(printed(&listing_input(0, 4, &[0])), "refused 1\n");
    assert_eq!(printed(&listing_input(12, 4, &[0; 4096])), "refused 1\n");
    assert_eq!(printed(&listing_input(13, 4, &[0; 8192])), "refused 1\n");
    assert_eq!(printed(&listing_input(255, 4, &[])), "refused 1\n");
    assert_eq!(printed(&listing_input(2, 4, &[0; 3])), "refused 2\n");
    assert_eq!(printed(&listing_input(2, 4, &[0; 5])), "refused 2\n");
    assert_eq!(printed(&listing_input(1, 4, &[0, over])), "refused 3\n");
    assert_eq!(
        printed(&listing_input(1, 4, &[LEAST - 1, 0])),
        "refused 3\n"
    );
    assert_eq!(printed(&listing_input(1, 0, &[0, 0])), "refused 8\n");
    assert_eq!(printed(&listing_input(1, 13, &[0, 0])), "refused 8\n");
    assert_eq!(printed(&listing_input(2, 1, &[0, 0, 0, 1])), "refused 9\n");
}

#[test]
fn byte_counts_that_are_no_whole_values() {
    let input = listing_input(1, 1, &[5, 8]);
    for length in 2..input.len() {
        assert_eq!(printed(&input[..length]), "refused 2\n");
    }
    assert_eq!(printed(&[input, vec![0]].concat()), "refused 2\n");
}

#[test]
fn order() {
    assert_eq!(printed(&listing_input(0, 0, &[i32::MAX])), "refused 1\n");
    assert_eq!(printed(&listing_input(12, 0, &[i32::MAX])), "refused 1\n");
    assert_eq!(printed(&listing_input(2, 0, &[i32::MAX])), "refused 2\n");
    assert_eq!(printed(&listing_input(1, 0, &[i32::MAX; 2])), "refused 3\n");
    assert_eq!(printed(&listing_input(2, 0, &[0, 0, 0, 1])), "refused 8\n");
}

#[test]
fn small_listings() {
    assert_eq!(
        printed(&listing_input(1, 1, &[5, 8])),
        "table 1 5\nnode 1 0 0 0 3\nnodes 2\ncell 1 1 1 2 4\nbits 4\n"
    );
    assert_eq!(
        printed(&listing_input(2, 2, &[7; 4])),
        "table 2 7\nnodes 1\ncell 2 1 1 0 0\nbits 0\n"
    );
    assert_eq!(
        printed(&listing_input(1, 12, &[GREATEST, LEAST])),
        "table 1 8388607\nnode 1 0 0 0 -16777215\nnodes 2\ncell 1 1 1 25 50\nbits 50\n"
    );
    assert_eq!(
        printed(&listing_input(1, 12, &[LEAST, GREATEST])),
        "table 1 -8388608\nnode 1 0 0 0 16777215\nnodes 2\ncell 1 1 1 24 48\nbits 48\n"
    );
    assert_eq!(
        printed(&listing_input(1, 12, &[-3, -4])),
        "table 1 -3\nnode 1 0 0 0 -1\nnodes 2\ncell 1 1 1 1 2\nbits 2\n"
    );
}

/// The listing by the definitions worked out in other ways.
fn expected(n: usize, limit: usize, table: &[i32]) -> String {
    let cascade = Cascade::new(n, table);
    let costs = cascade.costs();
    let (bits, sizes) = match cascade.chosen(&costs, limit) {
        Some(chosen) => chosen,
        None => return "refused 9\n".into(),
    };
    let records = oracle::records(n, table);
    let mut lines = vec![format!("table {n} {}", table[0])];
    for (place, record) in records.chunks(RECORD).enumerate() {
        let [variable, low, high, weight] = [0, 1, 2, 3].map(|field| record[field]);
        lines.push(format!(
            "node {} {variable} {low} {high} {weight}",
            place + 1
        ));
    }
    lines.push(format!("nodes {}", records.len() / RECORD + 1));
    let mut cut = 0;
    for cell in cascade.draft(&sizes).cells {
        let (group, width) = (usize::from(cell.group), cell.width);
        let (incoming, outgoing) = (cell.incoming, cell.outgoing);
        let cost = costs[cut][group - 1];
        lines.push(format!("cell {group} {incoming} {outgoing} {width} {cost}"));
        cut += group;
    }
    lines.push(format!("bits {bits}"));
    lines.join("\n") + "\n"
}

#[test]
fn whole_listings() {
    for n in 7..=11 {
        for table in tables::structured(n).iter().chain(&tables::adversarial(n)) {
            for limit in [n - 3, 12] {
                let input = listing_input(n as u8, limit as u8, table);
                assert_eq!(printed(&input), expected(n, limit, table));
            }
        }
    }
}

/// The table of X itself: one record and one cell for each variable, with the
/// weight 2^v, which is not negative.
#[test]
fn whole_listings_by_hand() {
    for n in 1..=11 {
        let node = |v: usize| format!("node {} {v} {v} {v} {}\n", v + 1, 1 << v);
        let cell = |v: usize| format!("cell 1 1 1 {} {}\n", v + 1, 2 * (v + 1));
        let nodes: String = (0..n).map(node).collect();
        let cells: String = (0..n).rev().map(cell).collect();
        let (count, bits) = (n + 1, n * (n + 1));
        let text = format!("table {n} 0\n{nodes}nodes {count}\n{cells}bits {bits}\n");
        let input = listing_input(n as u8, 12, &tables::of(n, |x| x as i32));
        assert_eq!(printed(&input), text);
    }
}

/// The table of -X: the weight -2^v has as many bits as 2^v without a sign.
#[test]
fn whole_listings_of_falling_tables_by_hand() {
    for n in 1..=11 {
        let node = |v: usize| format!("node {} {v} {v} {v} -{}\n", v + 1, 1 << v);
        let cell = |v: usize| format!("cell 1 1 1 {} {}\n", v + 1, 2 * (v + 1));
        let nodes: String = (0..n).map(node).collect();
        let cells: String = (0..n).rev().map(cell).collect();
        let (count, bits) = (n + 1, n * (n + 1));
        let text = format!("table {n} 0\n{nodes}nodes {count}\n{cells}bits {bits}\n");
        let input = listing_input(n as u8, 12, &tables::of(n, |x| -(x as i32)));
        assert_eq!(printed(&input), text);
    }
}

/// What the program prints for its standard input.
fn printed_by_program(input: &[u8]) -> String {
    let mut program = Command::new(env!("CARGO_BIN_EXE_listing"))
        .stdin(Stdio::piped())
        .stdout(Stdio::piped())
        .spawn()
        .expect("the program starts");
    let mut stdin = program.stdin.take().expect("piped");
    stdin.write_all(input).expect("the program reads");
    drop(stdin);
    let output = program.wait_with_output().expect("the program ends");
    assert!(output.status.success());
    String::from_utf8(output.stdout).expect("plain text")
}

#[test]
fn the_program_prints_the_listing() {
    let inputs = [
        listing_input(4, 4, &FIGURE),
        listing_input(4, 1, &FIGURE),
        Vec::new(),
    ];
    for input in inputs {
        assert_eq!(printed_by_program(&input), printed(&input));
    }
}

#[test]
fn the_program_on_the_longest_input() {
    let half_of_a_long_image = &tables::long_image()[..2_048];
    let input = listing_input(11, 12, half_of_a_long_image);
    let text = expected(11, 12, half_of_a_long_image);
    assert_eq!(printed_by_program(&input), text);
    let table = tables::all_different(11);
    let mut input = listing_input(11, 12, &table);
    assert_eq!(input.len(), 8_194);
    assert_eq!(printed_by_program(&input), expected(11, 12, &table));
    assert_eq!(printed_by_program(&input[..8_193]), "refused 2\n");
    input.push(0);
    assert_eq!(printed_by_program(&input), "refused 2\n");
}

#[test]
fn the_program_over_12_variables() {
    for table in [tables::long_image(), tables::all_different(12)] {
        let input = listing_input(12, 12, &table);
        assert_eq!(input.len(), 16_386);
        for length in [2, 9, 8_194, 16_385, 16_386] {
            assert_eq!(printed_by_program(&input[..length]), "refused 1\n");
        }
        assert_eq!(printed_by_program(&input[..1]), "refused 2\n");
    }
}
