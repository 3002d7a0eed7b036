//! Wrong libraries: runs the tests against the library with one slip at a time, and shows which test catches it. By hand, not
//! in the gate; it takes the static libraries and the listing program:
//!
//!     cargo run --release --offline --locked --manifest-path outside/Cargo.toml --example slips [WORD ..]
//!
//! tries the slips whose names have all the words, or all slips. It fails if a slip is not caught, or if a test fails without one:
//! the library is tried so where no words are given, the calls in C and those around the counts and the game where slips of theirs
//! are to be tried.

use outside::programs::ran;
use outside::repository::{library, path};
use std::fs;
use std::io::{BufRead, BufReader};
use std::path::{Path, PathBuf};
use std::process::{Command, ExitCode, Stdio};

/// Its name, and the numbers that `c/slips.c` reads.
struct Slip {
    name: String,
    numbers: Vec<i64>,
}

fn slip(name: String, numbers: &[i64]) -> Slip {
    let numbers = numbers.to_vec();
    Slip { name, numbers }
}

const CALLS: [&str; 7] = [
    "check",
    "figure",
    "importance",
    "difference",
    "sitting",
    "counts",
    "game",
];
const CHECK: usize = 0;
const FIGURE: i64 = 1;
const IMPORTANCE: usize = 2;
const DIFFERENCE: usize = 3;
const SITTING: usize = 4;
const COUNTS: usize = 5;
const GAME: usize = 6;

/// More steps than most tests take.
const MANY: i64 = 50_000;

/// What is wrong with an answer: the number of it, and by how much. The first six are tried everywhere, the others where that
/// takes few steps.
const WRONG: [(&str, i64, i64); 10] = [
    ("low +1", 0, 1),
    ("high -1", 1, -1),
    ("steps +1", 2, 1),
    ("finished turned", 3, 1),
    ("byte behind the answer", 4, 1),
    ("returned 1", 6, 1),
    ("low -1", 0, -1),
    ("high +1", 1, 1),
    ("steps -1", 2, -1),
    ("byte behind the buffer", 5, 128),
];

/// The same of the saved work that a sitting writes.
const WRONG_WORK: [(&str, i64, i64); 4] = [
    ("last byte of the work", 13, 1),
    ("byte behind the work", 9, 1),
    ("byte behind the work buffer", 10, 128),
    ("count of the work", 11, 1),
];

/// Where it is wrong: least and most links, finished, least and most steps.
const WHERE: [(&str, [i64; 5]); 14] = [
    ("small finished", [0, 16, 1, 0, i64::MAX]),
    ("small unfinished", [0, 16, 0, 0, i64::MAX]),
    ("large finished to 150", [17, 64, 1, 0, 150]),
    ("large finished from 151", [17, 64, 1, 151, i64::MAX]),
    ("large finished from 5001", [17, 64, 1, 5_001, i64::MAX]),
    ("large finished from 50001", [17, 64, 1, 50_001, i64::MAX]),
    ("large finished from 300001", [17, 64, 1, 300_001, i64::MAX]),
    ("large unfinished to 150", [17, 64, 0, 0, 150]),
    ("large unfinished from 151", [17, 64, 0, 151, i64::MAX]),
    ("large unfinished from 5001", [17, 64, 0, 5_001, i64::MAX]),
    ("large unfinished from 50001", [17, 64, 0, 50_001, i64::MAX]),
    (
        "large unfinished from 400001",
        [17, 64, 0, 400_001, i64::MAX],
    ),
    ("64 links unfinished", [64, 64, 0, 1, i64::MAX]),
    ("64 links finished", [64, 64, 1, 1, i64::MAX]),
];

fn of_answers() -> Vec<Slip> {
    let mut slips = Vec::new();
    for (place, [least, most, finished, from, to]) in WHERE {
        for (call, of) in CALLS[..COUNTS].iter().enumerate() {
            let count = if from > MANY { 6 } else { WRONG.len() };
            for &(wrong, what, by) in &WRONG[..count] {
                if call != CHECK || what == 6 && finished == 1 {
                    let numbers = [0, call as i64, what, by, least, most, finished, from, to];
                    slips.push(slip(format!("{of}: {wrong}, {place}"), &numbers));
                }
            }
            for &(wrong, what, by) in WRONG_WORK.iter().filter(|_| call == SITTING) {
                let numbers = [0, call as i64, what, by, least, most, finished, from, to];
                slips.push(slip(format!("{of}: {wrong}, {place}"), &numbers));
            }
        }
    }
    slips
}

/// The numbers of the causes that a call is refused with, without the link.
fn causes(call: usize) -> Vec<i64> {
    match call {
        CHECK => (1..=6).collect(),
        IMPORTANCE => (1..=9).chain([12, 13]).collect(),
        DIFFERENCE => (1..=7).chain([9, 12, 13]).chain(21..=26).collect(),
        SITTING => (1..=7).chain(9..=13).collect(),
        COUNTS => (1..=6).chain([15, 16]).collect(),
        GAME => (1..=6).chain([9]).collect(),
        _ => (1..=7).chain([9, 12, 13, 14]).collect(),
    }
}

fn of_refusals() -> Vec<Slip> {
    let mut slips = Vec::new();
    for (call, of) in CALLS.iter().enumerate() {
        for cause in causes(call) {
            for (wrong, what, by) in [
                ("another number", 6, 1),
                ("first byte", 7, 1),
                ("last byte", 8, 64),
                ("first byte of the work", 11, 1),
                ("last byte of the work", 12, 64),
            ] {
                let has = match what {
                    6 => true,
                    11 | 12 => call == SITTING,
                    _ => call != CHECK,
                };
                if has {
                    let numbers = [1, call as i64, what, by, cause];
                    slips.push(slip(format!("{of}: {wrong}, refused {cause}"), &numbers));
                }
            }
        }
    }
    slips
}

const OTHERS: [(i64, &str); 64] = [
    (2, "a limit of 1000000 is refused"),
    (3, "a limit of 1000001 is accepted"),
    (4, "limits are 32 bits"),
    (5, "places are 32 bits"),
    (6, "place m is accepted"),
    (7, "a buffer is refused before a limit"),
    (8, "a plan is refused before a limit"),
    (9, "plan B is refused before plan A"),
    (10, "a buffer of 16 bytes is refused"),
    (11, "a place is refused before a plan"),
    (12, "a loop has the importance of the link before it"),
    (13, "place 63 is taken for place 62"),
    (14, "a link of 0 is taken for one unit"),
    (15, "a link of S is taken for S - 1"),
    (16, "a length of 511 is taken for 510"),
    (17, "a length of 0 is taken for a chance of 0"),
    (18, "a limit above 65535 is taken for 65535"),
    (19, "a limit of 1000000 is taken for 999999"),
    (20, "the stack is overrun"),
    (21, "the plan is kept where other threads keep theirs"),
    (22, "a plan of 32 nodes is refused"),
    (23, "a plan of 64 links is refused"),
    (24, "the first plan is taken for both"),
    (25, "the table is kept where other threads keep theirs"),
    (26, "the last table serves where there is none"),
    (30, "a small negative low loses its sign"),
    (31, "a negative high loses its sign"),
    (32, "a low of -S is 0"),
    (33, "an importance of 0 is one unit"),
    (34, "a high of S is S - 1"),
    (35, "steps are 20 bits"),
    (36, "steps are 16 bits"),
    (37, "finished is 255"),
    (38, "low and high are exchanged where low is negative"),
    (39, "the link is not returned"),
    (40, "a link above 31 is not returned"),
    (41, "the refusals of plan B are those of plan A"),
    (42, "16 bytes are cleared on a refusal"),
    (43, "an importance is finished where one evaluation is"),
    (44, "a difference is finished where one evaluation is"),
    (
        45,
        "an importance's high is one less where one evaluation is finished",
    ),
    (
        46,
        "a difference's high is one less where one evaluation is finished",
    ),
    (47, "sitting: the bytes behind saved work are cleared"),
    (48, "sitting: the steps of saved work are one less"),
    (49, "sitting: the work buffer is cleared on a refusal"),
    (50, "sitting: begun work starts over"),
    (51, "sitting: the steps are those of this sitting"),
    (52, "sitting: known pairs are taken as running"),
    (53, "sitting: running pairs are taken as 0 to S"),
    (54, "sitting: a sitting goes past the most steps"),
    (55, "sitting: complete work is worked anew"),
    (56, "sitting: 11 is tested before 10"),
    (57, "sitting: the second place is not tested"),
    (58, "sitting: a low above its high is accepted"),
    (59, "sitting: a low of 1 is the running mark"),
    (60, "sitting: a state of 2 is begun"),
    (61, "sitting: longer saved work is accepted"),
    (62, "sitting: no bytes are eight zero bytes"),
    (63, "sitting: the limit is that of all sittings"),
    (64, "sitting: a total past the most steps is refused"),
    (65, "sitting: saved work is refused before the plan"),
    (66, "sitting: a work buffer of 775 bytes is accepted"),
    (67, "sitting: steps of 1000001 are accepted"),
    (68, "sitting: 65 open splits are accepted"),
];

/// Lengths in fewer bits, places of many open splits and odd addresses: the kind, its name, and the calls that have it.
const OF_CALLS: [(i64, &str, &[usize]); 16] = [
    (70, "a plan's length is 16 bits", &[0, 1, 2, 3, 4]),
    (71, "plan B's length is 16 bits", &[3]),
    (72, "an answer buffer's length is 16 bits", &[1, 2, 3, 4]),
    (71, "the length of saved work is 16 bits", &[4]),
    (74, "the length of saved work is 17 bits", &[4]),
    (75, "the length of saved work is 10 bits", &[4]),
    (73, "a work buffer's length is 16 bits", &[4]),
    (77, "a table's length is 16 bits", &[1, 2, 3, 4]),
    (78, "a table's length is 12 bits", &[1, 2, 3, 4]),
    (79, "a table's length is 11 bits", &[1, 2, 3, 4]),
    (76, "the last of many places is not tested", &[4]),
    (
        80,
        "a byte is wrong where the plan is at an odd address",
        &[4],
    ),
    (
        81,
        "a byte is wrong where saved work is at an odd address",
        &[4],
    ),
    (
        82,
        "a byte is wrong where the answer is at an odd address",
        &[4],
    ),
    (
        83,
        "a byte is wrong where the work is at an odd address",
        &[4],
    ),
    (
        84,
        "a byte is wrong where the table is at an odd address",
        &[4],
    ),
];

fn of_calls() -> Vec<Slip> {
    let mut slips = Vec::new();
    for (kind, name, calls) in OF_CALLS {
        for &call in calls {
            let counts: &[i64] = if kind == 76 { &[20, 40] } else { &[0] };
            for &count in counts {
                let more = match count {
                    0 => String::new(),
                    count => format!(", more than {count}"),
                };
                let name = format!("{}: {name}{more}", CALLS[call]);
                slips.push(slip(name, &[kind, call as i64, count]));
            }
        }
    }
    slips
}

/// Slips of the link that is split on and of work that is carried on, in the order of their numbers in `c/in_c.h`.
const OF_CHOICE: [&str; 23] = [
    "the largest product",
    "the latest of equal sums",
    "the counts of the plan",
    "the largest count of one end",
    "the largest count of the end with fewer links",
    "the smallest sum",
    "the first link",
    "the first link where splits are open",
    "the first link where it has taken an open split",
    "11 refuses the first link",
    "11 refuses the first link from the fourth open split on",
    "11 refuses a mixture",
    "11 refuses the largest sum",
    "11 accepts any link's place",
    "11 accepts any link's place from the fourth open split on",
    "open splits are put at the largest sum",
    "work of the first link starts over",
    "the steps saved are forgotten",
    "the steps saved are forgotten of work of the first link",
    "place 0 is written for each open split",
    "the place in the plan is written",
    "the counts are four bits",
    "the sums are five bits",
];

/// The kind of the calls in C.
const IN_C: i64 = 90;

fn of_choice() -> Vec<Slip> {
    let numbered = (1..).zip(OF_CHOICE);
    let slip = |(number, name)| slip(format!("choice: {name}"), &[IN_C, number]);
    numbered.map(slip).collect()
}

/// Slips of the joints, in the order of their numbers in `c/in_c.h`, which go on from those of the choice.
const OF_JOINTS: [&str; 21] = [
    "none",
    "one alone",
    "three",
    "rounded once, at the end",
    "high rounded down",
    "low rounded up",
    "high rounded down after the first",
    "low rounded up after the first",
    "low for both",
    "high for both",
    "for low alone",
    "for high alone",
    "on values in units",
    "none at length 0",
    "none at length 1",
    "none at length 511",
    "none from length 256 on",
    "J one less",
    "J one more",
    "none at the first link",
    "none at the last link",
];

/// Slips of what a table's values mean, in the order of their numbers, which go on from those of the joints.
const OF_VALUES: [&str; 19] = [
    "the built-in one serves",
    "no joint under it",
    "one joint under it",
    "the value behind is read",
    "the value before is read",
    "the highest byte is read first",
    "three bytes are read",
    "a value is one less",
    "lengths are eight bits",
    "the built-in one at length 1",
    "the built-in one at length 511",
    "the built-in one from length 256 on",
    "the built-in one for a value of 0",
    "the built-in one where it is less",
    "the built-in one where it is more",
    "the built-in one for low",
    "the built-in one for high",
    "the built-in one at the first link",
    "the built-in one at the last link",
];

/// Slips of checks 12 and 13, in the order of their numbers, which go on from those. The last is of a sitting alone.
const OF_CHECKS: [&str; 28] = [
    "any length is accepted",
    "longer ones are accepted",
    "2049 bytes are accepted",
    "2051 bytes are accepted",
    "4096 bytes are accepted",
    "three bytes are taken for none",
    "no bytes are refused",
    "the first value is not tested",
    "S + 1 may be first",
    "less than S may be first",
    "value 1 may rise",
    "value 256 may rise",
    "value 511 may rise",
    "every value may rise",
    "a value may rise by one",
    "a value may rise up to S",
    "values are signed",
    "equal neighbours are refused",
    "a value of 0 is refused",
    "13 names the place",
    "refused before 7",
    "refused before 9",
    "refused after plan A",
    "13 refused after plan A",
    "refused after all others",
    "12 only where plan A has a length",
    "13 only where plan A has a length",
    "not tested where saved work is complete",
];

/// Slips of the rule with chosen nodes, in the order of their numbers in `c/in_c.h`.
const OF_CHOSEN: [&str; 25] = [
    "an unchosen end leaves its factor",
    "a chosen end leaves no factor",
    "a chosen end's neighbour does not become chosen",
    "an unchosen end's neighbour becomes chosen",
    "unchosen ends are left",
    "chosen ends are left",
    "an unchosen node of two links is reduced as a chosen one",
    "a chosen node of two links is reduced as an unchosen one",
    "a chosen node of two links is reduced whatever its neighbours",
    "a chosen node of two links is reduced if one neighbour is chosen",
    "unchosen nodes of two links are left",
    "chosen nodes of two links are left",
    "unchosen nodes of two links go ahead of chosen ones",
    "chosen nodes of two links go ahead of unchosen ones",
    "the low of p * q / S is rounded up",
    "the high of p * q / S is rounded down",
    "pieces without a chosen node are left in",
    "pieces that come off at a broken link are left in",
    "links in a piece without a chosen node give 0",
    "a piece that comes off at a broken link gives 0",
    "one chosen node gives S only where no link is left",
    "a merged node is chosen if both were",
    "a merged node is chosen if the smaller was",
    "a merged node is chosen if the larger was",
    "a merged node is always chosen",
];

/// The kinds of slips of chosen nodes: in the calls in C, around figure, and in its answers where some nodes are not chosen.
const CHOSEN_IN_C: i64 = 91;
const AROUND_CHOSEN: i64 = 92;
const ANSWERS_OF_CHOSEN: i64 = 93;

/// Slips of the choice of nodes as figure takes it, in the order of their numbers in `c/slips.c`.
const OF_NODES: [&str; 35] = [
    "the choice is ignored",
    "the nodes that are not chosen are taken",
    "each bit names the node above",
    "each bit names the node below",
    "the bits name the nodes from the last on",
    "the lowest chosen node is left out",
    "the lowest two chosen nodes are taken alone",
    "node 31 is never chosen",
    "the choice is 16 bits",
    "node 0 is always chosen",
    "the node above the lowest of two is chosen as well",
    "the last node is always chosen",
    "the choice is cut to 32 bits",
    "the choice and the limit are exchanged",
    "no node is all nodes",
    "no node is node 0",
    "nodes from n on are passed over",
    "node n is passed over",
    "node 63 is passed over",
    "nodes from 33 on are passed over",
    "with 32 nodes any choice but 0 passes",
    "the last node is refused",
    "all nodes are refused",
    "one node is refused",
    "14 names the node",
    "a limit is one less where not all nodes are chosen",
    "one chosen node is certain only where all are",
    "14 is tested before 1 to 6",
    "a choice of no node is refused before 1 to 6",
    "14 is tested before 5 and 6",
    "14 is tested before 12 and 13",
    "14 is tested before 9",
    "14 is tested before 7",
    "S is written where no node is chosen",
    "16 bytes are cleared where the choice is wrong",
];

fn of_chosen() -> Vec<Slip> {
    let numbered = |kind, names: &[&str]| -> Vec<Slip> {
        let slips = (1..).zip(names);
        slips
            .map(|(number, name)| slip(format!("chosen: {name}"), &[kind, number]))
            .collect()
    };
    let mut slips = numbered(CHOSEN_IN_C, &OF_CHOSEN);
    slips.extend(numbered(AROUND_CHOSEN, &OF_NODES));
    for (place, [least, most, finished, from, to]) in WHERE {
        for &(wrong, what, by) in &WRONG[..6] {
            let kind = ANSWERS_OF_CHOSEN;
            let numbers = [kind, FIGURE, what, by, least, most, finished, from, to];
            slips.push(slip(format!("chosen: {wrong}, {place}"), &numbers));
        }
    }
    slips
}

/// The kind of slips of the counts.
const OF_THE_COUNTS: i64 = 94;

/// Slips of the counts, by their numbers in `c/slips_of_counts.c`.
const OF_COUNTS: [(i64, &str); 70] = [
    (1, "loops are dropped"),
    (2, "of links side by side the first counts alone"),
    (3, "links of 0 are dropped"),
    (4, "links of S are dropped"),
    (5, "lengths are dropped"),
    (6, "the last link is dropped"),
    (7, "the first link is dropped"),
    (8, "the last of 24 links is dropped"),
    (9, "nodes without a link are left out"),
    (10, "the last node is left out where it has no link"),
    (11, "nodes are four bits"),
    (12, "of 25 nodes the last is the one before"),
    (13, "a loop joins its node and the next"),
    (14, "the last of 24 links is a loop"),
    (20, "entries stand one place too low"),
    (21, "entries stand one place too high"),
    (22, "entries go by the broken links"),
    (23, "entries are those of at most i links"),
    (24, "the sets that do not connect are counted"),
    (25, "entries are 8 bits"),
    (26, "entries are 16 bits"),
    (27, "entries are 21 bits"),
    (28, "the highest byte comes first"),
    (29, "the empty set connects nothing"),
    (30, "all links together always connect"),
    (31, "a middle entry is one more, up to 14 links"),
    (32, "a middle entry is one more, from 15 to 23 links"),
    (33, "a middle entry is one more, 24 links"),
    (34, "the first entry that is not 0 is one less"),
    (35, "the last entry is one more"),
    (36, "entry 0 is one more where there are 32 nodes"),
    (37, "a first length adds a set"),
    (38, "all entries are 0 where a link is 0"),
    (39, "an entry above 2000000 is one less"),
    (40, "the last entry is not written"),
    (41, "the first entry is not written"),
    (42, "zeros are not written"),
    (43, "entries are added to the row"),
    (44, "the row is cleared behind place m"),
    (45, "a 0 is written behind place m"),
    (46, "the number behind the row is changed"),
    (47, "the number before the row is changed"),
    (48, "the last number of a longer row is changed"),
    (49, "25 numbers are written where there is room"),
    (60, "24 links are refused"),
    (61, "25 links are accepted"),
    (62, "a row of m + 1 numbers is refused"),
    (63, "a longer row is refused"),
    (64, "16 is tested before 15"),
    (65, "15 is tested before 1 to 6"),
    (66, "15 is tested before 5 and 6"),
    (67, "16 is tested before 1 to 6"),
    (68, "16 is tested before 5 and 6"),
    (69, "an empty row is refused before all else"),
    (70, "15 names the links"),
    (71, "the row's length counts bytes"),
    (72, "an empty row is refused by 9"),
    (73, "a row of m numbers is accepted"),
    (74, "the entries that fit are written on 16"),
    (75, "the row is cleared on 15"),
    (76, "the row is cleared on 16"),
    (77, "the row is cleared on 1 to 6"),
    (78, "the refusal is written to the row"),
    (80, "the plan is kept where other threads keep theirs"),
    (81, "the stack is overrun"),
    (82, "the row's length is 16 bits"),
    (83, "the row's length is 8 bits"),
    (84, "the plan's length is 16 bits"),
    (85, "a plan at an odd address is refused"),
    (86, "a row at no multiple of 16 is refused"),
];

fn of_counts() -> Vec<Slip> {
    let slip = |(number, name)| slip(format!("counts: {name}"), &[OF_THE_COUNTS, number]);
    OF_COUNTS.map(slip).into()
}

/// The kind of slips of the game.
const OF_THE_GAME: i64 = 95;

/// Slips of the game, by their numbers in `c/slips_of_game.c`.
const OF_GAME: [(i64, &str); 119] = [
    (1, "links of 0 are passed over"),
    (2, "links of S are passed over"),
    (3, "lengths are passed over"),
    (4, "of links side by side the first counts alone"),
    (5, "the last link is passed over"),
    (6, "the first link is passed over"),
    (7, "links from 32 on are passed over"),
    (8, "the last of 64 links is passed over"),
    (9, "a loop joins its node and the next"),
    (10, "the last node is left out where it has no link"),
    (11, "nodes without a link are left out"),
    (12, "nodes are four bits"),
    (13, "of 32 nodes the last is the one before"),
    (20, "the two openings are exchanged"),
    (21, "1 is the cutter"),
    (22, "the opening keeper is the one who does not open"),
    (23, "the opening cutter is the one who does not open"),
    (24, "one node is lost"),
    (25, "one node with loops is lost"),
    (26, "the keeper is 255"),
    (27, "the opening keeper wins only where he has to open"),
    (28, "as many links as two trees but one are enough to open"),
    (29, "as many links as two trees are enough"),
    (30, "an odd number of loops takes the opening away"),
    (31, "one link between two nodes is no opening"),
    (32, "no opening is found from 16 nodes on"),
    (33, "no opening is found at 32 nodes"),
    (34, "the opening keeper wins without a link"),
    (35, "byte 1 is turned"),
    (36, "the keeper is 3 where the cutter opens"),
    (37, "the cutter is 2 where he opens"),
    (40, "a link in both trees is marked 3"),
    (41, "a link of the second tree is in the first"),
    (42, "the first tree lacks a link"),
    (43, "the second tree lacks a link"),
    (44, "all other links are in the first tree"),
    (45, "all other links are in the second tree"),
    (46, "the trees are 0 and 1"),
    (47, "marks stand one place too high"),
    (48, "marks stand one place too low"),
    (49, "links side by side are in one tree"),
    (50, "a loop is in the first tree in place of a link"),
    (51, "a loop is in the second tree besides"),
    (52, "a link of no tree is in the second for its first"),
    (53, "place m is marked beside trees"),
    (54, "place 63 is marked beside trees"),
    (55, "node 0 is in group 1 beside trees"),
    (56, "each node is a group beside trees"),
    (57, "no trees are shown"),
    (58, "at 32 nodes the first tree lacks a link"),
    (59, "the last of 64 links is in no tree"),
    (60, "groups are numbered from 1"),
    (61, "group 1 is empty"),
    (62, "the last group is one higher"),
    (63, "each node is a group"),
    (64, "all nodes are one group"),
    (65, "the first two groups are one"),
    (66, "the pieces are the groups"),
    (67, "a group has the number of its lowest node"),
    (68, "groups are four bits"),
    (69, "the last group is 255"),
    (70, "a node is in the group of the one before"),
    (71, "there are two groups at most"),
    (72, "the last node is in group 0"),
    (73, "the first node is in the last group"),
    (74, "node n is in group 1"),
    (75, "node 31 is in group 1"),
    (76, "link 0 is marked beside groups"),
    (77, "place m is marked beside groups"),
    (78, "of 32 nodes the last is in group 0"),
    (79, "no grouping is shown without a link"),
    (80, "the last node of the last group is in the one before"),
    (81, "the last two groups are one"),
    (82, "nothing is shown where the keeper has to open"),
    (
        83,
        "trees are shown beside groups where the keeper has to open",
    ),
    (84, "trees are shown where the keeper has to open"),
    (85, "links are marked in turn where the keeper has to open"),
    (90, "byte 97 is not written"),
    (91, "byte 0 is not written"),
    (92, "byte 1 is not written"),
    (93, "zeros are not written"),
    (94, "the bytes of no link are not written"),
    (95, "the bytes of no node are not written"),
    (96, "bits are added to the buffer's"),
    (97, "the buffer is cleared behind the answer"),
    (98, "a 0 is written behind the answer"),
    (99, "the byte behind the buffer is changed"),
    (100, "the byte before the buffer is changed"),
    (101, "the last byte of a longer buffer is changed"),
    (102, "100 bytes are written where there is room"),
    (110, "98 bytes are refused"),
    (111, "a longer buffer is refused"),
    (112, "9 is tested behind 1 to 6"),
    (113, "9 is tested behind 1 to 4"),
    (114, "9 is tested behind 1"),
    (115, "97 bytes are accepted, and nothing is written"),
    (116, "16 bytes are accepted, and nothing is written"),
    (117, "more than 24 links are refused"),
    (118, "64 links are refused"),
    (119, "32 nodes are refused"),
    (120, "one node is refused"),
    (121, "the link is not returned"),
    (122, "a link above 31 is not returned"),
    (123, "no buffer is refused by 16"),
    (124, "values are not tested"),
    (130, "the buffer is cleared on 9"),
    (131, "the buffer is cleared on 1 to 4"),
    (132, "the buffer is cleared on 5 and 6"),
    (133, "the refusal is written to the buffer"),
    (134, "the bytes that fit are written on 9"),
    (135, "97 bytes are accepted and written"),
    (140, "the plan is kept where other threads keep theirs"),
    (141, "the stack is overrun"),
    (142, "the buffer's length is 16 bits"),
    (143, "the buffer's length is 8 bits"),
    (144, "the plan's length is 16 bits"),
    (145, "a plan at an odd address is refused"),
    (146, "a buffer at an odd address is refused"),
    (
        147,
        "the last answer serves where the plan has the same sizes",
    ),
];

fn of_game() -> Vec<Slip> {
    let slip = |(number, name)| slip(format!("game: {name}"), &[OF_THE_GAME, number]);
    OF_GAME.map(slip).into()
}

/// The kind of slips of the game by a search in C.
const OF_THE_SEARCH: i64 = 97;

/// Slips of that search, by their numbers in `c/slips_of_search.c`.
const OF_SEARCH: [(i64, &str); 3] = [
    (1, "the search climbs eight levels at most"),
    (2, "there are m + 14 placements at most"),
    (3, "there are m + 30 placements at most"),
];

fn of_search() -> Vec<Slip> {
    let slip = |(number, name)| slip(format!("game: {name}"), &[OF_THE_SEARCH, number]);
    OF_SEARCH.map(slip).into()
}

/// The kind of slips that change what is lent to be read.
const CHANGED: i64 = 96;

fn of_what_is_lent() -> Vec<Slip> {
    let mut slips = Vec::new();
    for (call, of) in (0..).zip(CALLS) {
        for (number, what) in [
            (0, "the plan"),
            (1, "plan B"),
            (1, "the saved work"),
            (2, "the table"),
        ] {
            let has = match what {
                "the plan" => true,
                "plan B" => call == DIFFERENCE,
                "the saved work" => call == SITTING,
                _ => (FIGURE as usize..=SITTING).contains(&call),
            };
            if has {
                let numbers = [CHANGED, call as i64, number];
                slips.push(slip(format!("{of}: {what} is changed"), &numbers));
            }
        }
    }
    slips
}

/// Where a slip of the joints or of a value may be made alone, in the order of these places' numbers in `c/in_c.h`.
const PLACES: [&str; 6] = [
    "a figure",
    "an importance",
    "a difference's plan A",
    "a difference's plan B",
    "a sitting",
    "a sitting that carries on",
];

/// The numbers of the first slips of the joints, of a value and of the checks.
const FIRST_OF_JOINTS: i64 = 1 + OF_CHOICE.len() as i64;
const FIRST_OF_VALUES: i64 = FIRST_OF_JOINTS + OF_JOINTS.len() as i64;
const FIRST_OF_CHECKS: i64 = FIRST_OF_VALUES + OF_VALUES.len() as i64;

/// Each slip everywhere and in each place.
fn in_each_place(of: &str, first: i64, names: &[&str]) -> Vec<Slip> {
    let mut slips = Vec::new();
    for (number, name) in (first..).zip(names) {
        slips.push(slip(format!("{of}: {name}"), &[IN_C, number]));
        for (place, within) in (1..).zip(PLACES) {
            let numbers = [IN_C, 100 * place + number];
            slips.push(slip(format!("{of}: {name}, in {within}"), &numbers));
        }
    }
    slips
}

/// Each slip in each call that takes a table.
fn of_checks() -> Vec<Slip> {
    let mut slips = Vec::new();
    for (number, name) in (FIRST_OF_CHECKS..).zip(OF_CHECKS) {
        let last = number + 1 == FIRST_OF_CHECKS + OF_CHECKS.len() as i64;
        for (place, call) in [(1, 1), (2, IMPORTANCE), (3, DIFFERENCE), (5, SITTING)] {
            if call == SITTING || !last {
                let numbers = [IN_C, 100 * place + number];
                slips.push(slip(format!("table: {name}, {}", CALLS[call]), &numbers));
            }
        }
    }
    slips
}

fn slips() -> Vec<Slip> {
    let mut slips = of_refusals();
    slips.extend(of_calls());
    slips.extend(of_choice());
    slips.extend(in_each_place("joints", FIRST_OF_JOINTS, &OF_JOINTS));
    slips.extend(in_each_place("table", FIRST_OF_VALUES, &OF_VALUES));
    slips.extend(of_checks());
    slips.extend(of_chosen());
    slips.extend(of_counts());
    slips.extend(of_game());
    slips.extend(of_search());
    slips.extend(of_what_is_lent());
    slips.extend(OTHERS.map(|(kind, name)| slip(name.into(), &[kind])));
    slips.extend(of_answers());
    slips
}

/// Writes the libraries with slips to the folder.
fn write_libraries(folder: &Path) {
    fs::create_dir_all(folder).unwrap();
    fs::copy(library("test_exports"), folder.join("libtest_exports.a")).unwrap();
    let archive = folder.join("libdesk.a");
    let mut rename = Command::new("objcopy");
    for call in CALLS {
        rename.arg(format!("--redefine-sym={call}=proved_{call}"));
    }
    ran(rename.arg(library("desk")).arg(&archive));
    for name in [
        "slips",
        "in_c",
        "slips_of_counts",
        "slips_of_game",
        "slips_of_search",
    ] {
        let object = folder.join(format!("{name}.o"));
        let flags = "-std=c11 -O2 -Wall -Wextra -Wpedantic -Werror -c -I";
        let mut gcc = Command::new("gcc");
        gcc.args(flags.split(' ')).arg(path("include")).arg("-o");
        ran(gcc.arg(&object).arg(path(&format!("outside/c/{name}.c"))));
        ran(Command::new("ar").arg("rs").arg(&archive).arg(&object));
    }
}

/// The test programs of the gate, the building, the documents, the arithmetic and the listing program, which do not make the calls.
const APART: [&str; 7] = [
    "gate",
    "build",
    "readme",
    "rounding",
    "ratings",
    "sample_plans",
    "planlist",
];

/// Those that take long, and are tried last.
const LONG: [&str; 3] = ["desk_programs", "desk_stack", "desk_limits"];

/// Builds the tests with the libraries in the folder, and returns the programs that make the calls.
fn built(folder: &Path) -> Vec<PathBuf> {
    let mut cargo = Command::new("cargo");
    cargo.args(["test", "--release", "--offline", "--locked", "--no-run"]);
    cargo.arg("--tests").current_dir(path("outside"));
    cargo.env("LIBRARIES", folder);
    cargo.arg("--target-dir").arg(folder.join("build"));
    cargo.arg("--manifest-path").arg(path("outside/Cargo.toml"));
    let output = cargo.output().unwrap();
    let said = String::from_utf8(output.stderr).unwrap();
    assert!(output.status.success(), "{said}");
    let program = |line: &str| {
        let (name, file) = line
            .trim()
            .strip_prefix("Executable tests/")?
            .split_once('(')?;
        let apart = APART.contains(&name.trim().strip_suffix(".rs")?);
        (!apart).then(|| path("outside").join(file.trim_end_matches(')')))
    };
    let mut programs: Vec<PathBuf> = said.lines().filter_map(program).collect();
    programs.sort_by_key(|program| LONG.iter().position(|long| *long == name(program)));
    programs
}

/// The name of a test program, without what cargo adds.
fn name(program: &Path) -> String {
    let stem = program.file_stem().unwrap().to_str().unwrap();
    stem.rsplit_once('-').map_or(stem, |(name, _)| name).into()
}

/// A test program, and one of its tests or all of them.
type Trial = (PathBuf, Option<String>);

/// Runs the tests until one fails, and returns that one. A program that ends badly without a failing test has overrun.
fn caught((program, test): &Trial, slip: Option<&Slip>) -> Option<Trial> {
    let mut command = Command::new(program);
    if let Some(test) = test {
        command.args([test, "--exact"]);
    }
    if let Some(slip) = slip {
        let numbers: Vec<String> = slip.numbers.iter().map(i64::to_string).collect();
        command.env("SLIP", numbers.join(" "));
    }
    command.stdout(Stdio::piped()).stderr(Stdio::null());
    let mut run = command.current_dir(path("outside")).spawn().unwrap();
    let lines = BufReader::new(run.stdout.take().unwrap()).lines();
    let failed = lines.map_while(Result::ok).find_map(|line| {
        let name = line.strip_prefix("test ")?.strip_suffix(" ... FAILED")?;
        Some(name.to_owned())
    });
    if failed.is_some() {
        let _ = run.kill();
    }
    let status = run.wait().unwrap();
    match failed {
        Some(name) => Some((program.clone(), Some(name))),
        None => (!status.success()).then(|| (program.clone(), test.clone())),
    }
}

fn shown((program, test): &Trial) -> String {
    format!("{}: {}", name(program), test.as_deref().unwrap_or("ended"))
}

/// Which test catches the slip. The tests that caught one before are tried first, the last of them before all others; of slips
/// at many steps it is the last alone, and then the programs that take long.
fn tried(slip: &Slip, programs: &[PathBuf], before: &mut Vec<Trial>) -> Option<Trial> {
    let late = slip.numbers.get(7).is_some_and(|from| *from > MANY);
    let mut trials: Vec<Trial> = before.iter().rev().cloned().collect();
    let mut whole: Vec<Trial> = programs.iter().map(|p| (p.clone(), None)).collect();
    if late {
        trials.truncate(1);
        whole.reverse();
    }
    trials.extend(whole);
    let found = trials.iter().find_map(|trial| caught(trial, Some(slip)))?;
    before.retain(|trial| *trial != found);
    before.push(found.clone());
    Some(found)
}

/// Whether all tests pass with the library, or with the calls in C, that have no slip.
fn right(programs: &[PathBuf], slip: Option<&Slip>) -> bool {
    let tried = |program: &PathBuf| caught(&(program.clone(), None), slip);
    let failed = programs.iter().find_map(tried);
    if let Some(trial) = &failed {
        println!("fails without a slip: {}", shown(trial));
    }
    failed.is_none()
}

fn main() -> ExitCode {
    let words: Vec<String> = std::env::args().skip(1).collect();
    let folder = path("target").join("slips");
    write_libraries(&folder);
    let programs = built(&folder.canonicalize().unwrap());
    let mut slips = slips();
    slips.retain(|slip| words.iter().all(|word| slip.name.contains(word)));
    let fails = |kind: i64| {
        let none = slip("none".into(), &[kind, 0]);
        slips.iter().any(|slip| slip.numbers[0] == kind) && !right(&programs, Some(&none))
    };
    if words.is_empty() && !right(&programs, None)
        || [IN_C, CHOSEN_IN_C, OF_THE_COUNTS, OF_THE_GAME, OF_THE_SEARCH]
            .into_iter()
            .any(fails)
    {
        return ExitCode::FAILURE;
    }
    let (mut before, mut missed) = (Vec::new(), Vec::new());
    for slip in &slips {
        match tried(slip, &programs, &mut before) {
            Some(trial) => println!("{}: caught by {}", slip.name, shown(&trial)),
            None => {
                println!("{}: NOT CAUGHT", slip.name);
                missed.push(slip.name.clone());
            }
        }
    }
    println!("{} slips, {} not caught", slips.len(), missed.len());
    ExitCode::from(u8::from(!missed.is_empty()))
}
