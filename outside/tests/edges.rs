//! The largest sizes, values, limits and buffers that pass, and one more of each.

use outside::arithmetic::S;
use outside::calls::{held, Call, Outcome};
use outside::desk::hold_sitting_at;
use outside::plans::{Plan, LENGTH};
use outside::sittings::{held_into, Sitting, NOTHING, WORK};

/// A ring of all nodes, run round until there are enough links, so that it takes no split.
fn ring(nodes: u16, count: usize, value: u32) -> Vec<u8> {
    let ends: Vec<[u8; 2]> = (0..count)
        .map(|i| [i, i + 1].map(|v| (v % usize::from(nodes)) as u8))
        .collect();
    Plan::alike(nodes, value, &ends).bytes()
}

/// Number returned by each call that is made with this plan and limit: check, figure, importance, difference with the
/// plan first, and second; and sitting.
fn numbers(plan: &[u8], limit: u64) -> [u64; 6] {
    let good = &ring(3, 3, S);
    let calls = [
        Call::Check { plan },
        Call::figure(plan, limit),
        Call::Importance {
            plan,
            place: 0,
            limit,
        },
        Call::Difference {
            a: plan,
            b: good,
            limit,
        },
        Call::Difference {
            a: good,
            b: plan,
            limit,
        },
    ];
    let [a, b, c, d, e] = calls.map(|call| held(&call, 16).err().unwrap_or(0));
    let saved = &NOTHING;
    let sitting = Sitting { plan, limit, saved };
    let f = held_into(&sitting, 16, WORK).err().unwrap_or(0);
    [a, b, c, d, e, f]
}

const PASSED: [u64; 6] = [0; 6];

fn refused(number: u64) -> [u64; 6] {
    [number, number, number, number, number + 20, number]
}

#[test]
fn the_most_that_passes_and_one_more() {
    let limit = 1_000_000;
    assert_eq!(numbers(&ring(32, 64, S), limit), PASSED);
    assert_eq!(numbers(&ring(32, 64, LENGTH + 511), limit), PASSED);
    assert_eq!(numbers(&ring(33, 64, S), limit), refused(2));
    assert_eq!(numbers(&ring(32, 65, S), limit), refused(3));
    assert_eq!(numbers(&ring(32, 64, S + 1), limit), refused(6));
    assert_eq!(numbers(&ring(32, 64, LENGTH + 512), limit), refused(6));
}

/// A plan with many bytes behind it is refused for its length, though in 16 or 17 bits that were the plan's own.
#[test]
fn plans_with_65_536_bytes_behind() {
    for count in [1 << 16, 1 << 17, 3 << 16] {
        for plan in [ring(3, 0, S), ring(3, 3, S), ring(32, 64, S)] {
            for byte in [0, 1, 255] {
                let longer = [&plan[..], &vec![byte; count]].concat();
                assert_eq!(numbers(&longer, 0), refused(4), "{count}");
            }
        }
    }
}

#[test]
fn each_link_with_one_more() {
    for i in 0..64 {
        let mut plan = Plan::complete(12, LENGTH + 511);
        plan.links.truncate(64);
        plan.links[i].value = S + 1;
        assert_eq!(numbers(&plan.bytes(), 0), refused(6 + 256 * i as u64));
        plan.links[i].ends[i % 2] = 12;
        assert_eq!(numbers(&plan.bytes(), 0), refused(5 + 256 * i as u64));
    }
}

#[test]
fn limits_are_64_bits() {
    let plan = ring(3, 3, S);
    for limit in [0, 1, 999_999, 1_000_000] {
        assert_eq!(numbers(&plan, limit), PASSED, "limit {limit}");
    }
    for limit in [
        1_000_001,
        1 << 20,
        1 << 31,
        1 << 32,
        (1 << 32) + 5,
        1 << 63,
        u64::MAX,
    ] {
        assert_eq!(numbers(&plan, limit), [0, 7, 7, 7, 7, 7], "limit {limit}");
    }
}

#[test]
fn places_are_64_bits() {
    let plan = &ring(5, 64, S / 2);
    let asked = |place| -> Outcome {
        let limit = 0;
        held(&Call::Importance { plan, place, limit }, 16)
    };
    for place in [0, 1, 31, 32, 63] {
        assert!(asked(place).is_ok(), "place {place}");
    }
    for place in [64, 65, 256, 1 << 32, (1 << 32) + 1, 1 << 63, u64::MAX] {
        assert_eq!(asked(place), Err(8), "place {place}");
    }
}

/// Nothing behind byte 16 changes, and nothing at all where the buffer is too short.
#[test]
fn buffers_of_0_to_40_bytes() {
    let (plan, b) = (&ring(4, 6, S / 2), &ring(3, 5, S / 3));
    let (limit, place) = (10, 3);
    for room in 0..=40 {
        let number = if room < 16 { Err(9) } else { Ok(()) };
        let calls = [
            Call::figure(plan, limit),
            Call::Importance { plan, place, limit },
            Call::Difference { a: plan, b, limit },
        ];
        for call in calls {
            assert_eq!(held(&call, room).map(|_| ()), number, "{call:?} {room}");
        }
    }
}

/// The same of the two buffers of a sitting, of which the second has to have 776 bytes.
#[test]
fn buffers_of_a_sitting() {
    let (plan, saved) = (&Plan::complete(5, S / 2).bytes(), &NOTHING);
    for limit in [0, 3, 10] {
        let sitting = Sitting { plan, limit, saved };
        let works = (0..=40).chain(760..=800).chain([WORK - 1, WORK, 4_096]);
        for (answer, work) in works.flat_map(|work| [0, 15, 16, 17].map(|room| (room, work))) {
            let number = if answer < 16 || work < WORK {
                Err(9)
            } else {
                Ok(())
            };
            let returned = held_into(&sitting, answer, work).map(|_| ());
            assert_eq!(returned, number, "{answer} {work}");
        }
    }
}

/// 65,536 bytes and more are enough for every buffer, whatever their number would be in 16 or 17 bits.
#[test]
fn buffers_of_65_536_bytes_and_more() {
    let (plan, saved) = (&Plan::complete(5, S / 2).bytes(), &NOTHING);
    let (limit, place) = (3, 3);
    let sitting = Sitting { plan, limit, saved };
    for wide in [1 << 16, 1 << 17] {
        let rooms = [0, 15, 16, 775, 776].map(|room| wide + room);
        for room in rooms {
            let calls = [
                Call::figure(plan, limit),
                Call::Importance { plan, place, limit },
                Call::Difference {
                    a: plan,
                    b: plan,
                    limit,
                },
            ];
            for call in calls {
                assert!(held(&call, room).is_ok(), "{call:?} {room}");
            }
            for work in rooms.into_iter().chain([WORK]) {
                assert!(held_into(&sitting, room, work).is_ok(), "{room} {work}");
                assert!(held_into(&sitting, 16, work).is_ok(), "{work}");
                assert_eq!(held_into(&sitting, 15, work), Err(9), "{work}");
            }
            assert_eq!(held_into(&sitting, room, WORK - 1), Err(9), "{room}");
        }
    }
}

/// The bytes behind so many others.
fn behind(first: usize, bytes: &[u8]) -> Vec<u8> {
    [&vec![0x5a; first], bytes].concat()
}

/// Any address will do: each of the plan, the saved work, the answer and the work buffer from 0 to 8 bytes behind another, alone
/// and all together.
#[test]
fn addresses_of_a_sitting() {
    let plan = &Plan::complete(6, S / 2).bytes();
    let mut saved = NOTHING.to_vec();
    for limit in [0, 5, 12, 0, 1_000_000, 3] {
        let outcome = Sitting {
            plan,
            limit,
            saved: &saved,
        }
        .outcome(16, WORK);
        for (first, which) in (0..=8).flat_map(|first| (0..5).map(move |which| (first, which))) {
            let at = [0, 1, 2, 3].map(|i| if which == i || which == 4 { first } else { 0 });
            let (plan, saved) = (behind(at[0], plan), behind(at[1], &saved));
            let sitting = Sitting {
                plan: &plan[at[0]..],
                limit,
                saved: &saved[at[1]..],
            };
            hold_sitting_at(&sitting, [16, WORK], [at[2], at[3]], &outcome);
        }
        saved = outcome.unwrap().work;
    }
}

/// A file or a buffer of no bytes may be at no address at all.
#[test]
fn no_bytes_at_no_address() {
    use outside::desk;
    let plan = &ring(3, 3, S);
    assert_eq!(desk::check_nothing(), 1);
    assert_eq!(desk::figure_into_nothing(plan, 7, 5), 9);
    assert_eq!(desk::figure_into_nothing(plan, 7, 1_000_001), 7);
    let (saved, limit, table) = (&NOTHING, 5, &[0]);
    let sitting = Sitting { plan, limit, saved };
    assert_eq!(desk::sat_with_nothing(&sitting.under(table), 1), 0);
    let numbers = [(0, 1), (2, 10), (3, 9), (4, 9)];
    for (which, number) in numbers {
        assert_eq!(desk::sat_with_nothing(&sitting.under(&[]), which), number);
    }
}

/// Low is the most negative, high the largest.
#[test]
fn the_ends_of_a_difference() {
    let (certain, parted) = (&ring(3, 3, S), &Plan::new(2, &[]).bytes());
    let asked = |a, b| {
        let call = Call::Difference { a, b, limit: 0 };
        let answer = held(&call, 16).unwrap().unwrap();
        (answer.low, answer.high)
    };
    let whole = i64::from(S);
    assert_eq!(asked(certain, parted), (whole, whole));
    assert_eq!(asked(parted, certain), (-whole, -whole));
    let unfinished = &Plan::complete(4, S / 2).bytes();
    assert_eq!(asked(unfinished, unfinished), (-whole, whole));
}
