//! Damaged plan files at each of the calls but the sitting: every outcome is the one that the rule gives.

use outside::calls::{held, read, Call, MOST_STEPS};
use outside::counting;
use outside::game;
use outside::plans::{damaged, Plan};
use outside::random::Random;
use outside::states::{Exact, MOST};

/// Both plans where they are accepted, with few enough links to sum over their states.
fn small(files: [&[u8]; 2]) -> Option<[Plan; 2]> {
    let [a, b] = files.map(read);
    let plans = [a.ok()?, b.ok()?];
    let few = plans.iter().all(|p| p.links.len() <= MOST);
    few.then_some(plans)
}

/// Makes the calls on a file, the game one time in four, and says whether it was accepted.
fn tried(file: &[u8], good: &[u8], place: u64, limit: u64) -> bool {
    let accepted = held(&Call::Check { plan: file }, 0).is_ok();
    let plan = file;
    let choice = 1 | 1 << (place % 64);
    let some = Call::Figure {
        plan,
        choice,
        limit,
    };
    let _ = held(&some, 24);
    let _ = counting::held(file, 11);
    if place % 4 == 0 {
        let _ = game::held(file, 101);
    }
    let answers = [
        Call::figure(plan, limit),
        Call::Importance { plan, place, limit },
        Call::Difference {
            a: file,
            b: good,
            limit,
        },
        Call::Difference {
            a: good,
            b: file,
            limit,
        },
    ]
    .map(|call| held(&call, 24).ok().flatten());
    if let Some([plan, good]) = small([file, good]) {
        let exact = [
            Some(Exact::figure(&plan)),
            answers[1].map(|_| Exact::importance(&plan, place as usize)),
            Some(Exact::difference(&plan, &good)),
            Some(Exact::difference(&good, &plan)),
        ];
        for (exact, answer) in exact.into_iter().zip(answers) {
            if let Some(exact) = exact {
                assert!(
                    exact.is_enclosed_by(&answer.unwrap()),
                    "{plan:?} {answer:?}"
                );
            }
        }
    }
    accepted
}

/// Damages `count` plans of at most so many nodes and links, with limits up to `most`.
fn try_plans(seed: u64, count: usize, nodes: u8, links: usize, most: u64) {
    let mut random = Random::new(seed);
    let (mut accepted, mut refused) = (0, 0);
    let good = Plan::random_of(&mut random, 4, 7).bytes();
    for _ in 0..count {
        let file = Plan::random(&mut random, nodes, links).bytes();
        assert!(tried(&file, &good, 0, most));
        for file in damaged(&mut random, &file) {
            let place = random.up_to(links as u64);
            let limit = random.of_any_size(most);
            if tried(&file, &good, place, limit) {
                accepted += 1;
            } else {
                refused += 1;
            }
        }
    }
    assert!(
        accepted > 500 && refused > 500,
        "{accepted} accepted, {refused} refused"
    );
}

#[test]
fn of_small_plans() {
    try_plans(21, 100, 8, 9, MOST_STEPS);
}

#[test]
fn of_large_plans() {
    try_plans(22, 12, 32, 64, 40);
}
