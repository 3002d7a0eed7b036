//! Large plans under large limits, finished and not: the library against the independent version of the rule.

use outside::arithmetic::S;
use outside::calls::{held, read, Call, MOST_STEPS};
use outside::desk::hold;
use outside::plans::Plan;
use outside::random::Random;
use outside::repository::plan;
use outside::rule::{figure, minus, Answer, Figure, Network};

/// Bytes of a buffer, more than an answer has.
const ROOM: usize = 24;

/// The answer of an accepted call.
fn answer(call: Call) -> Answer {
    held(&call, ROOM).unwrap().unwrap()
}

/// Four nodes by six, each joined to the next in both directions, and round the ends.
fn torus(random: &mut Random) -> Plan {
    let next = |v: u8| [v / 6 * 6 + (v + 1) % 6, (v + 6) % 24];
    let ends: Vec<[u8; 2]> = (0..24)
        .flat_map(|v| next(v).map(|other| [v, other]))
        .collect();
    with_values(random, Plan::alike(24, 0, &ends))
}

/// With chances between a half and one.
fn with_values(random: &mut Random, mut plan: Plan) -> Plan {
    for link in &mut plan.links {
        link.value = S - random.below(S as usize / 2) as u32;
    }
    plan
}

/// The mesh and the torus, and plans of 64 links with loops and parallels among them: all need more splits than 200,000.
fn unending() -> Vec<Plan> {
    let mut random = Random::new(61);
    let mut plans = vec![read(&plan("mesh")).unwrap(), torus(&mut random)];
    for nodes in [17, 19, 22, 24] {
        let mut plan = Plan::random_of(&mut random, nodes, 64);
        for (i, link) in plan.links.iter_mut().enumerate() {
            match i as u8 {
                i if i < nodes => link.ends = [i, (i + 1) % nodes],
                i if i < 2 * nodes => link.ends = [i % nodes, (i + 5) % nodes],
                _ => (),
            }
        }
        random.shuffle(&mut plan.links);
        plans.push(plan);
    }
    let loops = plans.iter().flat_map(|plan| &plan.links);
    let loops = loops.filter(|link| link.ends[0] == link.ends[1]).count();
    assert!(loops > 5, "too few loops: {loops}");
    plans
}

/// Figures of the plans and differences of each with the next, none of them finished, and importances at some places.
fn hold_unending(plans: &[Plan], limit: u64, places: impl Fn(usize) -> Vec<u64>) {
    let files: Vec<Vec<u8>> = plans.iter().map(Plan::bytes).collect();
    let worked = |plan: &Plan| figure(Network::from(plan), limit);
    let figures: Vec<Figure> = plans.iter().map(worked).collect();
    for (i, file) in files.iter().enumerate() {
        assert!(!figures[i].finished && figures[i].steps == limit);
        let call = Call::figure(file, limit);
        hold(&call, ROOM, &Ok(Some(figures[i].into())));
        let j = (i + 1) % files.len();
        let (a, b) = (file, &files[j]);
        let both = minus(figures[i], figures[j]);
        hold(&Call::Difference { a, b, limit }, ROOM, &Ok(Some(both)));
        for place in places(plans[i].links.len()) {
            let plan = file;
            answer(Call::Importance { plan, place, limit });
        }
    }
}

#[test]
fn unfinished_at_1000() {
    hold_unending(&unending(), 1_000, |count| (0..count as u64).collect());
}

#[test]
fn unfinished_at_20000() {
    let places = |count| vec![0, 21, count as u64 - 1];
    hold_unending(&unending(), 20_000, places);
}

#[test]
fn unfinished_at_200000() {
    hold_unending(&unending()[..3], 200_000, |_| vec![7]);
}

#[test]
fn unfinished_at_the_most_steps() {
    hold_unending(&unending()[..2], MOST_STEPS, |_| vec![]);
    let (plan, place, limit) = (&plan("mesh"), 40, MOST_STEPS);
    let answer = answer(Call::Importance { plan, place, limit });
    assert_eq!((answer.steps, answer.finished), (2 * MOST_STEPS, false));
}

/// Figures, importances and differences of complete graphs at the splits that they need, and at one less.
fn hold_complete(nodes: u8, needed: u64) {
    let mut random = Random::new(nodes.into());
    let mut plan = || with_values(&mut random, Plan::complete(nodes, 0)).bytes();
    let (a, b) = (&plan(), &plan());
    for limit in [needed - 1, needed] {
        let whole = answer(Call::figure(a, limit));
        assert_eq!((whole.steps, whole.finished), (limit, limit == needed));
        let both = answer(Call::Difference { a, b, limit });
        assert_eq!(both.steps, 2 * limit);
        let place = random.below(nodes.into()) as u64;
        let plan = a;
        let branches = answer(Call::Importance { plan, place, limit });
        assert!(branches.finished);
    }
}

/// A complete graph needs as many splits as the one of a node less and the graph without a link together, and one more: limits at
/// which one of two evaluations comes to its end and the other lacks a step.
fn hold_one_ended(nodes: u8, needed: u64, needed_of_less: u64) {
    let mut random = Random::new(nodes.into());
    let mut plan = |nodes| with_values(&mut random, Plan::complete(nodes, 0)).bytes();
    let (larger, smaller) = (&plan(nodes), &plan(nodes - 1));
    let limit = needed - 1;
    for (a, b) in [(larger, smaller), (smaller, larger)] {
        let both = answer(Call::Difference { a, b, limit });
        assert_eq!((both.steps, both.finished), (limit + needed_of_less, false));
    }
    let (plan, place, limit) = (larger, 0, needed - needed_of_less - 2);
    let branches = answer(Call::Importance { plan, place, limit });
    let steps = limit + needed_of_less;
    assert_eq!((branches.steps, branches.finished), (steps, false));
}

#[test]
fn one_of_two_evaluations_ends() {
    for (nodes, needed, less) in [(8, 722, 119), (9, 5_054, 722), (10, 40_528, 5_054)] {
        hold_one_ended(nodes, needed, less);
    }
}

#[test]
fn complete_graphs_of_few_splits() {
    for (nodes, needed) in [(7, 119), (8, 722), (9, 5_054), (10, 40_528)] {
        hold_complete(nodes, needed);
    }
}

#[test]
fn complete_graph_of_many_splits() {
    hold_complete(11, 364_346);
}
