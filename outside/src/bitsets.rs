//! The rule in C with bit sets: `c/rule.c`, and with chosen nodes `c/chosen.c`, which the build compiles.

use crate::calls::read;
use crate::chosen::is_choice;
use crate::plans::Plan;
use crate::rule::{Choice, Figure};

mod c {
    use crate::rule::Figure;

    pub type Rule = unsafe extern "C" fn(u32, u32, *const u8, *const [u32; 2], u64) -> Figure;

    extern "C" {
        pub fn rule_figure(
            n: u32,
            m: u32,
            ends: *const u8,
            values: *const [u32; 2],
            limit: u64,
        ) -> Figure;
        pub fn rule_figure_first_link(
            n: u32,
            m: u32,
            ends: *const u8,
            values: *const [u32; 2],
            limit: u64,
        ) -> Figure;
        pub fn chosen_figure(
            n: u32,
            m: u32,
            ends: *const u8,
            values: *const [u32; 2],
            choice: u32,
            limit: u64,
        ) -> Figure;
    }
}

/// An accepted plan as these functions take it: n, m, the ends and the values.
fn taken(plan: &Plan) -> (u32, u32, Vec<u8>, Vec<[u32; 2]>) {
    assert!(read(&plan.bytes()).is_ok_and(|read| read.under(&plan.table) == *plan));
    let ends = plan.links.iter().flat_map(|link| link.ends);
    let values = plan.links.iter().map(|link| plan.table.values(link));
    let (n, m) = (plan.nodes.into(), plan.links.len() as u32);
    (n, m, ends.collect(), values.collect())
}

/// The figure of a plan that is accepted.
pub fn figure(plan: &Plan, limit: u64) -> Figure {
    figure_by(Choice::LargestSum, plan, limit)
}

/// The figure by the rule with this choice.
pub fn figure_by(choice: Choice, plan: &Plan, limit: u64) -> Figure {
    let rule: c::Rule = match choice {
        Choice::FirstLink => c::rule_figure_first_link,
        Choice::LargestSum => c::rule_figure,
    };
    let (n, m, ends, values) = taken(plan);
    // SAFETY: the plan is accepted, and there are 2 * m ends and m pairs of values.
    unsafe { rule(n, m, ends.as_ptr(), values.as_ptr(), limit) }
}

/// The figure of a plan with these nodes chosen.
pub fn figure_of(plan: &Plan, choice: u64, limit: u64) -> Figure {
    assert!(is_choice(choice, plan.nodes));
    let (n, m, ends, values) = taken(plan);
    // SAFETY: as above, and the choice names some of the nodes and no others.
    unsafe { c::chosen_figure(n, m, ends.as_ptr(), values.as_ptr(), choice as u32, limit) }
}
