//! In how many pieces the links of a plan leave its nodes.

use crate::plans::Plan;

/// Each node is a group of its own at first, and a link between two groups makes them one. Its value plays no part; a loop has
/// both ends in one group.
pub fn pieces(plan: &Plan) -> usize {
    let mut groups: Vec<Vec<u16>> = (0..plan.nodes).map(|v| vec![v]).collect();
    for link in &plan.links {
        let group = |v: u8| groups.iter().position(|g| g.contains(&v.into()));
        let [x, y] = link.ends.map(|v| group(v).unwrap());
        if x != y {
            let joined = groups.remove(x.max(y));
            groups[x.min(y)].extend(joined);
        }
    }
    groups.len()
}
