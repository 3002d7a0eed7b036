//! Three nodes, each two joined by a link of one half, worked by the rule's steps with the proved arithmetic:
//! node 0 has two links (series), the link that takes their place runs beside the third (parallel), and the last link is
//! an end whose figure is multiplied by the factor of the series.

use outside::arithmetic::{Side, S, SIDES};
use outside::library::{factor, parallel, product, series};

fn main() {
    let half = S / 2;
    for side in SIDES {
        let joined = series(side, half, half);
        let rest = parallel(side, joined, half);
        let times = factor(side, half, half);
        let figure = product(side, times, rest);
        let name = match side {
            Side::Low => "low ",
            Side::High => "high",
        };
        println!("{name} series {joined} parallel {rest} factor {times} figure {figure}");
    }
}
