//! Nanoseconds a split on three fixed plans: the library, through its figure call, beside the rule in C with bit sets,
//! `outside/c/rule.c`, and the straightforward version, `outside/src/rule.rs`, taking turns in one run; and the same with two nodes
//! chosen, where those are `outside/c/chosen.c` and `outside/src/chosen.rs`. Of these plans and the sample
//! plans the splits and the time of a whole figure by either choice of the link that is split on, and where it takes too many splits
//! the figures under some limits; the same of random plans, in the mean. The time that the counts of plans take the library, beside
//! going through all their sets of links, in turns, and the time that the game takes it, beside the pebbles of `outside/src/game.rs`,
//! which decide it and show nothing. Then the time of a whole listing by the program.
//! As a test, without `--bench` among its words, it does everything once on a small scale and judges no time.

use outside::arithmetic::S;
use outside::bitsets::figure_by;
use outside::calls::{answer_of, read, ANSWER, MOST_STEPS};
use outside::counting::{by_sets, MOST_COUNTED};
use outside::desk::{counted, played};
use outside::game::{self, GAME};
use outside::listing::{by_the_calls, written};
use outside::plans::{Link, Plan};
use outside::random::Random;
use outside::repository::{plan, plans_with};
use outside::rule::{Choice, Figure, CHOICES};
use outside::versions::{
    in_c, in_c_of, library, library_of, straightforward, straightforward_of, Version, VersionOf,
};
use std::cmp::Ordering;
use std::hint::black_box;
use std::time::Instant;

/// How much is measured.
struct Scale {
    runs: usize,
    limit: u64,
    /// The most splits of a whole figure.
    most: u64,
    listings: usize,
    listed: &'static str,
    /// The most links of a plan whose sets are gone through.
    sets_of: usize,
}

const WHOLE: Scale = Scale {
    runs: 7,
    limit: 200_000,
    most: 40_000_000,
    listings: 5,
    listed: "mesh",
    sets_of: MOST_COUNTED,
};

const SMALL: Scale = Scale {
    runs: 1,
    limit: 50,
    most: 1_000,
    listings: 1,
    listed: "example",
    sets_of: 12,
};

/// Four rows and six columns, each closed to a ring.
fn torus() -> Plan {
    let node = |row: u8, column: u8| row % 4 * 6 + column % 6;
    let links = |v: u8| {
        let (row, column) = (v / 6, v % 6);
        let here = node(row, column);
        [[here, node(row, column + 1)], [here, node(row + 1, column)]]
    };
    let ends: Vec<[u8; 2]> = (0..24).flat_map(links).collect();
    Plan::alike(24, S / 10 * 9, &ends)
}

/// Each two of nine nodes joined, and 28 of the links twice.
fn complete() -> Plan {
    let mut plan = Plan::complete(9, S / 10 * 9);
    let again: Vec<Link> = plan.links[..28].to_vec();
    plan.links.extend(again);
    plan
}

/// In the order of their columns.
const VERSIONS: [Version; 3] = [library, in_c, straightforward];

/// The same with chosen nodes.
const VERSIONS_OF: [VersionOf; 3] = [library_of, in_c_of, straightforward_of];

/// The bytes of one plan's figure under a limit.
type Worked<'a> = Box<dyn Fn(u64) -> [u8; ANSWER] + 'a>;

fn of_all(plan: &Plan) -> [Worked<'_>; 3] {
    VERSIONS.map(|version| -> Worked { Box::new(move |limit| version(black_box(plan), limit)) })
}

fn of_chosen(plan: &Plan, choice: u64) -> [Worked<'_>; 3] {
    VERSIONS_OF
        .map(|version| -> Worked { Box::new(move |limit| version(black_box(plan), choice, limit)) })
}

/// The times of some runs, in ascending order.
struct Times(Vec<f64>);

impl Times {
    fn new(mut times: Vec<f64>) -> Times {
        times.sort_by(f64::total_cmp);
        Times(times)
    }

    fn median(&self) -> f64 {
        self.0[self.0.len() / 2]
    }

    fn least(&self) -> f64 {
        self.0[0]
    }

    fn most(&self) -> f64 {
        self.0[self.0.len() - 1]
    }

    fn shown(&self) -> String {
        let (median, least, most) = (self.median(), self.least(), self.most());
        format!("{median:.0} ({least:.0} to {most:.0})")
    }

    /// By how much the slowest run took longer than the fastest, in hundredths.
    fn noise(&self) -> f64 {
        (self.most() / self.least() - 1.0) * 100.0
    }
}

/// The nanoseconds a split of each version, in turns, and the splits of the plan. Each run works a plan of few splits as
/// often as it takes to fill the limit. All answers have to agree.
fn measured(versions: &[Worked; 3], scale: &Scale) -> ([Times; 3], u64) {
    let limit = scale.limit;
    let expected = versions[2](limit);
    let splits = answer_of(&expected).steps;
    let rounds = limit / splits;
    let run = |version: &Worked| {
        let started = Instant::now();
        for _ in 0..rounds {
            let answer = black_box(version(limit));
            assert_eq!(answer, expected, "the versions differ");
        }
        started.elapsed().as_nanos() as f64 / (rounds * splits) as f64
    };
    let mut taken = [const { Vec::new() }; 3];
    for _ in 0..scale.runs {
        for (version, taken) in versions.iter().zip(&mut taken) {
            taken.push(run(version));
        }
    }
    (taken.map(Times::new), splits)
}

fn row(cells: [&str; 7]) {
    let [plan, splits, library, in_c, ratio, straightforward, faster] = cells;
    println!("| {plan:27} | {splits:>6} | {library:>19} | {in_c:>17} | {ratio:>11} | {straightforward:>22} | {faster:>13} |");
}

/// Prints the row of a plan, and returns the noise.
fn measured_row(name: &str, versions: &[Worked; 3], scale: &Scale) -> f64 {
    let (times, splits) = measured(versions, scale);
    let [library, in_c, straightforward] = times.each_ref().map(Times::median);
    let ratio = format!("{:.2}", library / in_c);
    let faster = format!("{:.1}", straightforward / library);
    let [library, in_c, straightforward] = &times.each_ref().map(Times::shown);
    let splits = &splits.to_string();
    row([
        name,
        splits,
        library,
        in_c,
        &ratio,
        straightforward,
        &faster,
    ]);
    times.iter().map(Times::noise).fold(0.0, f64::max)
}

/// Prints the table, and returns the largest noise.
fn figures(scale: &Scale) -> f64 {
    println!(
        "Nanoseconds a split, the median of {} runs (least to most):\n",
        scale.runs
    );
    row([
        "plan",
        "splits",
        "library",
        "C with bit sets",
        "library / C",
        "straightforward",
        "times as fast",
    ]);
    row(["---", "--:", "--:", "--:", "--:", "--:", "--:"]);
    let all = measured_plans().map(|(name, plan)| {
        let name = format!("{name}: {} nodes, {} links", plan.nodes, plan.links.len());
        measured_row(&name, &of_all(&plan), scale)
    });
    let some = chosen_nodes().map(|(name, plan, [a, b])| {
        let name = format!("{name}, nodes {a} and {b}");
        let choice = 1 << a | 1 << b;
        measured_row(&name, &of_chosen(&plan, choice), scale)
    });
    all.into_iter().chain(some).fold(0.0, f64::max)
}

/// Two nodes of each of the plans.
fn chosen_nodes() -> [(&'static str, Plan, [u8; 2]); 3] {
    let nodes = [[0, 15], [0, 16], [0, 8]];
    let mut nodes = nodes.into_iter();
    measured_plans().map(|(name, plan)| (name, plan, nodes.next().unwrap()))
}

fn measured_plans() -> [(&'static str, Plan); 3] {
    [
        ("torus", torus()),
        ("mesh", sample("mesh")),
        ("complete", complete()),
    ]
}

fn sample(name: &str) -> Plan {
    read(&plan(name)).unwrap()
}

/// The time of one figure in nanoseconds, the median of some runs, each of as many figures as it takes to fill the limit; of a
/// figure of very many splits one run.
fn figure_time(splits: u64, scale: &Scale, figure: impl Fn()) -> f64 {
    let rounds = (scale.limit / (splits + 1)).max(1);
    let runs = if splits > MOST_STEPS { 1 } else { scale.runs };
    let run = |_| {
        let started = Instant::now();
        (0..rounds).for_each(|_| figure());
        started.elapsed().as_nanos() as f64 / rounds as f64
    };
    Times::new((0..runs).map(run).collect()).median()
}

fn shown_time(nanoseconds: f64) -> String {
    let units = [(1e9, "s"), (1e6, "ms"), (1e3, "µs"), (1.0, "ns")];
    let fits = |unit: &&(f64, &str)| nanoseconds >= unit.0;
    let (one, unit) = units.iter().find(fits).unwrap_or(&units[3]);
    format!("{:.1} {unit}", nanoseconds / one)
}

/// The splits and the time of a whole figure in C by a choice, unless it takes too many.
fn whole_in_c(choice: Choice, plan: &Plan, scale: &Scale) -> [String; 2] {
    let whole = figure_by(choice, plan, scale.most);
    if !whole.finished {
        return [format!("over {}", scale.most), "-".into()];
    }
    let figure = || {
        black_box(figure_by(choice, black_box(plan), scale.most));
    };
    let time = figure_time(whole.steps, scale, figure);
    [whole.steps.to_string(), shown_time(time)]
}

/// The time of a whole figure by the library, unless it takes more splits than it may.
fn whole_by_the_library(plan: &Plan, scale: &Scale) -> String {
    let answer = answer_of(&library(plan, scale.most.min(MOST_STEPS)));
    if !answer.finished {
        return "-".into();
    }
    let figure = || {
        black_box(library(black_box(plan), MOST_STEPS));
    };
    shown_time(figure_time(answer.steps, scale, figure))
}

fn whole_row(cells: [&str; 6]) {
    let [plan, first, largest, c_first, c_largest, library] = cells;
    println!("| {plan:19} | {first:>13} | {largest:>13} | {c_first:>13} | {c_largest:>14} | {library:>20} |");
}

/// Prints the table of whole figures by either choice.
fn whole_figures(scale: &Scale) {
    println!("\nSplits and time of a whole figure by the first link and by the largest sum:\n");
    whole_row([
        "plan",
        "first link",
        "largest sum",
        "C, first link",
        "C, largest sum",
        "library, largest sum",
    ]);
    whole_row(["---", "--:", "--:", "--:", "--:", "--:"]);
    let names = plans_with("plan").into_iter();
    let samples = names.filter(|name| name != "mesh").map(|name| {
        let plan = sample(&name);
        (name, plan)
    });
    let others = measured_plans().map(|(name, plan)| (name.to_owned(), plan));
    for (name, plan) in samples.chain(others) {
        let in_c = CHOICES.map(|choice| whole_in_c(choice, &plan, scale));
        let [[first, c_first], [largest, c_largest]] = &in_c;
        let library = &whole_by_the_library(&plan, scale);
        whole_row([&name, first, largest, c_first, c_largest, library]);
    }
}

fn unfinished_row(cells: [&str; 4]) {
    let [plan, steps, first, largest] = cells;
    println!("| {plan:5} | {steps:>7} | {first:>22} | {largest:>22} |");
}

/// Prints the figures under limits that are too small, by either choice.
fn unfinished_figures(scale: &Scale) {
    println!("\nLow and high under a limit, by the first link and by the largest sum:\n");
    unfinished_row(["plan", "limit", "first link", "largest sum"]);
    unfinished_row(["---", "--:", "--:", "--:"]);
    let limits = [1_000, 20_000, 100_000, MOST_STEPS];
    for (name, plan) in &measured_plans()[..2] {
        for limit in limits.into_iter().filter(|limit| *limit <= scale.most) {
            let figures = CHOICES.map(|choice| figure_by(choice, plan, limit));
            let [first, largest] = figures.map(|f| format!("{} to {}", f.low, f.high));
            unfinished_row([name, &limit.to_string(), &first, &largest]);
        }
    }
}

/// Of numbers by either choice how many are less by the largest sum, equal and greater, and the mean ratio.
fn compared(numbers: &[[u64; 2]]) -> [String; 4] {
    let count = |order| {
        let fits = |numbers: &&[u64; 2]| numbers[1].cmp(&numbers[0]) == order;
        numbers.iter().filter(fits).count().to_string()
    };
    let ratio = |[first, largest]: &[u64; 2]| (*largest as f64 / *first as f64).ln();
    let mean = numbers.iter().map(ratio).sum::<f64>() / numbers.len() as f64;
    let [less, equal, greater] = [Ordering::Less, Ordering::Equal, Ordering::Greater].map(count);
    [less, equal, greater, format!("{:.2}", mean.exp())]
}

fn random_row(cells: [&str; 5]) {
    let [what, less, equal, greater, ratio] = cells;
    println!("| {what:62} | {less:>4} | {equal:>5} | {greater:>7} | {ratio:>10} |");
}

/// Prints the row of random meshed plans whose links have one chance, each worked within the limit and seen as a number.
fn random_plans(what: &str, sizes: (u8, usize), chance: u32, limit: u64, seen: fn(&Figure) -> u64) {
    let mut random = Random::new(1);
    let mut numbers = Vec::new();
    while numbers.len() < 100 {
        let mut plan = Plan::meshed(&mut random, sizes.0, sizes.1);
        plan.links.iter_mut().for_each(|link| link.value = chance);
        let figures = CHOICES.map(|choice| figure_by(choice, &plan, limit));
        let numbers_here = figures.map(|figure| seen(&figure));
        numbers.extend((!numbers_here.contains(&0)).then_some(numbers_here));
    }
    let [less, equal, greater, ratio] = &compared(&numbers);
    let what = format!("{what}, {} nodes, {} links", sizes.0, sizes.1);
    random_row([&what, less, equal, greater, ratio]);
}

/// Prints the table of random plans by either choice.
fn random_figures(scale: &Scale) {
    println!("\nOf 100 random plans each, a ring with random links across: the largest sum beside the first link.\n");
    random_row(["", "less", "equal", "greater", "mean ratio"]);
    random_row(["---", "--:", "--:", "--:", "--:"]);
    for sizes in [(8, 16), (12, 24), (12, 30), (16, 32)] {
        let limit = scale.most;
        random_plans("splits of a whole figure", sizes, S / 2, limit, |f| f.steps);
    }
    for (sizes, percent) in [
        ((16, 40), 90),
        ((32, 64), 99),
        ((32, 64), 90),
        ((32, 64), 50),
    ] {
        let (chance, limit) = (S / 100 * percent, scale.limit / 10);
        let what = format!("high - low at {limit} steps, chances of 0.{percent}");
        let width = |f: &Figure| u64::from(f.high - f.low);
        random_plans(&what, sizes, chance, limit, width);
    }
}

/// Plans of at most 24 links: the slowest that a search has found, and others.
fn counted_plans() -> [(&'static str, Plan); 5] {
    let ring: Vec<[u8; 2]> = (0..24).map(|v| [v, (v + 1) % 24]).collect();
    let mut seven = Plan::complete(7, S / 2);
    let again: Vec<Link> = seven.links[..3].to_vec();
    seven.links.extend(again);
    [
        ("slowest found", Plan::slowest_counted()),
        ("complete, three twice", seven),
        ("ring", Plan::alike(24, S / 2, &ring)),
        ("two-crossings", sample("two-crossings")),
        ("four-cabinets", sample("four-cabinets")),
    ]
}

fn counts_by_the_library(file: &[u8], count: usize) -> Vec<u64> {
    let mut row = vec![0; count + 1];
    assert_eq!(counted(file, &mut row), 0);
    row
}

/// The time of a piece of work in nanoseconds, of rounds that take a millisecond together.
fn time_of(work: impl Fn()) -> f64 {
    let mut rounds = 0;
    let started = Instant::now();
    while rounds == 0 || started.elapsed().as_micros() < 1_000 {
        work();
        rounds += 1;
    }
    started.elapsed().as_nanos() as f64 / f64::from(rounds)
}

/// The times of the counts by the library and by all sets, in turns. Both have to agree.
fn counts_times(plan: &Plan, scale: &Scale) -> [Times; 2] {
    let (file, count) = (&plan.bytes(), plan.links.len());
    assert_eq!(by_sets(plan), counts_by_the_library(file, count));
    let mut taken = [const { Vec::new() }; 2];
    for _ in 0..scale.runs {
        taken[0].push(time_of(|| {
            black_box(counts_by_the_library(black_box(file), count));
        }));
        taken[1].push(time_of(|| {
            black_box(by_sets(black_box(plan)));
        }));
    }
    taken.map(Times::new)
}

/// Plans of each outcome of the game: two trees, an opening, and a path of two links for which every opening is tried.
fn played_plans() -> Vec<(&'static str, Plan)> {
    let mut random = Random::new(9);
    let hanging = Plan::hanging_path(&mut random);
    vec![
        ("mesh", sample("mesh")),
        ("two too few", Plan::meshed(&mut random, 32, 60)),
        ("one too few", Plan::meshed(&mut random, 32, 61)),
        ("no opening", hanging),
        ("two-crossings", sample("two-crossings")),
        ("four-cabinets", sample("four-cabinets")),
    ]
}

/// The times of the game by the library and by pebbles, in turns. Both have to agree.
fn game_times(plan: &Plan, scale: &Scale) -> [Times; 2] {
    let file = &plan.bytes();
    let by_the_library = |file: &[u8]| {
        let mut answer = [0; GAME];
        assert_eq!(played(file, &mut answer), 0);
        [answer[0] == 1, answer[1] == 1]
    };
    assert_eq!(by_the_library(file), game::winners(plan));
    let mut taken = [const { Vec::new() }; 2];
    for _ in 0..scale.runs {
        taken[0].push(time_of(|| {
            black_box(by_the_library(black_box(file)));
        }));
        taken[1].push(time_of(|| {
            black_box(game::winners(black_box(plan)));
        }));
    }
    taken.map(Times::new)
}

fn timed_row(cells: [&str; 5]) {
    let [plan, library, range, other, faster] = cells;
    println!("| {plan:42} | {library:>8} | {range:>20} | {other:>8} | {faster:>13} |");
}

/// Prints a table of the library's times beside those of another way, and returns the largest noise.
fn timed(other: &str, plans: &[(&'static str, Plan)], times: impl Fn(&Plan) -> [Times; 2]) -> f64 {
    timed_row(["plan", "library", "least to most", other, "times as fast"]);
    timed_row(["---", "--:", "--:", "--:", "--:"]);
    let mut noise: f64 = 0.0;
    for (name, plan) in plans {
        let [library, other] = times(plan);
        let (nodes, links) = (plan.nodes, plan.links.len());
        let name = format!("{name}: {nodes} nodes, {links} links");
        let [median, least, most] = [library.median(), library.least(), library.most()];
        let [median, least, most, by_other] = [median, least, most, other.median()].map(shown_time);
        let faster = other.median() / library.median();
        let faster = format!("{faster:.*}", if faster < 1.0 { 2 } else { 1 });
        let range = format!("{least} to {most}");
        timed_row([&name, &median, &range, &by_other, &faster]);
        noise = noise.max(library.noise()).max(other.noise());
    }
    noise
}

/// Prints the table of the counts and that of the game, and returns the largest noise.
fn counts_and_games(scale: &Scale) -> f64 {
    let runs = scale.runs;
    println!("\nThe counts of connecting sets, the median of {runs} runs:\n");
    let mut counted = counted_plans();
    for (_, plan) in &mut counted {
        plan.links.truncate(scale.sets_of);
    }
    let noise = timed("all sets", &counted, |plan| counts_times(plan, scale));
    println!("\nThe game, the median of {runs} runs:\n");
    noise.max(timed("pebbles", &played_plans(), |plan| {
        game_times(plan, scale)
    }))
}

/// Prints the time of a whole listing, and returns the noise.
fn listings(scale: &Scale) -> f64 {
    let name = scale.listed;
    let file = plan(name);
    let expected = by_the_calls(&file);
    let seconds = |_| {
        let started = Instant::now();
        let text = written(&[&file]);
        let taken = started.elapsed().as_secs_f64();
        assert_eq!(text, expected, "the listing differs from the calls");
        taken
    };
    let times = Times::new((0..scale.listings).map(seconds).collect());
    let (median, least, most) = (times.median(), times.least(), times.most());
    println!("\nThe whole listing of plans/{name}.plan by planlist: {median:.2} s ({least:.2} to {most:.2}), the median of {} runs.", scale.listings);
    times.noise()
}

fn main() {
    let whole = std::env::args().any(|word| word == "--bench");
    let scale = if whole { WHOLE } else { SMALL };
    let noise = figures(&scale);
    whole_figures(&scale);
    unfinished_figures(&scale);
    random_figures(&scale);
    let noise = noise.max(counts_and_games(&scale));
    let noise = noise.max(listings(&scale));
    println!("\nNoise: of the same work, the slowest run took up to {noise:.0} % longer than the fastest.");
}
