//! Every row of the table of causes, alone and in pairs, at each of the seven calls, with lengths in the plans and without, and, of
//! those that take a table, under a buyer's and the built-in one: of the independent version, and of the library.

use outside::arithmetic::S;
use outside::calls::{held, Call};
use outside::counting;
use outside::game;
use outside::plans::{Plan, LENGTH};
use outside::sittings::{held_into, sizes, Begun, Sitting, RUNNING};
use outside::tables;

/// Everything that can be wrong with a file: its plan, then its length, then all but its first bytes lost.
#[derive(Clone)]
struct File {
    plan: Plan,
    longer: usize,
    shorter: usize,
    kept: usize,
}

impl File {
    fn bytes(&self) -> Vec<u8> {
        let mut bytes = self.plan.bytes();
        bytes.extend(vec![0; self.longer]);
        bytes.truncate(bytes.len() - self.shorter);
        bytes.truncate(self.kept);
        bytes
    }
}

/// Everything that can be wrong with saved work: what its first bytes say, its open splits, its length.
#[derive(Clone)]
struct Work {
    count: Option<usize>,
    state: u16,
    open: Begun,
    longer: usize,
    kept: usize,
}

impl Work {
    fn bytes(&self) -> Vec<u8> {
        let count = self.count.unwrap_or(self.open.places.len());
        let mut bytes = sizes(count, self.state, self.open.steps);
        bytes.extend(&self.open.bytes()[8..]);
        bytes.extend(vec![0; self.longer]);
        bytes.truncate(self.kept);
        bytes
    }

    fn opened(&mut self, place: u32, pair: [u32; 2]) {
        self.open.places.push(place);
        self.open.pairs.push(pair);
    }
}

/// Everything that can be wrong with a table: its values, then its length.
#[derive(Clone)]
struct Ratings {
    values: Vec<u32>,
    length: Option<usize>,
}

impl Ratings {
    fn bytes(&self) -> Vec<u8> {
        let mut bytes = tables::bytes(&self.values);
        bytes.resize(self.length.unwrap_or(bytes.len()), 0);
        bytes
    }

    /// Makes the value at this place another. A table of no values is made a buyer's first.
    fn changed(&mut self, at: usize, by: impl Fn(&[u32]) -> u32) {
        if self.values.is_empty() {
            self.values = buyers();
        }
        self.values[at] = by(&self.values);
    }
}

/// The values of a right table: some equal, the last of them not 0.
fn buyers() -> Vec<u32> {
    (0..512).map(|k| S - k / 3 * 1_000_001).collect()
}

#[derive(Clone)]
struct Asked {
    limit: u64,
    room: usize,
    place: u64,
    choice: u64,
    a: File,
    b: File,
    work_room: usize,
    saved: Work,
    table: Ratings,
    row: usize,
    game_room: usize,
}

/// Calls of which nothing is wrong: with a length in the plan or none, under no table and under a buyer's.
fn all_accepted() -> Vec<Asked> {
    let mut all = Vec::new();
    for (value, values) in [
        (LENGTH + 511, vec![]),
        (LENGTH + 511, buyers()),
        (S / 2, vec![]),
        (S / 2, buyers()),
    ] {
        let mut one = accepted(value);
        one.table.values = values;
        all.push(one);
    }
    all
}

fn accepted(value: u32) -> Asked {
    let file = File {
        plan: Plan::new(3, &[(0, 1, S), (1, 2, value), (2, 0, 0)]),
        longer: 0,
        shorter: 0,
        kept: usize::MAX,
    };
    Asked {
        limit: 1_000_000,
        room: 16,
        place: 2,
        choice: 7,
        a: file.clone(),
        b: file,
        work_room: 776,
        table: Ratings {
            values: Vec::new(),
            length: None,
        },
        saved: Work {
            count: None,
            state: 0,
            open: Begun::default(),
            longer: 0,
            kept: usize::MAX,
        },
        row: 4,
        game_room: 98,
    }
}

/// The number that a cause is refused with, and one way of bringing the cause about.
type Fault<T> = (u64, Box<dyn Fn(&mut T)>);

fn fault<T>(number: u64, spoils: impl Fn(&mut T) + 'static) -> Fault<T> {
    (number, Box::new(spoils))
}

/// Rows 1 to 6, in the order in which they are tested.
fn of_the_file() -> Vec<Fault<File>> {
    let mut faults = Vec::new();
    for kept in 0..4 {
        faults.push(fault(1, move |f: &mut File| f.kept = kept));
    }
    for nodes in [0, 33, 256, 65_535] {
        faults.push(fault(2, move |f: &mut File| f.plan.nodes = nodes));
    }
    for count in [65, 256, 4_096] {
        faults.push(fault(3, move |f: &mut File| {
            let link = f.plan.links[0];
            f.plan.links.resize(count, link);
        }));
    }
    for extra in [1, 6] {
        faults.push(fault(4, move |f: &mut File| f.longer = extra));
        faults.push(fault(4, move |f: &mut File| f.shorter = extra));
    }
    for i in 0..3 {
        for (which, node) in [(0, 3), (1, 3), (0, 255), (1, 32)] {
            faults.push(fault(5 + 256 * i as u64, move |f: &mut File| {
                f.plan.links[i].ends[which] = node
            }));
        }
        for value in [S + 1, LENGTH - 1, LENGTH + 512, u32::MAX] {
            faults.push(fault(6 + 256 * i as u64, move |f: &mut File| {
                f.plan.links[i].value = value
            }));
        }
    }
    faults
}

fn of_the_limit_and_the_buffer() -> Vec<Fault<Asked>> {
    let mut faults = Vec::new();
    for limit in [1_000_001, 1 << 32, (1 << 32) + 1_000_000, u64::MAX] {
        faults.push(fault(7, move |q: &mut Asked| q.limit = limit));
    }
    for room in [0, 1, 15] {
        faults.push(fault(9, move |q: &mut Asked| q.room = room));
    }
    faults
}

/// Row 12 and then 13.
fn of_the_table() -> Vec<Fault<Asked>> {
    let mut faults = Vec::new();
    for length in [1, 4, 1_024, 2_044, 2_047, 2_049, 2_052, 4_096, 1 << 16] {
        faults.push(fault(12, move |q: &mut Asked| {
            q.table.length = Some(length)
        }));
    }
    for first in [0, S - 1, S + 1, u32::MAX, S.swap_bytes()] {
        faults.push(fault(13, move |q: &mut Asked| {
            q.table.changed(0, |_| first)
        }));
    }
    for at in [1, 2, 255, 256, 510, 511] {
        for more in [1, 1 << 31] {
            faults.push(fault(13, move |q: &mut Asked| {
                q.table.changed(at, |values| values[at - 1] + more)
            }));
        }
    }
    faults
}

/// The faults of one of the files, its numbers raised by `more`.
fn of(file: fn(&mut Asked) -> &mut File, more: u64) -> Vec<Fault<Asked>> {
    let faults = of_the_file().into_iter();
    faults
        .map(|(number, spoils)| fault(number + more, move |q: &mut Asked| spoils(file(q))))
        .collect()
}

fn of_plan_a() -> Vec<Fault<Asked>> {
    of(|q| &mut q.a, 0)
}

fn of_plan_b() -> Vec<Fault<Asked>> {
    of(|q| &mut q.b, 20)
}

fn of_the_place() -> Vec<Fault<Asked>> {
    let places = [3, 64, 1 << 32, (1 << 32) + 2, u64::MAX];
    places
        .map(|place| fault(8, move |q: &mut Asked| q.place = place))
        .into()
}

/// Row 14, of a plan of three nodes.
fn of_the_choice() -> Vec<Fault<Asked>> {
    let choices = [0, 8, 15, 1 << 31, 1 << 32, (1 << 32) + 7, 1 << 63, u64::MAX];
    choices
        .map(|choice| fault(14, move |q: &mut Asked| q.choice = choice))
        .into()
}

fn of_the_work_buffer() -> Vec<Fault<Asked>> {
    let rooms = [0, 16, 24, 388, 775];
    rooms
        .map(|room| fault(9, move |q: &mut Asked| q.work_room = room))
        .into()
}

/// Row 10 and then 11. The plan has no split, so each open split is one that the rule does not come to.
fn of_the_saved_work() -> Vec<Fault<Asked>> {
    let mut faults = Vec::new();
    let mut ten = |spoils: fn(&mut Work)| {
        faults.push(fault(10, move |q: &mut Asked| spoils(&mut q.saved)));
    };
    ten(|work| work.kept = 0);
    ten(|work| work.kept = 7);
    ten(|work| work.longer = 1);
    ten(|work| work.longer = 768);
    ten(|work| work.count = Some(5));
    ten(|work| work.count = Some(65));
    ten(|work| work.count = Some(65_535));
    ten(|work| work.state = 1);
    ten(|work| work.state = 2);
    ten(|work| work.state = 256);
    ten(|work| work.open.steps = 1_000_001);
    ten(|work| work.open.steps = u32::MAX);
    ten(|work| work.opened(0, [2, 1]));
    ten(|work| work.opened(0, [0, S + 1]));
    ten(|work| work.opened(0, [S + 1, S + 1]));
    let mut eleven = |spoils: fn(&mut Work)| {
        faults.push(fault(11, move |q: &mut Asked| spoils(&mut q.saved)));
    };
    eleven(|work| work.opened(0, RUNNING));
    eleven(|work| work.opened(0, [0, S]));
    eleven(|work| work.opened(63, [7, 7]));
    faults
}

/// Row 15 and then 16, of a plan of three links.
fn of_the_links_and_the_row() -> Vec<Fault<Asked>> {
    let mut faults = Vec::new();
    for count in [25, 26, 32, 64] {
        faults.push(fault(15, move |q: &mut Asked| {
            let links = &mut q.a.plan.links;
            let link = links[0];
            links.resize(count.max(links.len()), link);
        }));
    }
    for room in 0..4 {
        faults.push(fault(16, move |q: &mut Asked| q.row = room));
    }
    faults
}

/// Row 9 of the game, whose answer is longer.
fn of_the_game_buffer() -> Vec<Fault<Asked>> {
    let rooms = [0, 1, 16, 66, 97];
    rooms
        .map(|room| fault(9, move |q: &mut Asked| q.game_room = room))
        .into()
}

/// Each fault alone, and each two with different numbers: the one that is tested first decides.
fn alone_and_in_pairs(faults: &[Fault<Asked>], returned: impl Fn(&Asked) -> Result<(), u64>) {
    for accepted in all_accepted() {
        assert_eq!(returned(&accepted), Ok(()));
        hold_faults(&accepted, faults, &returned);
    }
}

fn hold_faults(
    accepted: &Asked,
    faults: &[Fault<Asked>],
    returned: impl Fn(&Asked) -> Result<(), u64>,
) {
    for (i, (number, spoils)) in faults.iter().enumerate() {
        let mut one = accepted.clone();
        spoils(&mut one);
        assert_eq!(returned(&one), Err(*number), "fault {i}");
        for (j, (later, spoils_too)) in faults.iter().enumerate().skip(i + 1) {
            if later != number {
                let mut two = one.clone();
                spoils_too(&mut two);
                assert_eq!(returned(&two), Err(*number), "faults {i} and {j}");
            }
        }
    }
}

/// With the buffer and the table of what is asked.
fn returned(call: Call, q: &Asked) -> Result<(), u64> {
    let table = &q.table.bytes();
    held(call.under(table), q.room).map(|_| ())
}

#[test]
fn of_check() {
    alone_and_in_pairs(&of_plan_a(), |q| {
        let plan = &q.a.bytes();
        returned(Call::Check { plan }, q)
    });
}

#[test]
fn of_figure() {
    let mut faults = of_the_limit_and_the_buffer();
    faults.extend(of_the_table());
    faults.extend(of_plan_a());
    faults.extend(of_the_choice());
    alone_and_in_pairs(&faults, |q| {
        let plan = &q.a.bytes();
        let (choice, limit) = (q.choice, q.limit);
        let call = Call::Figure {
            plan,
            choice,
            limit,
        };
        returned(call, q)
    });
}

#[test]
fn of_importance() {
    let mut faults = of_the_limit_and_the_buffer();
    faults.extend(of_the_table());
    faults.extend(of_plan_a());
    faults.extend(of_the_place());
    alone_and_in_pairs(&faults, |q| {
        let plan = &q.a.bytes();
        let (place, limit) = (q.place, q.limit);
        returned(Call::Importance { plan, place, limit }, q)
    });
}

#[test]
fn of_difference() {
    let mut faults = of_the_limit_and_the_buffer();
    faults.extend(of_the_table());
    faults.extend(of_plan_a());
    faults.extend(of_plan_b());
    alone_and_in_pairs(&faults, |q| {
        let (a, b) = (&q.a.bytes(), &q.b.bytes());
        let limit = q.limit;
        returned(Call::Difference { a, b, limit }, q)
    });
}

#[test]
fn of_sitting() {
    let mut faults = of_the_limit_and_the_buffer();
    faults.extend(of_the_work_buffer());
    faults.extend(of_the_table());
    faults.extend(of_plan_a());
    faults.extend(of_the_saved_work());
    alone_and_in_pairs(&faults, |q| {
        let (plan, saved) = (&q.a.bytes(), &q.saved.bytes());
        let limit = q.limit;
        let (sitting, table) = (Sitting { plan, limit, saved }, &q.table.bytes());
        held_into(sitting.under(table), q.room, q.work_room).map(|_| ())
    });
}

#[test]
fn of_counts() {
    let mut faults = of_plan_a();
    faults.extend(of_the_links_and_the_row());
    alone_and_in_pairs(&faults, |q| {
        let plan = &q.a.bytes();
        counting::held(plan, q.row).map(|_| ())
    });
}

#[test]
fn of_game() {
    let mut faults = of_the_game_buffer();
    faults.extend(of_plan_a());
    alone_and_in_pairs(&faults, |q| {
        let plan = &q.a.bytes();
        game::held(plan, q.game_room).map(|_| ())
    });
}

/// Plans that the other calls refuse by rows 7, 8 and 9 are accepted by a check.
#[test]
fn check_has_rows_1_to_6_alone() {
    let returned = |call: Call, room| held(&call, room).map(|_| ());
    let plan = accepted(LENGTH + 511).a.plan;
    for plan in [plan, Plan::new(1, &[]), Plan::new(32, &[])] {
        let place = plan.links.len() as u64;
        let plan = &plan.bytes();
        let limit = 1_000_001;
        assert_eq!(returned(Call::figure(plan, limit), 16), Err(7));
        let limit = 1_000_000;
        assert_eq!(returned(Call::figure(plan, limit), 15), Err(9));
        let at = Call::Importance { plan, place, limit };
        assert_eq!(returned(at, 16), Err(8));
        assert_eq!(returned(Call::Check { plan }, 16), Ok(()));
    }
}
