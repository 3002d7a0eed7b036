//! A run that is set aside and carried on, one split after the other: those that are open lie on a stack, the outermost lowest.
//! What a sitting should answer and write. An open split stays at its link, whichever choice took it.

use crate::arithmetic::S;
use crate::calls::{answer_bytes, asked, number, read, ANSWER, MOST_STEPS};
use crate::plans::Plan;
use crate::rule::{figure, needed, Choice, Figure, Link, Network, Step, CHOICES};
use crate::tables::Under;

/// The bytes that a buffer for saved work has to have.
pub const WORK: usize = 776;

/// The most open splits that saved work may have.
pub const MOST_OPEN: usize = 64;

/// What a first sitting is handed.
pub const NOTHING: [u8; 8] = [0; 8];

/// The pair of an open split while its sound branch runs.
pub const RUNNING: [u32; 2] = [1, 0];

/// The call.
#[derive(Clone, Copy, Debug)]
pub struct Sitting<'a> {
    pub plan: &'a [u8],
    pub limit: u64,
    pub saved: &'a [u8],
}

/// What a sitting writes: the answer, and the saved work.
#[derive(Clone, Debug, PartialEq, Eq)]
pub struct Sat {
    pub answer: Vec<u8>,
    pub work: Vec<u8>,
}

/// Saved work that is begun, by its fields: the open splits' places and pairs, and the steps so far.
#[derive(Clone, Debug, Default, PartialEq, Eq)]
pub struct Begun {
    pub places: Vec<u32>,
    pub pairs: Vec<[u32; 2]>,
    pub steps: u32,
}

/// The first eight bytes.
pub fn sizes(count: usize, state: u16, steps: u32) -> Vec<u8> {
    let count = u16::try_from(count).expect("c is 16 bits");
    let halves = [count, state].map(u16::to_le_bytes).concat();
    [halves, steps.to_le_bytes().into()].concat()
}

impl Begun {
    pub fn bytes(&self) -> Vec<u8> {
        let pairs = self.pairs.iter().flatten();
        let words = self.places.iter().chain(pairs);
        let sizes = sizes(self.places.len(), 0, self.steps);
        let words = words.flat_map(|word| word.to_le_bytes());
        sizes.into_iter().chain(words).collect()
    }

    /// The fields of bytes of the right length.
    pub fn of(bytes: &[u8]) -> Begun {
        let words: Vec<u32> = bytes[4..].chunks(4).map(number).collect();
        let (places, pairs) = words[1..].split_at(number(&bytes[..2]) as usize);
        Begun {
            places: places.into(),
            pairs: pairs.chunks(2).map(|pair| [pair[0], pair[1]]).collect(),
            steps: words[0],
        }
    }

    /// The outermost open splits alone, so many of them.
    pub fn first(&self, count: usize) -> Begun {
        Begun {
            places: self.places[..count].into(),
            pairs: self.pairs[..count].into(),
            steps: self.steps,
        }
    }

    fn wrong(&self) -> bool {
        let wrong = |pair: &[u32; 2]| {
            let [low, high] = *pair;
            *pair != RUNNING && (low > S || high > S || low > high)
        };
        self.pairs.iter().any(wrong)
    }
}

/// Saved work as it is accepted.
enum Saved {
    Begun(Begun),
    Complete,
}

/// Row 10.
fn accepted(bytes: &[u8]) -> Result<Saved, u64> {
    if bytes.len() < NOTHING.len() {
        return Err(10);
    }
    let [count, state] = [0, 2].map(|at| number(&bytes[at..at + 2]) as usize);
    let length = match state {
        0 if count <= MOST_OPEN => 8 + 12 * count,
        1 if count == 0 => 8 + ANSWER,
        _ => return Err(10),
    };
    if bytes.len() != length || u64::from(number(&bytes[4..8])) > MOST_STEPS {
        return Err(10);
    }
    if state == 1 {
        return Ok(Saved::Complete);
    }
    let begun = Begun::of(bytes);
    if begun.wrong() {
        return Err(10);
    }
    Ok(Saved::Begun(begun))
}

/// What an open split waits for: its sound branch, with the broken one still to work, or its broken branch.
enum Waits {
    ForSound { broken: Network },
    ForBroken { sound: Figure },
}

struct Open {
    factors: Vec<[u32; 2]>,
    place: u32,
    link: Link,
    waits: Waits,
}

/// A network with steps 1 to 6 taken as often as they fit: the factors that they leave, and what is known then or the network to
/// split.
struct Reduced {
    factors: Vec<[u32; 2]>,
    end: Result<u32, Network>,
}

fn reduced(mut network: Network) -> Reduced {
    let mut factors = Vec::new();
    loop {
        let end = match network.step() {
            Step::Known(value) => Ok(value),
            Step::Split(left) => Err(left),
            Step::Rest(rest, factor) => {
                factors.push(factor);
                network = rest;
                continue;
            }
        };
        return Reduced { factors, end };
    }
}

fn multiplied(figure: Figure, factors: &[[u32; 2]]) -> Figure {
    let inner_first = factors.iter().rev();
    inner_first.fold(figure, |figure, factor| figure.times(*factor))
}

/// A figure known by its pair.
fn settled([low, high]: [u32; 2]) -> Figure {
    Figure {
        low,
        high,
        steps: 0,
        finished: true,
    }
}

impl Open {
    /// The figure of the split and of the steps before it.
    fn closed(&self, sound: Figure, broken: Figure) -> Figure {
        multiplied(self.link.mixed(sound, broken), &self.factors)
    }

    fn pair(&self) -> [u32; 2] {
        match &self.waits {
            Waits::ForSound { .. } => RUNNING,
            Waits::ForBroken { sound } => [sound.low, sound.high],
        }
    }
}

/// A run between two of its steps.
struct Run {
    open: Vec<Open>,
    taken: u64,
}

impl Run {
    /// With the open splits of saved work, each where the rule comes to it, and the network that is worked next; or row 11.
    fn resumed(plan: Network, begun: &Begun) -> Result<(Run, Network), u64> {
        let mut open = Vec::new();
        let mut next = plan;
        for (place, pair) in begun.places.iter().zip(&begun.pairs) {
            let Reduced { factors, end } = reduced(next);
            let left = end.err().ok_or(11u64)?;
            let chosen = CHOICES.map(|choice| left.chosen(choice));
            let place = usize::try_from(*place).unwrap();
            if !chosen.contains(&place) {
                return Err(11);
            }
            let split = left.split(place);
            let waits;
            (waits, next) = if *pair == RUNNING {
                let broken = split.broken;
                (Waits::ForSound { broken }, split.sound)
            } else {
                let sound = settled(*pair);
                (Waits::ForBroken { sound }, split.broken)
            };
            open.push(Open {
                factors,
                place: split.place,
                link: split.link,
                waits,
            });
        }
        let taken = begun.steps.into();
        Ok((Run { open, taken }, next))
    }

    /// A figure is known: it is that of the branch that the innermost open split waits for. The whole figure, or the broken
    /// branch that is worked next.
    fn branch_known(&mut self, mut figure: Figure) -> Result<Figure, Network> {
        while let Some(mut open) = self.open.pop() {
            match open.waits {
                Waits::ForSound { broken } => {
                    open.waits = Waits::ForBroken { sound: figure };
                    self.open.push(open);
                    return Err(broken);
                }
                Waits::ForBroken { sound } => figure = open.closed(sound, figure),
            }
        }
        Ok(figure)
    }

    /// The figure at a split for which no step is left, so for none of the broken branches behind.
    fn set_aside(&self, figure_here: Figure) -> Figure {
        let mut whole = figure_here;
        for open in self.open.iter().rev() {
            whole = match &open.waits {
                Waits::ForSound { broken } => open.closed(whole, figure(broken.clone(), 0)),
                Waits::ForBroken { sound } => open.closed(*sound, whole),
            };
        }
        whole
    }

    /// How many splits are still to take, the network being worked next.
    fn still(&self, next: Network) -> u64 {
        let behind = self.open.iter().map(|open| match &open.waits {
            Waits::ForSound { broken } => needed(broken.clone()),
            Waits::ForBroken { .. } => 0,
        });
        needed(next) + behind.sum::<u64>()
    }

    /// Works the network and what is open, with so many steps more at most, each a split by this choice. `at_split` is told how
    /// many splits are open at each that the run comes to.
    fn carry_on(
        &mut self,
        mut next: Network,
        choice: Choice,
        limit: u64,
        mut at_split: impl FnMut(usize),
    ) -> Figure {
        let most = self.taken + limit;
        loop {
            let Reduced { factors, end } = reduced(next);
            let left = match end {
                Ok(value) => match self.branch_known(multiplied(Figure::known(value), &factors)) {
                    Ok(whole) => return whole,
                    Err(broken) => {
                        next = broken;
                        continue;
                    }
                },
                Err(left) => left,
            };
            at_split(self.open.len());
            if self.taken == most {
                return self.set_aside(multiplied(Figure::unknown(), &factors));
            }
            self.taken += 1;
            let place = left.chosen(choice);
            let split = left.split(place);
            next = split.sound;
            self.open.push(Open {
                factors,
                place: split.place,
                link: split.link,
                waits: Waits::ForSound {
                    broken: split.broken,
                },
            });
        }
    }

    /// The answer of the run so far, and its saved work.
    fn sat(&self, figure: Figure) -> Sat {
        let steps = self.taken;
        let answer = answer_bytes(&Figure { steps, ..figure }.into());
        let work = if figure.finished {
            [sizes(0, 1, steps as u32), answer.clone()].concat()
        } else {
            let begun = Begun {
                places: self.open.iter().map(|open| open.place).collect(),
                pairs: self.open.iter().map(Open::pair).collect(),
                steps: steps as u32,
            };
            begun.bytes()
        };
        Sat { answer, work }
    }
}

impl<'a> Sitting<'a> {
    /// The sitting with this table.
    pub fn under(self, table: &'a [u8]) -> Under<'a, Sitting<'a>> {
        Under { asked: self, table }
    }

    /// What the sitting should write, with a table of no bytes, to buffers of these sizes, or the number that it is refused with.
    pub fn outcome(&self, answer_room: usize, work_room: usize) -> Result<Sat, u64> {
        self.under(&[]).outcome(answer_room, work_room)
    }

    /// The same where every split that it takes is by this choice.
    pub fn outcome_by(
        &self,
        choice: Choice,
        answer_room: usize,
        work_room: usize,
    ) -> Result<Sat, u64> {
        let under = self.under(&[]);
        under.outcome_by(choice, answer_room, work_room)
    }
}

impl<'a> From<&Sitting<'a>> for Under<'a, Sitting<'a>> {
    fn from(sitting: &Sitting<'a>) -> Under<'a, Sitting<'a>> {
        sitting.under(&[])
    }
}

impl Under<'_, Sitting<'_>> {
    /// What the sitting should write to buffers of these sizes, or the number that it is refused with.
    pub fn outcome(&self, answer_room: usize, work_room: usize) -> Result<Sat, u64> {
        self.outcome_by(Choice::LargestSum, answer_room, work_room)
    }

    /// The same where every split that it takes is by this choice.
    pub fn outcome_by(
        &self,
        choice: Choice,
        answer_room: usize,
        work_room: usize,
    ) -> Result<Sat, u64> {
        let Sitting { plan, limit, saved } = self.asked;
        let room = if work_room < WORK { 0 } else { answer_room };
        let table = asked(limit, room, self.table)?;
        let plan = Network::from(&read(plan)?.under(&table));
        match accepted(saved)? {
            Saved::Complete => Ok(Sat {
                answer: saved[8..].into(),
                work: saved.into(),
            }),
            Saved::Begun(begun) => {
                let (mut run, next) = Run::resumed(plan, &begun)?;
                let limit = limit.min(MOST_STEPS - run.taken);
                let figure = run.carry_on(next, choice, limit, |_| ());
                Ok(run.sat(figure))
            }
        }
    }
}

/// The number that a sitting returns with that outcome, and what it leaves of the buffers.
pub fn left(outcome: &Result<Sat, u64>, answer: &[u8], work: &[u8]) -> (u64, Vec<u8>, Vec<u8>) {
    match outcome {
        Err(refusal) => (*refusal, answer.to_vec(), work.to_vec()),
        Ok(sat) => {
            let over = |new: &[u8], old: &[u8]| [new, &old[new.len()..]].concat();
            (0, over(&sat.answer, answer), over(&sat.work, work))
        }
    }
}

/// The outcome of a sitting into buffers of just the bytes that it needs, to which the library is held.
pub fn held<'a>(sitting: impl Into<Under<'a, Sitting<'a>>>) -> Result<Sat, u64> {
    held_into(sitting, ANSWER, WORK)
}

/// The same into buffers of these sizes.
pub fn held_into<'a>(
    sitting: impl Into<Under<'a, Sitting<'a>>>,
    answer: usize,
    work: usize,
) -> Result<Sat, u64> {
    let sitting = sitting.into();
    let outcome = sitting.outcome(answer, work);
    crate::desk::hold_sitting(sitting, [answer, work], &outcome);
    outcome
}

/// How many splits saved work that is begun and accepted has still to take.
pub fn still_to_take(plan: &[u8], begun: &Begun) -> u64 {
    let plan = Network::from(&read(plan).expect("the plan is accepted"));
    let (run, next) = Run::resumed(plan, begun).expect("the open splits are accepted");
    run.still(next)
}

/// The network that is split behind accepted open splits; none where a figure is known there.
fn split_behind(plan: &[u8], begun: &Begun) -> Option<Network> {
    let plan = Network::from(&read(plan).expect("the plan is accepted"));
    let (_, next) = Run::resumed(plan, begun).expect("the open splits are accepted");
    reduced(next).end.err()
}

/// The places that the choices take there, first link and largest sum.
pub fn next_chosen(plan: &[u8], begun: &Begun) -> Option<[u32; 2]> {
    let left = split_behind(plan, begun)?;
    Some(CHOICES.map(|choice| left.chosen(choice) as u32))
}

/// The same at each open split of accepted work.
pub fn places_chosen(plan: &[u8], begun: &Begun) -> Vec<[u32; 2]> {
    let at = |i: usize| next_chosen(plan, &begun.first(i)).unwrap();
    (0..begun.places.len()).map(at).collect()
}

/// The ends of the links left at each open split of accepted work.
pub fn ends_left(plan: &[u8], begun: &Begun) -> Vec<Vec<[u8; 2]>> {
    let at = |i: usize| split_behind(plan, &begun.first(i)).unwrap().ends();
    (0..begun.places.len()).map(at).collect()
}

/// The most splits that are ever open when the plan is worked within so many steps, and after how many steps they are first.
pub fn most_open(plan: &[u8], limit: u64) -> (usize, u64) {
    most_open_by(Choice::LargestSum, plan, limit)
}

/// The same by the rule with this choice.
pub fn most_open_by(choice: Choice, plan: &[u8], limit: u64) -> (usize, u64) {
    let plan = Network::from(&read(plan).expect("the plan is accepted"));
    let mut run = Run {
        open: Vec::new(),
        taken: 0,
    };
    let (mut most, mut steps) = ((0, 0), 0);
    run.carry_on(plan, choice, limit, |open| {
        if open > most.0 {
            most = (open, steps);
        }
        steps += 1;
    });
    most
}

/// Twelve nodes and 64 links, of which the last 18 leave three at each node: by the first link's rule the first 46 may all be open,
/// with nine more behind.
pub fn most_splits() -> (Plan, Begun) {
    let round = (0..12).map(|v| [v, (v + 1) % 12]);
    let across = (0..6).map(|v| [v, v + 6]);
    let last: Vec<[u8; 2]> = round.chain(across).collect();
    let pairs = (0..12).flat_map(|b| (0..b).map(move |a| [a, b]));
    let others = pairs.filter(|[a, b]| !last.contains(&[*a, *b]) && !last.contains(&[*b, *a]));
    let ends: Vec<[u8; 2]> = others.skip(2).chain(last.clone()).collect();
    let known = [S / 3, S / 2];
    let inner = "rrrrkrrrk"
        .chars()
        .map(|c| if c == 'r' { RUNNING } else { known });
    let pairs: Vec<[u32; 2]> = [known; 46].into_iter().chain(inner).collect();
    let work = Begun {
        places: vec![0; pairs.len()],
        pairs,
        steps: 600_000,
    };
    (Plan::alike(12, S / 10 * 9, &ends), work)
}
