//! The example that plays cutter and keeper: what it shows of a plan, games against it through its standard input, by chance and by
//! every order of the links, wrong lines between the moves, and what it says where it cannot play.

use outside::arithmetic::S;
use outside::game::{check_answer, winners, GAME, LINKS, NODES};
use outside::pieces::pieces;
use outside::plans::{Link, Plan};
use outside::programs::{compiled, run};
use outside::random::Random;
use outside::repository::{path, plan, plans_with};
use std::fs;
use std::path::{Path, PathBuf};

/// A file of this run.
fn written(name: &str) -> PathBuf {
    Path::new(env!("CARGO_TARGET_TMPDIR")).join(name)
}

fn game(name: &str) -> PathBuf {
    compiled("examples/game.c", &written(name)).to_owned()
}

/// A plan in a file of this name.
fn filed(name: &str, plan: &Plan) -> String {
    let file = written(name);
    fs::write(&file, plan.bytes()).unwrap();
    file.to_str().unwrap().into()
}

const SIDES: [&str; 2] = ["cutter", "keeper"];

/// The bytes of the answer that the first lines show, and the other lines.
fn shown<'a>(plan: &Plan, text: &'a str) -> (Vec<u8>, Vec<&'a str>) {
    let mut answer = vec![0; GAME];
    let mut lines: Vec<&str> = text.lines().collect();
    for (opener, line) in SIDES.iter().zip(lines.drain(..2).collect::<Vec<_>>()) {
        let wins = |side: &&str| line == format!("{opener} opens: {side} wins");
        let place = usize::from(*opener == "keeper");
        answer[place] = SIDES.iter().position(wins).unwrap() as u8;
    }
    let marked = |line: &str| line.starts_with("tree ") || line.starts_with("group ");
    let count = lines.iter().take_while(|line| marked(line)).count();
    for line in lines.drain(..count) {
        let (mark, places) = line.split_once(": ").unwrap();
        let (what, number) = mark.split_once(' ').unwrap();
        let (of, first) = match what {
            "tree" => ("links", LINKS),
            _ => ("cabinets", NODES),
        };
        let places = places.strip_prefix(of).unwrap().split_whitespace();
        for place in places {
            answer[first + place.parse::<usize>().unwrap()] += number.parse::<u8>().unwrap();
        }
    }
    if answer[0] == 0 {
        assert_eq!(lines.remove(0), between(plan, &answer[NODES..]), "{plan:?}");
    }
    (answer, lines)
}

/// The line that counts the links between groups.
fn between(plan: &Plan, groups: &[u8]) -> String {
    let group = |v: u8| groups[usize::from(v)];
    let leads = plan.links.iter().map(|link| link.ends.map(group));
    let links = leads.filter(|[a, b]| a != b).count();
    let count = 1 + groups.iter().max().unwrap();
    let most = 2 * (count - 1);
    format!("links between the {count} groups: {links}, fewer than 2 * ({count} - 1) = {most}")
}

/// Asserts that the first lines show who wins and why, and returns the others.
fn hold_shown<'a>(plan: &Plan, text: &'a str) -> Vec<&'a str> {
    let (answer, others) = shown(plan, text);
    let right = check_answer(plan, winners(plan), &answer);
    assert_eq!(right, Ok(()), "{plan:?} {text}");
    others
}

/// Each sample plan, one node, nodes apart, and any plans.
#[test]
fn who_wins_and_why() {
    let program = game("game-shown");
    let mut random = Random::new(231);
    let mut plans = vec![Plan::new(1, &[]), Plan::new(2, &[]), Plan::complete(5, S)];
    for name in plans_with("plan") {
        plans.push(outside::calls::read(&plan(&name)).unwrap());
    }
    for i in 0..60 {
        plans.push(Plan::random_of(&mut random, 1 + i % 32, 2 * usize::from(i)));
        plans.push(Plan::meshed(&mut random, 3 + i % 30, usize::from(i) + 5));
    }
    for plan in plans.iter().filter(|plan| plan.links.len() <= 64) {
        let file = filed("shown.plan", plan);
        let (status, text, said) = run(&program, &[&file], "");
        assert_eq!((status, &said[..]), (0, ""));
        assert!(hold_shown(plan, &text).is_empty(), "{text}");
    }
}

/// A move as the line says it: whether it is the person's, and the link.
fn moved(plan: &Plan, line: &str, keepers: bool) -> (bool, usize) {
    let (who, rest) = line.split_once(": link ").unwrap();
    let (link, rest) = rest.split_once(", ").unwrap();
    let place: usize = link.parse().unwrap();
    let [a, b] = plan.links[place].ends;
    let done = if keepers { "safe" } else { "cut" };
    assert_eq!(rest, format!("{a} to {b}, is {done}"), "{line}");
    assert!(["you", "program"].contains(&who), "{line}");
    (who == "you", place)
}

/// Who plays what: the person's side, and whether the keeper opens.
#[derive(Clone, Copy, Debug)]
struct Roles {
    keeps: bool,
    keeper_opens: bool,
}

const ROLES: [Roles; 4] = {
    const fn roles(keeps: bool, keeper_opens: bool) -> Roles {
        Roles {
            keeps,
            keeper_opens,
        }
    }
    [
        roles(false, false),
        roles(false, true),
        roles(true, false),
        roles(true, true),
    ]
};

impl Roles {
    fn words(&self) -> [&'static str; 2] {
        let first = self.keeps == self.keeper_opens;
        let side = SIDES[usize::from(self.keeps)];
        [side, if first { "first" } else { "second" }]
    }
}

/// Whether the keeper wins with this side to move, where these links are safe and those open.
fn keeper_wins(nodes: u16, [safe, open]: [&[Link]; 2], keeper_moves: bool) -> bool {
    let mut rest = Plan::new(nodes, &[]);
    rest.links = [safe, open].concat();
    for _ in safe {
        let [a, b] = rest.links[0].ends;
        if a == b {
            rest.links.remove(0);
        } else {
            rest = rest.contracted(0);
        }
    }
    winners(&rest)[usize::from(keeper_moves)]
}

/// Whether the keeper has won by these lines: a question before each move of the person, and each line as it should be. The person
/// takes the first of these links that is not used. Once its side can force the win from where it moves, the program has to win.
fn judged(plan: &Plan, roles: Roles, order: &[usize], lines: &[&str]) -> bool {
    let mut lines = lines.iter();
    let mut used = vec![false; plan.links.len()];
    let mut kept = plan.clone();
    kept.links.clear();
    let (mut keepers, mut must_win) = (roles.keeper_opens, false);
    for _ in 0..plan.links.len() {
        let yours = keepers == roles.keeps;
        let mut line = *lines.next().unwrap();
        if yours {
            let what = if keepers { "make safe" } else { "cut" };
            let question = format!("Which link do you {what}?");
            assert_eq!(line, question);
            while !line.starts_with("you: ") {
                line = lines.next().unwrap();
            }
        }
        let unused = plan.links.iter().zip(&used).filter(|(_, used)| !**used);
        let unused: Vec<Link> = unused.map(|(link, _)| *link).collect();
        let wins = keeper_wins(plan.nodes, [&kept.links, &unused], keepers);
        must_win |= !yours && wins == keepers;
        let (you, place) = moved(plan, line, keepers);
        let open = || order.iter().find(|place| !used[**place]);
        assert!(you == yours && !used[place], "{line}");
        assert!(!you || open() == Some(&place), "{line}");
        used[place] = true;
        if keepers {
            kept.links.push(plan.links[place]);
        }
        keepers = !keepers;
    }
    let keeper = pieces(&kept) == 1;
    let connect = if keeper { "connect" } else { "do not connect" };
    let side = SIDES[usize::from(keeper)];
    let who = ["the program has", "you have"][usize::from(keeper == roles.keeps)];
    let last = format!("The safe links {connect} all cabinets: {who} won, the {side}.");
    assert_eq!(lines.collect::<Vec<_>>(), [&last]);
    assert!(!must_win || keeper != roles.keeps, "{plan:?} {roles:?}");
    keeper
}

/// Plays the game with the links in this order, and asserts that the program wins where its side can. Returns whether it has won.
fn hold_game(program: &Path, plan: &Plan, roles: Roles, order: &[usize]) -> bool {
    let name = program.file_name().unwrap().to_str().unwrap();
    let file = filed(&format!("{name}.plan"), plan);
    let input: String = order.iter().map(|place| format!("{place}\n")).collect();
    let [side, turn] = roles.words();
    let (status, text, said) = run(program, &[&file, side, turn], &input);
    assert_eq!((status, &said[..]), (0, ""), "{plan:?} {roles:?} {input}");
    let lines = hold_shown(plan, &text);
    let keeper = judged(plan, roles, order, &lines);
    let can = winners(plan)[usize::from(roles.keeper_opens)];
    let lost = keeper == roles.keeps;
    assert!(!lost || can == roles.keeps, "{plan:?} {roles:?} {text}");
    !lost
}

/// The person's moves by chance, on plans of each outcome: the program wins wherever it can, both sides and both openings.
#[test]
fn games_by_chance() {
    let program = game("game-by-chance");
    let mut random = Random::new(232);
    let (mut won, mut could) = ([0; 4], [0; 4]);
    for i in 0..150 {
        let nodes = 2 + random.below(12) as u8;
        let count = (2 * usize::from(nodes) + random.below(5)).saturating_sub(4);
        let plan = match i % 3 {
            0 => Plan::random_of(&mut random, nodes, count),
            _ => Plan::meshed(&mut random, nodes.max(3), count),
        };
        for (place, roles) in ROLES.into_iter().enumerate() {
            let mut order: Vec<usize> = (0..plan.links.len()).collect();
            random.shuffle(&mut order);
            won[place] += usize::from(hold_game(&program, &plan, roles, &order));
            let keeper = winners(&plan)[usize::from(roles.keeper_opens)];
            could[place] += usize::from(keeper != roles.keeps);
        }
    }
    assert!(could.iter().all(|count| *count > 25), "{could:?} {won:?}");
}

/// All orders of so many places.
fn orders(count: usize) -> Vec<Vec<usize>> {
    let mut all = vec![vec![]];
    for place in 0..count {
        let put = |order: &Vec<usize>| -> Vec<Vec<usize>> {
            let with = |at: usize| [&order[..at], &[place], &order[at..]].concat();
            (0..=order.len()).map(with).collect()
        };
        all = all.iter().flat_map(put).collect();
    }
    all
}

/// Every order of the person's links, on plans in which the keeper wins, who opens, and the cutter.
#[test]
fn games_in_every_order() {
    let program = game("game-in-every-order");
    let mut five = Plan::complete(4, S);
    five.links.pop();
    let ring = Plan::alike(4, S, &[[0, 1], [1, 2], [2, 3], [3, 0], [1, 1]]);
    let twice = Plan::alike(3, S, &[[0, 1], [1, 0], [1, 2], [2, 1], [2, 2]]);
    let known = [[false, true], [true, true], [false, false]];
    for (plan, known) in [five, twice, ring].into_iter().zip(known) {
        assert_eq!(winners(&plan), known);
        for roles in ROLES {
            for order in orders(plan.links.len()) {
                hold_game(&program, &plan, roles, &order);
            }
        }
    }
}

/// The mesh, whose 64 links are 32 moves of each side, and the valley.
#[test]
fn games_on_sample_plans() {
    let program = game("game-on-samples");
    let mut random = Random::new(233);
    for name in ["mesh", "two-crossings", "four-cabinets", "example"] {
        let plan = outside::calls::read(&plan(name)).unwrap();
        for roles in ROLES.into_iter().cycle().take(12) {
            let mut order: Vec<usize> = (0..plan.links.len()).collect();
            random.shuffle(&mut order);
            hold_game(&program, &plan, roles, &order);
        }
    }
}

/// Lines that are no open link, and what is said of each, in a game on the four cabinets; the game goes on.
#[test]
fn wrong_lines() {
    let program = game("game-wrong-lines");
    let file = path("plans/four-cabinets.plan");
    let words = [file.to_str().unwrap(), "keeper", "first"];
    let long = "7".repeat(300);
    let cut = format!("there is no link {}, they are 0 to 5", &long[..79]);
    let wrong = [
        ("", "'' is not a number"),
        ("x", "'x' is not a number"),
        ("-1", "'-1' is not a number"),
        ("1 ", "'1 ' is not a number"),
        ("0x1", "'0x1' is not a number"),
        ("1\0", "'1?' is not a number"),
        ("1\0\0", "'1??' is not a number"),
        ("\0", "'?' is not a number"),
        ("1\r\r", "'1\r' is not a number"),
        ("63\r", "there is no link 63, they are 0 to 5"),
        ("6", "there is no link 6, they are 0 to 5"),
        ("64", "there is no link 64, they are 0 to 5"),
        ("255", "there is no link 255, they are 0 to 5"),
        ("4294967296", "there is no link 4294967296, they are 0 to 5"),
        (&long, &cut),
        ("2", "link 2 is safe already"),
    ];
    let moves = ["0", "1\r", "2", "3\r", "4", "5"].join("\n");
    let lines: Vec<&str> = wrong.iter().map(|(line, _)| *line).collect();
    let input = format!("2\n{}\n{moves}", lines.join("\n"));
    let (status, text, said) = run(&program, &words, &input);
    assert_eq!((status, &said[..]), (0, ""), "{text}");
    for (_, answer) in wrong {
        let asked = format!("\nWhich link do you make safe?\n{answer}\nWhich link");
        assert!(text.contains(&asked), "{answer}\n{text}");
    }
    assert!(text.contains(" is cut already\n"), "{text}");
    assert_eq!(text.matches("\nyou: link").count(), 3);
}

/// Where the input ends too early nothing is won.
#[test]
fn input_that_ends() {
    let program = game("game-that-ends");
    let file = path("plans/four-cabinets.plan");
    for input in ["", "0", "0\n", "0\nx\n", "0\n0\n0\n0"] {
        for words in [["cutter", "first"], ["keeper", "second"]] {
            let words = [file.to_str().unwrap(), words[0], words[1]];
            let (status, text, said) = run(&program, &words, input);
            assert_eq!(status, 2, "{input}");
            assert_eq!(
                said,
                "game: standard input: ended before all links were used\n"
            );
            assert!(!text.contains(" won"), "{text}");
        }
    }
}

/// No link at all is a game of no moves.
#[test]
fn games_of_no_moves() {
    let program = game("game-of-no-moves");
    for roles in ROLES {
        for nodes in [1, 2, 32] {
            let plan = Plan::new(nodes, &[]);
            assert_eq!(
                hold_game(&program, &plan, roles, &[]),
                (nodes == 1) != roles.keeps
            );
        }
    }
}

#[test]
fn refused_plans() {
    let program = game("game-refusals");
    let good = Plan::alike(3, S, &[[0, 1], [1, 2], [0, 2]]);
    let mut end = good.clone();
    end.links[1].ends[0] = 3;
    let mut value = good.clone();
    value.links[2].value = S + 1;
    let mut many = good.bytes();
    many[1] = 1;
    let long = [&good.bytes()[..], &[0; 400]].concat();
    let files = [
        (end.bytes(), "5 at link 1"),
        (value.bytes(), "6 at link 2"),
        (many, "2"),
        (long, "4"),
        (good.bytes()[..9].to_vec(), "4"),
        (vec![], "1"),
    ];
    let name = written("game-refused.plan");
    for (file, number) in files {
        fs::write(&name, file).unwrap();
        for words in [&[][..], &["cutter"], &["keeper", "second"]] {
            let words = [&[name.to_str().unwrap()], words].concat();
            let expected = (1, format!("game: refused {number}\n"), String::new());
            assert_eq!(run(&program, &words, "0\n"), expected);
        }
    }
}

#[test]
fn wrong_words() {
    let program = game("game-words");
    let plan = path("plans/example.plan");
    let [plan, missing, folder] = [plan, written("no-such-plan"), path("plans")];
    let [plan, missing, folder] = [&plan, &missing, &folder].map(|file| file.to_str().unwrap());
    let wrong: [&[&str]; 8] = [
        &[],
        &[missing],
        &[folder],
        &[plan, "cut"],
        &[plan, ""],
        &[plan, "first"],
        &[plan, "keeper", "third"],
        &[plan, "keeper", "first", "first"],
    ];
    for words in wrong {
        let (status, text, said) = run(&program, words, "");
        assert_eq!((status, &text[..]), (2, ""), "{words:?}");
        assert_eq!(said.lines().count(), 1, "{words:?}");
    }
}
