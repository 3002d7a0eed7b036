//! The listing of a plan, made of its number of pieces and of what the calls answer, and the program that writes it.

use crate::calls::{read, Call, Outcome};
use crate::pieces::pieces;
use crate::repository::path;
use crate::rule::Answer;
use std::io::{ErrorKind, Write};
use std::process::{Command, Stdio};
use std::thread::sleep;
use std::time::Duration;

/// The limit of the plan's figure.
const FIGURE_LIMIT: u64 = 100_000;

/// The limit of each of the two evaluations behind an importance.
const IMPORTANCE_LIMIT: u64 = 20_000;

/// The text for a plan file, each call answered by `asked`.
pub fn text(plan: &[u8], asked: impl Fn(&Call) -> Outcome) -> String {
    let limit = FIGURE_LIMIT;
    let figure = match asked(&Call::figure(plan, limit)) {
        Err(number) => return format!("refused {} at {}\n", number % 256, number / 256),
        Ok(answer) => answer.unwrap(),
    };
    let data = read(plan).unwrap();
    let (nodes, links, pieces) = (data.nodes, data.links.len(), pieces(&data));
    let mut text = format!("nodes {nodes} links {links} pieces {pieces}\n{figure}\n");
    for (i, link) in data.links.iter().enumerate() {
        let (place, limit) = (i as u64, IMPORTANCE_LIMIT);
        let importance = asked(&Call::Importance { plan, place, limit });
        let Answer { low, high, .. } = importance.unwrap().unwrap();
        let ([a, b], [units, _]) = (link.ends, data.table.values(link));
        text.push_str(&format!("link {i} {a} {b} {units} {low} {high}\n"));
    }
    text.push_str(&format!("limits {FIGURE_LIMIT} {IMPORTANCE_LIMIT}\n"));
    text
}

/// The text by the rule.
pub fn by_the_rule(plan: &[u8]) -> String {
    text(plan, |call| call.outcome(crate::calls::ANSWER))
}

/// The text from the answers of the library's calls.
pub fn by_the_calls(plan: &[u8]) -> String {
    text(plan, crate::desk::answered)
}

/// What `planlist` writes when the parts come in through its standard input, one after the other. It may have stopped
/// reading before the last.
pub fn written(parts: &[&[u8]]) -> String {
    let program = path("target/bin/planlist");
    let missing = "target/bin/planlist is missing: ./build planlist writes it";
    assert!(program.exists(), "{missing}");
    let mut command = Command::new(program);
    command.stdin(Stdio::piped()).stdout(Stdio::piped());
    let mut run = command.stderr(Stdio::piped()).spawn().unwrap();
    let mut input = run.stdin.take().unwrap();
    for (i, part) in parts.iter().enumerate() {
        if i > 0 {
            sleep(Duration::from_millis(20));
        }
        match input.write_all(part).and_then(|()| input.flush()) {
            Err(error) if error.kind() != ErrorKind::BrokenPipe => panic!("{error}"),
            _ => (),
        }
    }
    drop(input);
    let output = run.wait_with_output().unwrap();
    assert!(output.status.success(), "{:?}", output.status);
    assert_eq!(output.stderr, b"");
    String::from_utf8(output.stdout).unwrap()
}
