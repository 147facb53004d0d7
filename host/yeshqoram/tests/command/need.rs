//! A refusal as 22 says how long the answer is: what the library writes where
//! it has the room.

use crate::graphs;
use crate::program::{huge, run, stderr};
use crate::rng::Rng;
use yeshqoram::least_work;

const ROOM: usize = 1 << 22;

/// The length that the library answers with; none if it refuses.
fn length(service: &str, arg: usize, text: &[u8]) -> Option<usize> {
    let mut out = vec![0; ROOM];
    let mut work = vec![0; least_work(text.len())];
    let answer = match service {
        "report" => yeshqoram::report(text, arg, &mut out, &mut work),
        "normalize" => yeshqoram::normalize(text, arg, &mut out, &mut work).answer,
        _ => yeshqoram::spell_path(text, arg, &mut out, &mut work),
    };
    (answer.number == 0).then_some(answer.length)
}

fn args(service: &str, arg: usize, room: usize) -> Vec<String> {
    let arg = match service {
        "report" => format!("--top={arg}"),
        "normalize" => format!("--cap={arg}"),
        _ => arg.to_string(),
    };
    vec![service.to_string(), arg, format!("--room={room}")]
}

/// One byte less than the answer is refused with its length; that is enough.
fn check(service: &str, arg: usize, text: &[u8]) {
    let Some(length) = length(service, arg, text) else {
        return;
    };
    let call = |room| {
        let args = args(service, arg, room);
        let args: Vec<&str> = args.iter().map(String::as_str).collect();
        run(&args, text)
    };
    assert!(call(length).status.success());
    if length > 0 {
        let said = stderr(&call(length - 1));
        let words = format!("it has {length} bytes, and --room allows {}", length - 1);
        assert!(said.contains("refused (22)"), "{said}");
        assert!(said.contains(&words), "{service} {arg}: {said}");
    }
}

#[test]
fn generated_texts() {
    for number in 0..250 {
        let mut rng = Rng::new(22, number);
        let text = graphs::text(&mut rng);
        check("report", [10, 0, 1, usize::MAX][rng.below(4)], &text);
        check(
            "normalize",
            [0, 0, 1, 2, 7, usize::MAX][rng.below(6)],
            &text,
        );
        check("spell", rng.below(2), &text);
    }
}

/// Folded runs of units above, at and below the cap, and of an odd sequence.
#[test]
fn units_and_caps() {
    let text = b"S\ta\tACGT\r\nS\tb\t**\nS\tc\tACG\nS\td\t\nS\te\tA\n\
L\ta\t+\ta\t+\t0M\nL\tb\t+\tb\t+\t0M\nL\tc\t-\tc\t-\t0M\nL\te\t+\te\t+\t0M\n\
P\tp\ta+,a+,b+,b+,b+,c-,c-,d+,e+,e+\nW\ts\t1\tw\t0\t9\t>a>a<a<a>b>b";
    for cap in 0..6 {
        check("normalize", cap, text);
    }
}

#[test]
fn long_names_of_paths() {
    for length in [0, 7, 8, 9, 10, 500] {
        let name = "n".repeat(length);
        let text = format!(
            "L\t1\t+\t1\t+\t*\nL\t2\t+\t2\t+\t*\nL\t3\t+\t3\t+\t*\n\
P\tx\t1+,1+\nP\t{name}\t2+,2+,1+\nW\ts\t1\t{name}\t0\t9\t>3>3\n"
        );
        check("report", 10, text.as_bytes());
    }
}

#[test]
fn an_answer_longer_than_any_room() {
    let text = huge();
    let said = stderr(&run(&["normalize"], &text));
    assert!(said.contains("it has 91176524019 bytes, and --room allows 1073741824"));
    let said = stderr(&run(&["spell", "0"], &text));
    assert!(said.contains("it has 91176000000 bytes"), "{said}");
    // It is longer than the room that is tried first.
    let nodes: String = (0..2_000)
        .map(|id| format!("L\t{id}\t+\t{id}\t+\t*\n"))
        .collect();
    check("report", usize::MAX, nodes.as_bytes());
}
