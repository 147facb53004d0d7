//! Document 01's listing and its "Graphs to try", asked of the Rust.

use crate::{normalize, report, spell, tied_by_chance, Answer, LONGEST_TEXT};

const ROOM: usize = 1 << 21;

/// A text with blanks for tabs.
fn gfa(text: &str) -> Vec<u8> {
    text.replace(' ', "\t").into_bytes()
}

fn words(text: &[u8]) -> usize {
    4 * text.len() + 64
}

fn reported(text: &str) -> String {
    let text = gfa(text);
    let answer = report(&text, 10, ROOM, words(&text));
    assert_eq!(answer.number, 0);
    String::from_utf8(answer.output).unwrap()
}

fn normal(text: &str, cap: usize) -> Answer {
    let text = gfa(text);
    normalize(&text, cap, ROOM, words(&text))
}

fn assert_normal(text: &str, cap: usize, expected: &str) {
    let answer = normal(text, cap);
    assert_eq!(answer.number, 0);
    assert_eq!(answer.length, answer.output.len());
    assert_eq!(answer.output, gfa(expected));
}

fn spelled(text: &str, k: usize) -> Answer {
    let text = gfa(text);
    spell(&text, k, ROOM, words(&text))
}

/// The four numbers of a refusal.
fn refusal(answer: &Answer) -> [usize; 4] {
    assert!(answer.number != 0 && answer.output.is_empty() && answer.stats == [0; 14]);
    [answer.number, answer.line, answer.from, answer.length]
}

const LISTING: &str = "S 1 AC\nL 1 + 1 + 0M\nP p 1+,1+,1+ *\n";

#[test]
fn listing() {
    let expected = "\
direct_self_loop_edges=1
direct_self_loop_nodes=1
adjacent_same_node_path_steps=2
adjacent_same_step_path_steps=2
repeated_path_runs=1
max_repeat_run_len=3
length_bucket=2,1,1
node=1
order=0
sequence_len=2
sequence_preview=AC
direct_self_loop_edges=1
link_orientations=++
total_path_visits=3
distinct_paths=1
adjacent_same_node_path_steps=2
adjacent_same_step_path_steps=2
repeated_path_runs=1
max_repeat_run_len=3
max_repeat_run_path=p
";
    assert_eq!(reported(LISTING), expected);
    assert_normal(LISTING, 0, "S 1 AC\nS 2 ACACAC\nP p 2+ *\n");
    assert_eq!(
        normal(LISTING, 0).stats,
        [1, 0, 2, 0, 2, 0, 1, 1, 1, 0, 1, 1, 3, 1]
    );
}

#[test]
fn listing_under_caps() {
    assert_normal(LISTING, 1, LISTING);
    assert_eq!(
        normal(LISTING, 1).stats,
        [1, 1, 2, 2, 2, 2, 0, 0, 0, 0, 0, 0, 3, 3]
    );
    assert_eq!(normal(LISTING, 2), normal(LISTING, 0));
}

#[test]
fn empty_text() {
    assert_eq!(normal("", 0), Answer::default());
    assert_eq!(reported("").lines().count(), 6);
    assert!(reported("").lines().all(|line| line.ends_with("=0")));
    assert_eq!(refusal(&spelled("", 0)), [21, 0, 0, 0]);
}

#[test]
fn unknown_step() {
    let text = format!("{LISTING}P q 9+ *\n");
    assert_normal(&text, 1, &text);
    assert_eq!(refusal(&normal(&text, 0)), [18, 0, 39, 1]);
    assert_eq!(refusal(&spelled(&text, 1)), [18, 0, 39, 1]);
    assert_eq!(spelled(&text, 0).output, b"ACACAC");
    assert_eq!(refusal(&spelled(&text, 2)), [21, 0, 0, 0]);
}

#[test]
fn both_orientations() {
    let text = "S 1 AC\nL 1 + 1 + 0M\nP p 1+,1+,1-,1- *\n";
    assert_normal(text, 0, "S 1 AC\nS 2 ACAC\nL 2 + 2 - 0M\nP p 2+,2- *\n");
    let stats = normal(text, 0).stats;
    assert_eq!(stats[2..6], [3, 1, 2, 0]);
}

#[test]
fn segment_without_self_link() {
    assert_normal(
        "S 1 AC\nS 2 G\nL 1 + 1 + 0M\nP p 1+,1+,2+,2+ *\n",
        0,
        "S 1 AC\nS 2 G\nS 3 ACAC\nL 3 + 2 + 0M\nL 2 + 2 + 0M\nP p 3+,2+,2+ *\n",
    );
}

#[test]
fn next_number() {
    let next = |old: &str, other: &str| {
        let answer = normal(
            &format!("S {old} A\n{other}L {old} + {old} + 0M\nP p {old}+,{old}+ *\n"),
            0,
        );
        let text = String::from_utf8(answer.output).unwrap();
        let path = text.lines().last().unwrap();
        path.split('\t').nth(2).unwrap().to_string()
    };
    assert_eq!(next("1", "S 007 C\n"), "8+");
    assert_eq!(next("+5", ""), "6+");
    assert_eq!(next("18446744073709551613", ""), "18446744073709551614+");
    assert_eq!(
        next("18446744073709551614", ""),
        "18446744073709551614_selfloop_run2+"
    );
}

#[test]
fn clashing_names() {
    let text = "S a+ A\nS a- C\nL a+ + a+ + 0M\nL a- + a- + 0M\nP p a++,a++,a-+,a-+ *\n";
    assert_normal(
        text,
        0,
        "S a+ A\nS a- C\nS a__selfloop_run2 AA\nS a__selfloop_run2_1 CC\n\
         L a__selfloop_run2 + a__selfloop_run2_1 + 0M\n\
         P p a__selfloop_run2+,a__selfloop_run2_1+ *\n",
    );
}

#[test]
fn walks() {
    let walk = |steps: &str| spelled(&format!("S c AC\nW s 0 w 0 4 {steps}\n"), 0);
    assert_eq!(walk("ab>c").output, b"AC");
    assert_eq!(walk("<c").output, b"GT");
    assert_eq!(refusal(&walk("><")), [15, 2, 0, 0]);
    assert_eq!(refusal(&walk("abc")), [16, 2, 0, 0]);
    assert_eq!(refusal(&walk(">")), [17, 2, 0, 0]);
}

#[test]
fn step_lists() {
    let list = |steps: &str| spelled(&format!("S 1 AC\nS + G\nP p {steps}\n"), 0);
    assert_eq!(list(",1+,,").output, b"AC");
    assert_eq!(refusal(&list("1")), [13, 3, 0, 0]);
    assert_eq!(refusal(&list("+")), [13, 3, 0, 0]);
    assert_eq!(list("++").output, b"G");
}

#[test]
fn complement() {
    assert_eq!(spelled("S 1 acGN\nP p 1-\n", 0).output, b"NCGT");
}

#[test]
fn preview() {
    let line = |length: usize| {
        let sequence = "A".repeat(length);
        let report = reported(&format!("S 1 {sequence}\nL 1 + 1 + 0M\n"));
        report.lines().nth(10).unwrap().to_string()
    };
    let whole = format!("sequence_preview={}", "A".repeat(48));
    assert_eq!(line(48), whole);
    assert_eq!(line(49), whole + "...");
}

#[test]
fn longest_text() {
    let text = vec![b'\n'; LONGEST_TEXT + 1];
    let longest = &text[..LONGEST_TEXT];
    let work = words(longest);
    assert_eq!(normalize(longest, 0, ROOM, work).output, longest);
    assert_eq!(report(longest, 10, ROOM, work).number, 0);
    assert_eq!(refusal(&spell(longest, 0, ROOM, work)), [21, 0, 0, 0]);
    assert_eq!(refusal(&normalize(&text, 0, ROOM, 0)), [1, 0, 0, 0]);
    assert_eq!(refusal(&report(&text, 10, ROOM, 0)), [1, 0, 0, 0]);
    assert_eq!(refusal(&spell(&text, 0, ROOM, 0)), [1, 0, 0, 0]);
}

#[test]
fn work_area_and_room() {
    let text = gfa(LISTING);
    let least = words(&text);
    assert_eq!(report(&text, 10, 437, least).length, 437);
    assert_eq!(refusal(&report(&text, 10, 437, least - 1)), [4, 0, 0, 0]);
    assert_eq!(refusal(&report(&text, 10, 436, least)), [22, 0, 0, 0]);
    assert_eq!(normalize(&text, 0, 27, least).length, 27);
    assert_eq!(refusal(&normalize(&text, 0, 26, least)), [22, 0, 0, 0]);
    assert_eq!(spell(&text, 0, 6, least).length, 6);
    assert_eq!(refusal(&spell(&text, 0, 5, least)), [22, 0, 0, 0]);
}

#[test]
fn carriage_returns() {
    let text = LISTING.replace('\n', "\r\n");
    assert_normal(&text, 1, &text);
    assert_normal(&text, 0, "S 1 AC\nS 2 ACACAC\nP p 2+ *\n");
    assert_eq!(reported(&text), reported(LISTING));
    assert_eq!(refusal(&normal("S 1 A\r", 0)), [3, 0, 5, 0]);
    assert_eq!(refusal(&normal("S 1 A\r\r\n", 0)), [3, 0, 5, 0]);
}

#[test]
fn bytes_before_lines() {
    let numbers = |text: &[u8], work| refusal(&report(text, 10, ROOM, work));
    assert_eq!(numbers(b"S\n\xff", 1000), [2, 0, 2, 0]);
    assert_eq!(numbers(b"a\rb\xff", 1000), [3, 0, 1, 0]);
    assert_eq!(numbers(b"\x80", 0), [2, 0, 0, 0]);
    assert_eq!(numbers(b"S\n", 71), [4, 0, 0, 0]);
    assert_eq!(numbers(b"S\n", 72), [5, 1, 0, 0]);
}

#[test]
fn tied_unknown_nodes() {
    let text = "L b + b + 0M\nL a + a + 0M\nL c + c - 0M\nL a + d + 0M\n";
    let nodes = |report: String| -> Vec<String> {
        let names = report.lines().filter_map(|line| line.strip_prefix("node="));
        names.map(str::to_string).collect()
    };
    assert_eq!(nodes(reported(text)), ["b", "a", "c"]);
    assert!(tied_by_chance(&gfa(text), 1));
    assert!(!tied_by_chance(&gfa(text), 0));
    assert!(!tied_by_chance(&gfa(LISTING), 10));
}

#[test]
fn twice_is_not_once() {
    let text = "S 1 AC\nS 2 G\nL 1 + 1 + 0M\nP p 1+,1+,2+,2+ *\n";
    let once = normal(text, 0).output;
    let twice = normalize(&once, 0, ROOM, words(&once));
    assert_eq!(twice.number, 0);
    assert_ne!(twice.output, once);
}
