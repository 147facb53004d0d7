//! Random small graphs by a grammar that loves the odd corners of the format.

use crate::rng::Rng;

const NUMBERS: [&str; 14] = [
    "1",
    "2",
    "3",
    "9",
    "007",
    "+5",
    "0",
    "18446744073709551612",
    "18446744073709551613",
    "18446744073709551614",
    "18446744073709551615",
    "+00018446744073709551613",
    "18446744073709551616",
    "99999999999999999999",
];
const WORDS: [&str; 10] = [
    "a",
    "a+",
    "a-",
    "a*",
    "a_",
    "a__selfloop_run2",
    "a__selfloop_run2_1",
    "a_selfloop_run3",
    "utg000017l",
    "chr2H:1.5#x",
];
const ODD: [&str; 14] = [
    "", "*", "+", "-", "#", ",", "a,b", ">", "s<t", " ", "=", "1 2", "\u{1f}", "\u{7f}",
];
const SEQUENCES: [&str; 14] = [
    "A", "C", "AC", "ACG", "acgtn", "NnRYK", "acGN", "T", "", "*", "**", "GATTACA", "-", "=.",
];
const OTHER_LINES: [&str; 16] = [
    "H\tVN:Z:1.0",
    "H",
    "HH\tx",
    "# comment",
    "#\tS\t1\tA",
    "",
    "x",
    "C\t1\t+\t2\t+\t0\t1M",
    "\tS",
    "s\t1\tA",
    " S\t1",
    "SS",
    "l",
    "P1\tp",
    "W*",
    "J\t1\t+\t2\t-\t*",
];
const OVERLAPS: [&str; 6] = ["*", "", "0M", "2M,2M", "4=,*", "x"];
const TAGS: [&str; 6] = ["LN:i:2", "", "RC:i:0", "t:i:1", "z", "*"];

/// A text of a few segments, links, paths and other lines.
pub fn text(rng: &mut Rng) -> Vec<u8> {
    let names = names(rng);
    let mut lines = Vec::new();
    for name in &names {
        if !rng.once_in(10) {
            lines.push(segment(rng, name));
        }
    }
    if rng.once_in(30) {
        lines.push(segment(rng, names[0]));
    }
    for _ in 0..rng.below(5) {
        lines.push(link(rng, &names));
    }
    let paths = [0, 1, 1, 2, 2, 3][rng.below(6)];
    for _ in 0..paths {
        lines.push(path(rng, &names));
    }
    for _ in 0..rng.below(3) {
        let line = rng.pick(&OTHER_LINES).to_string();
        lines.insert(rng.below(lines.len() + 1), line);
    }
    if rng.once_in(3) {
        rng.shuffle(&mut lines);
    }
    ended(rng, &lines)
}

/// One to four distinct names, mostly of one sort.
fn names(rng: &mut Rng) -> Vec<&'static str> {
    let sorts: [&[&str]; 3] = [&NUMBERS, &WORDS, &ODD];
    let sort = sorts[[0, 0, 0, 1, 1, 2][rng.below(6)]];
    let mut names: Vec<&str> = Vec::new();
    for _ in 0..=rng.below(4) {
        let from = if rng.once_in(8) {
            sorts[rng.below(3)]
        } else {
            sort
        };
        let name = rng.pick(from);
        if !names.contains(&name) {
            names.push(name);
        }
    }
    names
}

/// A name of the graph, or now and then any other.
fn name(rng: &mut Rng, names: &[&'static str]) -> &'static str {
    if rng.once_in(40) {
        return rng.pick(&["404", "nowhere", "2", "*"]);
    }
    rng.pick(names)
}

fn sign(rng: &mut Rng) -> &'static str {
    if rng.once_in(60) {
        return rng.pick(&["", "x", "++", "*"]);
    }
    rng.pick(&["+", "+", "-"])
}

fn segment(rng: &mut Rng, name: &str) -> String {
    format!("S\t{name}\t{}{}", rng.pick(&SEQUENCES), tags(rng))
}

/// A link, mostly from a node to itself.
fn link(rng: &mut Rng, names: &[&'static str]) -> String {
    let from = name(rng, names);
    let to = if rng.once_in(4) {
        name(rng, names)
    } else {
        from
    };
    let (first, second) = (sign(rng), sign(rng));
    let overlap = rng.pick(&OVERLAPS);
    format!("L\t{from}\t{first}\t{to}\t{second}\t{overlap}{}", tags(rng))
}

fn path(rng: &mut Rng, names: &[&'static str]) -> String {
    if rng.once_in(3) {
        walk_line(rng, names)
    } else {
        list_line(rng, names)
    }
}

fn list_line(rng: &mut Rng, names: &[&'static str]) -> String {
    let mut items = Vec::new();
    for (name, sign) in steps(rng, names) {
        items.push(format!("{name}{sign}"));
        if rng.once_in(20) {
            items.push(String::new());
        }
    }
    let list = if items.is_empty() {
        rng.pick(&["*", "", ","]).to_string()
    } else {
        items.join(",")
    };
    let name = rng.pick(&["p", "q", "", "p2"]);
    if rng.once_in(3) {
        return format!("P\t{name}\t{list}");
    }
    let overlaps = rng.pick(&OVERLAPS);
    format!("P\t{name}\t{list}\t{overlaps}{}", tags(rng))
}

fn walk_line(rng: &mut Rng, names: &[&'static str]) -> String {
    let mut walk = rng.pick(&["", "", "", "", "ab"]).to_string();
    for (name, sign) in steps(rng, names) {
        walk.push(if sign == "+" { '>' } else { '<' });
        walk.push_str(name);
    }
    if walk.is_empty() && !rng.once_in(4) {
        walk.push('*');
    }
    let sequence = rng.pick(&["w", "chr2H", "", "*"]);
    format!("W\tsample\t1\t{sequence}\t0\t9\t{walk}{}", tags(rng))
}

/// Steps in runs of one to four.
fn steps(rng: &mut Rng, names: &[&'static str]) -> Vec<(&'static str, &'static str)> {
    let mut steps = Vec::new();
    for _ in 0..rng.below(5) {
        let step = (name(rng, names), sign(rng));
        steps.extend(vec![step; 1 + rng.below(4)]);
    }
    steps
}

fn tags(rng: &mut Rng) -> String {
    if !rng.once_in(5) {
        return String::new();
    }
    (0..=rng.below(2))
        .map(|_| format!("\t{}", rng.pick(&TAGS)))
        .collect()
}

/// The lines with LF, with CRLF, or with both, the last one at times with none.
fn ended(rng: &mut Rng, lines: &[String]) -> Vec<u8> {
    let style = rng.below(6);
    let mut text = String::new();
    for (number, line) in lines.iter().enumerate() {
        text.push_str(line);
        let last = number + 1 == lines.len();
        if last && rng.once_in(6) {
            break;
        }
        let carriage_return = style == 4 || (style == 5 && rng.once_in(2));
        text.push_str(if carriage_return { "\r\n" } else { "\n" });
    }
    text.into_bytes()
}
