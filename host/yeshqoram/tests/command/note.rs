//! Every figure of the release note against the services: the statistics of
//! normalize, and the length that spell answers with.

use crate::graphs;
use crate::program::{run, stdout};
use crate::rng::Rng;
use std::collections::HashSet;
use std::path::Path;
use yeshqoram::{least_work, Normalized};

const UNKNOWN: &str = "S\t1\t*\nP\tp\t1+\nP\tq\t9+\nP\tr\t*\n";

#[test]
fn what_is_not_known_says_so() {
    let note = stdout(&run(&["normalize", "--note"], UNKNOWN.as_bytes()));
    assert!(note.contains("\n0\tp\t1\t1\t0\tunknown\n"), "{note}");
    assert!(note.contains("\n1\tq\t1\t1\t0\tunknown\n"), "{note}");
    assert!(note.contains("\n2\tr\t0\t0\t0\t0\n"), "{note}");
}

#[test]
fn generated_texts() {
    let (mut folding, mut others, mut unknown) = (0, 0, 0);
    for number in 0..12_000 {
        let mut rng = Rng::new(10, number);
        let text = graphs::text(&mut rng);
        let cap = [0, 0, 1, 2, 7, usize::MAX][rng.below(6)];
        let (result, output) = normalized(&text, cap);
        let folds = result.stats.normalized_nodes > 0;
        if result.answer.number != 0 || (!folds && !rng.once_in(20)) {
            continue;
        }
        let note = stdout(&run(
            &["normalize", "--note", "--cap", &cap.to_string()],
            &text,
        ));
        let note = Note::read(&note);
        totals(&note, cap, &result);
        unknown += paths(&note, &text, &output, &result);
        folding += usize::from(folds);
        others += usize::from(!folds);
    }
    assert!(folding > 200 && others > 200 && unknown > 20);
}

fn normalized(text: &[u8], cap: usize) -> (Normalized, Vec<u8>) {
    let mut out = vec![0; 65_536];
    let mut work = vec![0; least_work(text.len())];
    let result = yeshqoram::normalize(text, cap, &mut out, &mut work);
    out.truncate(result.answer.length);
    (result, out)
}

/// The note's parts: the lines above the tables, and the rows of each.
struct Note<'a> {
    head: Vec<&'a str>,
    segments: Vec<Vec<&'a str>>,
    paths: Vec<Vec<&'a str>>,
}

impl<'a> Note<'a> {
    fn read(note: &'a str) -> Self {
        let parts: Vec<&str> = note.split("\n\n").collect();
        let table = |first: &str| {
            let part = parts.iter().find(|part| part.starts_with(first));
            let rows = part.map_or("", |part| part).lines().skip(1);
            rows.map(|row| row.split('\t').collect()).collect()
        };
        Note {
            head: parts[1].lines().collect(),
            segments: table("segment\t"),
            paths: table("path\t"),
        }
    }
}

fn number(word: &str) -> usize {
    word.parse()
        .unwrap_or_else(|_| panic!("{word} is no number"))
}

fn totals(note: &Note, cap: usize, result: &Normalized) {
    let stats = &result.stats;
    let cap = match cap {
        0 => "Cap: none".to_string(),
        _ => format!("Cap: segments of at most {cap} bases"),
    };
    assert_eq!(note.head[0], cap);
    if stats.normalized_nodes == 0 {
        assert!(note.head[1].starts_with("Nothing is folded"));
        assert!(note.segments.is_empty());
        return;
    }
    let wanted = [
        format!("Folded runs: {}", stats.collapsed_runs),
        format!("Segments they are on: {}", stats.normalized_nodes),
        format!(
            "Paths that have one: {} of {}",
            stats.paths_changed,
            note.paths.len()
        ),
        format!("New segments: {}", stats.created_segments),
        format!("New links: {}", stats.added_links),
        format!("Links removed: {}", stats.removed_self_loop_links),
    ];
    assert_eq!(note.head[1..], wanted);
    // A row for each new segment; all rows have all runs, and their lost steps.
    let names: HashSet<&str> = note.segments.iter().map(|row| row[0]).collect();
    let runs = || {
        note.segments
            .iter()
            .map(|row| (number(row[1]), number(row[2])))
    };
    assert_eq!(names.len(), stats.normalized_nodes);
    assert_eq!(note.segments.len(), stats.created_segments);
    assert_eq!(
        runs().map(|(_, runs)| runs).sum::<usize>(),
        stats.collapsed_runs
    );
    assert_eq!(
        runs()
            .map(|(length, runs)| (length - 1) * runs)
            .sum::<usize>(),
        stats.path_steps_before - stats.path_steps_after
    );
}

/// The rows of the paths; how many have unknown bases.
fn paths(note: &Note, text: &[u8], output: &[u8], result: &Normalized) -> usize {
    let (old, new) = (path_lines(text), path_lines(output));
    assert_eq!((note.paths.len(), note.paths.len()), (old.len(), new.len()));
    assert_eq!(bases(text, note.paths.len()), Err(21));
    let mut sums = [0; 3];
    let mut unknown = 0;
    for (k, row) in note.paths.iter().enumerate() {
        let [before, after, lost] = [2, 3, 4].map(|place| number(row[place]));
        assert_eq!(number(row[0]), k);
        assert_eq!((before, after), (steps(old[k]), steps(new[k])));
        assert_eq!(lost, before - after);
        assert_eq!(bases(text, k).ok(), bases(output, k).ok());
        match bases(text, k) {
            Ok(length) => assert_eq!(number(row[5]), length),
            Err(_) => assert_eq!(row[5], "unknown"),
        }
        unknown += usize::from(row[5] == "unknown");
        sums[0] += before;
        sums[1] += after;
        sums[2] += usize::from(lost > 0);
    }
    let stats = &result.stats;
    let wanted = [
        stats.path_steps_before,
        stats.path_steps_after,
        stats.paths_changed,
    ];
    assert_eq!(sums, wanted);
    unknown
}

fn path_lines(text: &[u8]) -> Vec<&[u8]> {
    text.split_inclusive(|&byte| byte == b'\n')
        .filter(|line| line.starts_with(b"P\t") || line.starts_with(b"W\t"))
        .collect()
}

/// The steps of a path, as the service counts them in a text of it alone.
fn steps(line: &[u8]) -> usize {
    let (result, _) = normalized(line, 0);
    assert_eq!(result.answer.number, 0);
    result.stats.path_steps_before
}

/// The length of a path's spelling, or the refusal.
fn bases(text: &[u8], path: usize) -> Result<usize, usize> {
    let mut out = vec![0; 65_536];
    let mut work = vec![0; least_work(text.len())];
    match yeshqoram::spell_path(text, path, &mut out, &mut work) {
        answer if answer.number == 0 => Ok(answer.length),
        answer => Err(answer.number),
    }
}

/// The note names files of the repository, and definitions in them.
#[test]
fn what_it_points_at_is_there() {
    let note = stdout(&run(&["normalize", "--note"], b""));
    let root = Path::new(env!("CARGO_MANIFEST_DIR")).join("../..");
    let named = [
        ("crates/normalize/specs/Served.antt", "Normalized"),
        ("crates/normalize/proofs/Demand.antt", "calls-monotone"),
    ];
    for (file, definition) in named {
        assert!(note.contains(file) && note.contains(&format!("`{definition}`")));
        let text = std::fs::read_to_string(root.join(file)).expect(file);
        assert!(text.contains(definition), "{definition} in {file}");
    }
}
