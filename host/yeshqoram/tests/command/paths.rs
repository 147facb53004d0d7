//! The list of paths, and a path by its name.

use crate::graphs;
use crate::program::{run, stderr, stdout, LISTING};
use crate::rng::Rng;
use yeshqoram::least_work;

const TEXT: &str = "\
S\t1\tAC
S\t2\t*
S\t3\t
P\tp\t1+,3-,1-
W\tsample\t1\tchr1\t0\t9\t>1<1
P\tq\t1+,2+
W\tsample\t2\tp\t0\t9\t>9
P\t\t*
";

#[test]
fn a_list() {
    let list = run(&["paths"], TEXT.as_bytes());
    assert_eq!(list.status.code(), Some(0));
    assert_eq!(
        stdout(&list),
        "path\tname\tsteps\tbases\n0\tp\t3\t4\n1\tchr1\t2\t4\n2\tq\t2\tunknown\n3\tp\t1\tunknown\n4\t\t0\t0\n"
    );
    assert_eq!(stdout(&run(&["paths"], b"")), "path\tname\tsteps\tbases\n");
    let refused = run(&["paths"], b"S\t1\n");
    assert_eq!(refused.status.code(), Some(1));
    assert!(stderr(&refused).contains("refused (5)"));
}

#[test]
fn by_name() {
    let spelled = |name: &str| run(&["spell", "--name", name], TEXT.as_bytes());
    assert_eq!(stdout(&spelled("chr1")), "ACGT\n");
    assert_eq!(stdout(&spelled("")), "\n");
    assert_eq!(
        stdout(&run(&["spell", "--name", "p"], LISTING.as_bytes())),
        "ACACAC\n"
    );

    let several = spelled("p");
    assert_eq!(several.status.code(), Some(1));
    assert!(stderr(&several).contains("2 paths have the name p: numbers 0, 3;"));

    let none = spelled("sample");
    assert_eq!(none.status.code(), Some(1));
    assert!(stderr(&none).contains("no path has the name sample"));

    assert!(stderr(&spelled("q")).contains("refused (19)"));

    // A text that cannot be read is refused for that, whatever the name.
    let unread = run(&["spell", "--name", "x"], b"P\tx\t1+\nS\t1\n");
    assert!(stderr(&unread).contains("refused (5)"));
}

/// Each figure of the list is the service's.
#[test]
fn as_the_services_say() {
    for number in 0..400 {
        let text = graphs::text(&mut Rng::new(13, number));
        let mut work = vec![0; least_work(text.len())];
        let mut room = vec![0; 65_536];
        let listed = run(&["paths"], &text);
        let all = yeshqoram::normalize(&text, 1, &mut room, &mut work);
        let mut spell = |path| yeshqoram::spell_path(&text, path, &mut room, &mut work);
        let beyond = spell(usize::MAX).number;
        assert_eq!(listed.status.success(), beyond == 21);
        let list = stdout(&listed);
        let rows: Vec<Vec<&str>> = list
            .lines()
            .skip(1)
            .map(|row| row.split('\t').collect())
            .collect();
        for (path, row) in rows.iter().enumerate() {
            let answer = spell(path);
            let bases = match answer.number {
                0 => answer.length.to_string(),
                _ => "unknown".to_string(),
            };
            assert_eq!(
                (row[0], row[3]),
                (path.to_string().as_str(), bases.as_str())
            );
        }
        if beyond == 21 {
            assert_eq!(spell(rows.len()).number, 21);
        }
        if all.answer.number == 0 {
            let steps: usize = rows
                .iter()
                .map(|row| row[2].parse::<usize>().unwrap())
                .sum();
            assert_eq!(steps, all.stats.path_steps_before);
        }
    }
}
