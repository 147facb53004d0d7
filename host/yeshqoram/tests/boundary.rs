//! The library called from Rust: valid, damaged, empty, longest and too long
//! texts, buffers that fit exactly and ones that are too short by one, and
//! every byte and word that a call must leave alone.

use yeshqoram::{least_work, Answer, Normalized, Stats, LONGEST_TEXT};

const LISTING: &[u8] = b"S\t1\tAC\nL\t1\t+\t1\t+\t0M\nP\tp\t1+,1+,1+\t*\n";
const FOLDED: &[u8] = b"S\t1\tAC\nS\t2\tACACAC\nP\tp\t2+\t*\n";

#[derive(Clone, Copy)]
enum Service {
    Report,
    Normalize,
    Spell,
}

const ALL: [Service; 3] = [Service::Report, Service::Normalize, Service::Spell];

fn byte_at(place: usize) -> u8 {
    (place.wrapping_mul(29) + 3) as u8
}

/// A call with buffers of these lengths, each a part of a longer one; all that
/// it must leave alone is looked at.
fn call(
    service: Service,
    text: &[u8],
    arg: usize,
    room: usize,
    words: usize,
) -> (Normalized, Vec<u8>) {
    let mut out: Vec<u8> = (0..room + 8).map(byte_at).collect();
    let mut work = vec![0xdead_beef_u32; words + 8];
    let (lent_out, lent_work) = (&mut out[..room], &mut work[..words]);
    let result = match service {
        Service::Report => Normalized {
            answer: yeshqoram::report(text, arg, lent_out, lent_work),
            stats: Stats::default(),
        },
        Service::Spell => Normalized {
            answer: yeshqoram::spell_path(text, arg, lent_out, lent_work),
            stats: Stats::default(),
        },
        Service::Normalize => yeshqoram::normalize(text, arg, lent_out, lent_work),
    };
    let written = if result.answer.number == 0 {
        result.answer.length
    } else {
        assert_eq!(result.stats, Stats::default());
        0
    };
    assert!((written..room + 8).all(|place| out[place] == byte_at(place)));
    assert!(work[..words].iter().all(|&word| word == 0));
    assert!(work[words..].iter().all(|&word| word == 0xdead_beef));
    out.truncate(written);
    (result, out)
}

fn number(service: Service, text: &[u8], arg: usize, room: usize, words: usize) -> usize {
    call(service, text, arg, room, words).0.answer.number
}

#[test]
fn accepted_at_the_least_sizes() {
    let cases: [(Service, &[u8], usize, &[u8]); 6] = [
        (Service::Normalize, LISTING, 0, FOLDED),
        (Service::Normalize, LISTING, usize::MAX, FOLDED),
        (Service::Normalize, LISTING, 1, LISTING),
        (Service::Normalize, b"", 0, b""),
        (Service::Spell, LISTING, 0, b"ACACAC"),
        (Service::Spell, b"S\t1\tacGN\nP\tp\t1-\n", 0, b"NCGT"),
    ];
    for (service, text, arg, wanted) in cases {
        let least = least_work(text.len());
        let (result, out) = call(service, text, arg, wanted.len(), least);
        let accepted = Answer {
            length: wanted.len(),
            ..Answer::default()
        };
        assert_eq!(result.answer, accepted);
        assert_eq!(out, wanted);
        assert_eq!(number(service, text, arg, wanted.len(), least - 1), 4);
        if !wanted.is_empty() {
            assert_eq!(number(service, text, arg, wanted.len() - 1, least), 22);
        }
    }
}

#[test]
fn counters_of_the_listing() {
    let (result, _) = call(
        Service::Normalize,
        LISTING,
        0,
        100,
        least_work(LISTING.len()),
    );
    let wanted = Stats {
        input_direct_self_loop_edges: 1,
        input_adjacent_same_node_path_steps: 2,
        input_adjacent_same_step_path_steps: 2,
        normalized_nodes: 1,
        collapsed_runs: 1,
        created_segments: 1,
        removed_self_loop_links: 1,
        paths_changed: 1,
        path_steps_before: 3,
        path_steps_after: 1,
        ..Stats::default()
    };
    assert_eq!(result.stats, wanted);
}

#[test]
fn damaged_texts_are_refused_with_their_place() {
    let cases: [(&[u8], [usize; 4]); 5] = [
        (b"S\t1\n", [5, 1, 0, 0]),
        (b"S\t1\tA\nS\t1\tC\n", [6, 2, 0, 0]),
        (b"H\n\xff", [2, 0, 2, 0]),
        (b"H\rH", [3, 0, 1, 0]),
        (b"P\tp\t1\n", [13, 1, 0, 0]),
    ];
    for (text, [number, line, from, length]) in cases {
        for service in ALL {
            let wanted = Answer {
                number,
                line,
                from,
                length,
            };
            let (result, _) = call(service, text, 0, 100, least_work(text.len()));
            assert_eq!(result.answer, wanted);
        }
    }
}

#[test]
fn empty_buffers() {
    for service in ALL {
        assert_eq!(number(service, b"", 0, 0, 0), 4);
    }
    assert_eq!(number(Service::Normalize, b"", 0, 0, 64), 0);
    assert_eq!(number(Service::Report, b"", 0, 0, 64), 22);
    for path in [0, usize::MAX] {
        assert_eq!(number(Service::Spell, b"", path, 0, 64), 21);
    }
}

#[test]
fn the_longest_text_and_one_byte_more() {
    let mut text = LISTING.to_vec();
    text.resize(LONGEST_TEXT, b'#');
    let least = least_work(text.len());
    assert_eq!(number(Service::Report, &text, 10, 4096, least), 0);
    assert_eq!(number(Service::Spell, &text, 0, 6, least), 0);
    let (result, out) = call(Service::Normalize, &text, 0, LONGEST_TEXT + 1, least);
    assert_eq!(result.answer.number, 0);
    assert_eq!(out.len(), text.len() - LISTING.len() + FOLDED.len() + 1);
    text.push(b'#');
    for service in ALL {
        assert_eq!(number(service, &text, 0, 100, least + 4), 1);
    }
}

/// A unit of 524,000 bases in a run of 174,000: the answer has 91,176,524,019
/// bytes, and is refused without being made.
#[test]
fn an_answer_longer_than_any_buffer() {
    let mut text = b"S\t1\t".to_vec();
    text.extend(std::iter::repeat_n(b'A', 524_000));
    text.extend(b"\nL\t1\t+\t1\t+\t0M\nP\tp\t1+");
    text.extend(b",1+".repeat(173_999));
    text.extend(b"\t*\n");
    assert!(text.len() <= LONGEST_TEXT);
    assert_eq!(
        number(Service::Normalize, &text, 0, 1000, least_work(text.len())),
        22
    );
}
