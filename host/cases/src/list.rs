//! The fixed list of the repository: named graphs for every rule of document
//! 01, then random and damaged graphs of a fixed seed.

use crate::generate::{self, Kind};
use crate::{Case, Service};

/// The prover computes each case, so texts are short.
const LONGEST: usize = 600;
const SEED: u64 = 2026;
const RANDOM: usize = 70;

const LISTING: &str = "S 1 AC\nL 1 + 1 + 0M\nP p 1+,1+,1+ *\n";
/// Segment 1 with a self-link, so that a run on it is folded.
const LOOP: &str = "S 1 AC\nL 1 + 1 + 0M\n";

/// Every case of the list with its label.
pub fn cases() -> Vec<(String, Case)> {
    let mut list = List::default();
    graphs_to_try(&mut list);
    bytes_and_work(&mut list);
    room(&mut list);
    bad_lines(&mut list);
    order_of_refusals(&mut list);
    bad_steps(&mut list);
    reading(&mut list);
    step_lists(&mut list);
    walks(&mut list);
    spelling(&mut list);
    eligible(&mut list);
    folded(&mut list);
    runs(&mut list);
    new_ids(&mut list);
    links(&mut list);
    writing(&mut list);
    reports(&mut list);
    ties(&mut list);
    random(&mut list);
    list.0
}

/// A text: tabs for blanks, and a blank for `~`.
fn gfa(text: &str) -> Vec<u8> {
    text.replace(' ', "\t").replace('~', " ").into_bytes()
}

/// Lines after segment 1 and its self-link.
fn looped(lines: &str) -> String {
    format!("{LOOP}{lines}")
}

#[derive(Default)]
struct List(Vec<(String, Case)>);

impl List {
    fn add(&mut self, label: &str, case: Case) {
        let label = format!("{label}, {} {}", case.service.argument(), case.arg);
        self.0.push((label, case));
    }

    fn call(&mut self, label: &str, service: Service, args: &[usize], text: &str) {
        for &arg in args {
            self.add(label, Case::new(service, arg, gfa(text)));
        }
    }

    fn report(&mut self, label: &str, tops: &[usize], text: &str) {
        self.call(label, Service::Report, tops, text);
    }

    fn normalize(&mut self, label: &str, caps: &[usize], text: &str) {
        self.call(label, Service::Normalize, caps, text);
    }

    fn spell(&mut self, label: &str, paths: &[usize], text: &str) {
        self.call(label, Service::Spell, paths, text);
    }

    /// The three services, as the programs call them, and path 0.
    fn each(&mut self, label: &str, text: &str) {
        self.each_bytes(label, &gfa(text));
    }

    fn each_bytes(&mut self, label: &str, text: &[u8]) {
        for (service, arg) in usual() {
            self.add(label, Case::new(service, arg, text.to_vec()));
        }
    }

    fn each_with_work(&mut self, label: &str, work: usize, text: &[u8]) {
        for (service, arg) in usual() {
            let mut case = Case::new(service, arg, text.to_vec());
            case.work = work;
            self.add(&format!("{label}, work {work}"), case);
        }
    }

    fn with_room(&mut self, label: &str, service: Service, arg: usize, room: usize, text: &str) {
        let mut case = Case::new(service, arg, gfa(text));
        case.room = room;
        self.add(&format!("{label}, room {room}"), case);
    }
}

fn usual() -> [(Service, usize); 3] {
    [
        (Service::Report, 10),
        (Service::Normalize, 0),
        (Service::Spell, 0),
    ]
}

fn graphs_to_try(list: &mut List) {
    list.each("empty text", "");
    list.report("listing", &[10, 0, 1, 2, usize::MAX], LISTING);
    list.normalize("listing", &[0, 1, 2, 3, 7, usize::MAX], LISTING);
    list.spell("listing", &[0, 1, usize::MAX], LISTING);
    let unknown = format!("{LISTING}P q 9+ *\n");
    list.report("unknown 9 in a second path", &[10], &unknown);
    list.normalize("unknown 9 in a second path", &[0, 1, 2], &unknown);
    list.spell("unknown 9 in a second path", &[0, 1, 2], &unknown);
    list.each("both orientations", &looped("P p 1+,1+,1-,1- *\n"));
    list.each(
        "2 without self-link",
        "S 1 AC\nS 2 G\nL 1 + 1 + 0M\nP p 1+,1+,2+,2+ *\n",
    );
    list.normalize(
        "2 without self-link, once more",
        &[0],
        "S 1 AC\nS 2 G\nS 3 ACAC\nL 3 + 2 + 0M\nL 2 + 2 + 0M\nP p 3+,2+,2+ *\n",
    );
    for (label, text) in [
        (
            "CRLF listing",
            "S 1 AC\r\nL 1 + 1 + 0M\r\nP p 1+,1+,1+ *\r\n",
        ),
        ("CRLF and LF", "S 1 AC\r\nL 1 + 1 + 0M\nP p 1+,1+,1+ *\r\n"),
        (
            "CRLF, no last LF",
            "S 1 AC\r\nL 1 + 1 + 0M\r\nP p 1+,1+,1+ *",
        ),
    ] {
        list.report(label, &[10], text);
        list.normalize(label, &[0, 1], text);
        list.spell(label, &[0], text);
    }
}

/// 2, 3 and 4, in their order. Where nothing is said a case has the least work
/// area.
fn bytes_and_work(list: &mut List) {
    let texts: [(&str, &[u8]); 10] = [
        ("2", b"S\t1\tA\x80\n"),
        ("2 in a comment", b"# \xe9\n"),
        ("2 before 3", b"\xc3\xa9\r"),
        ("2 before 5", b"S\n\xff"),
        ("2 after a CRLF", b"\r\n\xff"),
        ("3 before 2", b"a\rb\xff"),
        ("3 at the end", b"S\t1\tA\r"),
        ("3 before 5", b"S\r\n\r"),
        ("3, CR CR LF", b"S\t1\tA\r\r\n"),
        ("3 in a comment", b"#\rc\n"),
    ];
    for (label, text) in texts {
        list.each_bytes(&format!("refused {label}"), text);
    }
    list.each("bytes 127 and 0 are allowed", "#\x7f\0\nP p *\n");
    let listing = gfa(LISTING);
    list.each_with_work("work area one word short", 203, &listing);
    list.each_with_work("work area larger", 205, &listing);
    list.each_with_work("empty text", 63, b"");
    list.each_with_work("4 before 5", 71, b"S\n");
    list.each_with_work("5 after 4", 72, b"S\n");
    list.each_with_work("2 before 4", 0, b"\x80");
    list.each_with_work("3 before 4", 0, b"\r");
    for (label, text, work) in [("4 before 22", listing, 203), ("empty text, 4", vec![], 63)] {
        let mut case = Case::new(Service::Normalize, 0, text);
        (case.room, case.work) = (0, work);
        list.add(label, case);
    }
}

/// 22, last of all.
fn room(list: &mut List) {
    for room in [436, 437, 0, 155] {
        list.with_room("listing", Service::Report, 10, room, LISTING);
    }
    for room in [155, 156] {
        list.with_room("no node", Service::Report, 10, room, "");
    }
    for (cap, room) in [(0, 26), (0, 27), (0, 0), (1, 10), (1, 34), (1, 35)] {
        list.with_room("listing", Service::Normalize, cap, room, LISTING);
    }
    for room in [5, 6, 0] {
        list.with_room("listing", Service::Spell, 0, room, LISTING);
    }
    list.with_room("empty text", Service::Normalize, 0, 0, "");
    list.with_room("empty spelling", Service::Spell, 0, 0, "P p *\n");
    for (service, arg) in usual() {
        let bad = format!("{LISTING}S\n");
        list.with_room("5 before 22", service, arg, 0, &bad);
    }
    let unknown = format!("{LISTING}P q 9+\n");
    list.with_room("18 before 22", Service::Normalize, 0, 0, &unknown);
    list.with_room("18 before 22", Service::Spell, 1, 0, &unknown);
    let missing = format!("{LISTING}S 3 *\nP q 1+,3+\n");
    list.with_room("19 before 22", Service::Normalize, 0, 0, &missing);
    list.with_room("19 before 22", Service::Spell, 1, 0, &missing);
    list.with_room("21 before 22", Service::Spell, 2, 0, &missing);
}

/// 5 to 17: a bad line between good ones and worse.
fn bad_lines(list: &mut List) {
    for (label, line) in [
        ("5, S", "S"),
        ("5 before 6", "S 1"),
        ("6", "S 1 *"),
        ("6 of an empty ID", "S  A\nS  C"),
        ("7, L", "L"),
        ("7", "L 1 + 1 +"),
        ("7 before 8", "L 1  1 "),
        ("8", "L 1  1 + 0M"),
        ("8 before 10", "L 1  1  0M"),
        ("8 before 11", "L 1  1 x 0M"),
        ("9, *", "L 1 * 1 + 0M"),
        ("9, +-", "L 1 +- 1 + 0M"),
        ("9, ++", "L 1 ++ 1 + 0M"),
        ("9, x", "L 1 x 1 + 0M"),
        ("9 before 10", "L 1 x 1  0M"),
        ("9 before 11", "L 1 x 1 x 0M"),
        ("10", "L 1 + 1  0M"),
        ("11, --", "L 1 + 1 -- 0M"),
        ("11, blank", "L 1 - 1 ~+ 0M"),
        ("12, P", "P"),
        ("12", "P p"),
        ("13, no orientation", "P p 1"),
        ("13, no name", "P p 1+,+,1+"),
        ("14, W", "W"),
        ("14", "W s 0 w 0 4"),
        ("15", "W s 0 w 0 4 >1><1>"),
        ("16", "W s 0 w 0 4 1+"),
        ("17", "W s 0 w 0 4 >1>1<"),
    ] {
        let text = format!("H VN:Z:1.0\n\n# c\n{LISTING}{line}\nS\nP p 9+\n");
        list.each(&format!("refused {label}"), &text);
    }
}

/// Lines in text order, and what comes after them.
fn order_of_refusals(list: &mut List) {
    list.report("last line refused, no LF", &[10], "\n\nS 1");
    list.report("line counting with CRLF", &[10], "\r\n\r\n#\r\nS 1\r\n");
    list.report("13 before 12 by line", &[10], "P p 1\nP p\n");
    list.report("17 before 5 by line", &[10], "W s 0 w 0 4 >\nS\n");
    list.each("6 before 5 by line", "S 1 A\nS 1 A\nS\n");
    list.each("15 before 17 in one walk", "W s 0 w 0 4 >1>>\n");
    list.each("fields after the sixth", "L 1 + 1 + 0M x\nL 1 + 1 ? 0M x\n");
    let bad_path = looped("P p 9+,1+,1+\nS\n");
    list.normalize("5 before 18", &[0], &bad_path);
    list.spell("5 before 18", &[0], &bad_path);
    list.spell("5 before 21", &[1], &bad_path);
    list.spell("no path, no 18", &[0], LOOP);
    list.spell("21 before 18", &[1], &looped("P p 9+\n"));
}

/// 18 and 19: the first bad step, paths in text order.
fn bad_steps(list: &mut List) {
    for (label, lines) in [
        ("bad step before the fold", "P q 9+\nP p 1+,1+\n"),
        ("bad step in the later path", "P p 1+,1+\nP q 1+,9+\n"),
        ("bad run of an unknown", "P p 9+,9+,1+,1+\n"),
        ("18 and 19, 18 first", "S 2 *\nP p 1+,1+,9-,2+\n"),
        ("18 and 19, 19 first", "S 2 *\nP p 1+,1+,2-,9+\n"),
        ("18 in a walk", "W s 0 w 0 4 >1>1<99>2\n"),
        ("19 in a walk, prefix", "S 22 *\nW s 0 w 0 4 ab>1>1>22>9\n"),
        ("W first", "P p 1+,1+\nW s 0 w 0 4 >8\nP q 9+\n"),
        ("P first", "P p 1+,1+\nP q ,,9+\nW s 0 w 0 4 >8\n"),
        ("name in quotes", "P p 1+,1+,it's'+\n"),
        ("unknown name is the new number", "P p 1+,1+\nP q 2+\n"),
        ("segment after its path", "P p 1+,1+,2+\nS 2 *\n"),
        ("empty name in a link only", "S  G\nL  +  + 0M\nP p 1+,1+\n"),
        (
            "19 on a run of *",
            "S 2 *\nL 2 + 2 + 0M\nP p 2+,2+\nP q 1+,1+\n",
        ),
        ("18 with CRLF", "P p 1+,1+,22+\r\n"),
        ("19 at the end, no LF", "S 2 *\nP p 1+,1+,2+"),
    ] {
        let text = looped(lines);
        list.normalize(label, &[0, 1], &text);
        list.spell(label, &[0, 1], &text);
    }
    list.report("18 is not the report's", &[10], &looped("P p 9+,1+,1+\n"));
    list.report(
        "19 is not the report's",
        &[10],
        "S 1 *\nP p 1+,1+\nL 1 + 1 + *\n",
    );
}

/// Lines and their sorts.
fn reading(list: &mut List) {
    for (label, text) in [
        ("one LF", "\n"),
        ("two LFs", "\n\n"),
        ("one CRLF", "\r\n"),
        ("a comment", "#"),
        ("a header", "H"),
        ("another line", "x y"),
        ("a tab", " "),
        ("a segment with three fields", "S 1 "),
        ("no last LF", "S 1 AC\nL 1 + 1 + 0M\nP p 1+,1+,1+ *"),
        ("empty ID, empty sequence", "S  \n"),
        ("unknown self-link", "L 1 + 1 + 0M\n"),
        ("nothing but a path", "P p *\n"),
        ("nothing but a walk", "W s 0 w 0 4 *\n"),
    ] {
        list.normalize(label, &[0], text);
        list.report(label, &[10], text);
    }
    let folded = looped("P p 1+,1+\n");
    for (label, line) in [
        ("blank line", ""),
        ("comment of a segment", "#S 1 A"),
        ("header with fields", "H VN:Z:1.0 x"),
        ("H only by its whole field", "H1 x"),
        ("S only by its whole field", "S1 1"),
        ("small s", "s 1"),
        ("blank before S", "~S 1"),
        ("tab before S", " S 1"),
        ("L only by its whole field", "LL 1"),
        ("P only by its whole field", "P~ p"),
        ("W only by its whole field", "W~ p"),
        ("line of GFA 2", "E * 1+ 1+ 0 1 0 1 *"),
        ("jump line", "J 1 + 1 + *"),
        ("segment with tags", "S 2 G LN:i:1 RC:i:4"),
        ("link with tags", "L 1 + 1 - 0M NM:i:0 x"),
        ("link of unknown ends", "L 8 - 9 - "),
        ("path with tags", "P q 1+ 0M TP:Z:x"),
        ("walk with tags", "W s 0 w 0 4 >1 TP:Z:x "),
    ] {
        list.normalize(label, &[0], &format!("{line}\n{folded}{line}x\n"));
    }
}

fn step_lists(list: &mut List) {
    for steps in [
        ",1+,,",
        "1",
        "+",
        "++",
        "*",
        "",
        ",",
        ",,",
        "**",
        "*+",
        "*-",
        "+-",
        "-+",
        "1+,",
        "1+,x",
        "x,1+",
        "1+~",
        "1*",
        "~+",
        "1+1+",
        "1++",
        "1+,1-,1+",
        "1-,++,*-,1+1-",
        "1>",
        "1+,2+",
    ] {
        let text = format!("S 1 acGN\nS + T\nS * G\nS 1+1 CC\nS 1+ AA\nS ~ C\nP p {steps}\n");
        list.spell(&format!("steps {steps}"), &[0], &text);
    }
    list.spell(
        "comma in a name",
        &[0, 1],
        "S a,b AC\nP p a,b+\nW s 0 w 0 4 >a,b\n",
    );
    list.spell("comma before a name", &[0], "S ,a A\nS a C\nP p ,a+ *\n");
    list.spell(
        "comma splits into steps",
        &[0],
        "S a+ A\nS b C\nP p a++,b+\n",
    );
}

fn walks(list: &mut List) {
    for walk in [
        "ab>c", "><", "abc", ">", "<", ">c>>c", "**", ">c<", ">c><", "*>c", ">c>", "<c", ">c<c",
        "*", "", ">*", "+>c", ">c+", ">c,c", "<*<c>*", "*<", ">d",
    ] {
        let text = format!("S c acGN\nS * G\nW s 0 w 0 4 {walk}\n");
        list.spell(&format!("walk {walk}"), &[0], &text);
    }
}

fn spelling(list: &mut List) {
    list.spell("acGN reversed", &[0], "S 1 acGN\nP p 1-\n");
    list.spell(
        "every letter, both ways",
        &[0, 1],
        "S 1 ABCDEFGHIJKLMNOPQRSTUVWXYZabcdefghijklmnopqrstuvwxyz*=.-+09\nP p 1-\nP q 1+,1-\n",
    );
    list.spell(
        "overlaps do not count",
        &[0],
        "S 1 AC\nS 2 CG\nL 1 + 2 + 1M\nP p 1+,2+ 1M\n",
    );
    let numbered = "S 1 AC\nP p 1+\nW s 0 w 0 4 <1\nP q *\nP p 9+\n";
    list.spell("paths by number", &[0, 1, 2, 3, 4, 10], numbered);
    list.spell("path before its segment", &[0], "P p 1+\nS 1 GATTACA\n");
    list.spell(
        "empty sequence",
        &[0, 1],
        &looped("S 3 \nP p 1+,1+,3-,3-,3+\n"),
    );
    list.spell("two stars are a sequence", &[0], "S 1 **\nP p 1+,1-\n");
    list.spell(
        "names by every byte",
        &[0],
        "S 1 A\nS 01 C\nS 1~ G\nP p 01+,1~+,1+\n",
    );
    list.spell("prefix of a name", &[0], "S 11 A\nP p 1+\n");
}

/// Rule 1: eligible segments, and looser caps.
fn eligible(list: &mut List) {
    for (label, text) in [
        ("sequence *", "S 1 *\nL 1 + 1 + 0M\nP p 1+,1+\n"),
        ("empty sequence", "S 1 \nL 1 + 1 + 0M\nP p 1+,1+\n"),
        ("no segment", "L 1 + 1 + 0M\nP p 1+,1+\n"),
        ("no link", "S 1 A\nP p 1+,1+\n"),
        ("link to another", "S 1 A\nS 2 C\nL 1 + 2 + 0M\nP p 1+,1+\n"),
        ("self-link + -", "S 1 A\nL 1 + 1 - 0M\nP p 1+,1+\n"),
        ("self-link - +", "S 1 A\nL 1 - 1 + 0M\nP p 1-,1-\n"),
        ("self-link - -", "S 1 A\nL 1 - 1 - 0M\nP p 1+,1+\n"),
        (
            "names 1 and 01 differ",
            "S 1 A\nS 01 C\nL 1 + 01 + 0M\nP p 1+,1+\n",
        ),
        ("two stars", "S 1 **\nL 1 + 1 + 0M\nP p 1+,1+\n"),
        (
            "link before its segment",
            "L 1 + 1 + 0M\nP p 1+,1+\nS 1 A\n",
        ),
    ] {
        list.normalize(label, &[0, 1, 2], text);
    }
    let caps = "S 1 ACG\nS 2 A\nL 1 + 1 + 0M\nL 2 - 2 + 0M\nP p 1+,1+,2-,2-\n";
    list.normalize("cap below, at, above", &[0, 1, 2, 3, 7], caps);
}

/// Rules 2 and 3: folded segments, and texts returned as they came.
fn folded(list: &mut List) {
    for (label, lines) in [
        ("no path", ""),
        ("one step", "P p 1+\n"),
        ("no run of two", "P p 1+,1-,1+,1-\n"),
        ("steps * and none", "P p *\nP q \nW s 0 w 0 4 *\n"),
        ("run across two paths", "P p 1+\nP q 1+\n"),
        ("run across an empty item", "P p 1+,,1+\n"),
        ("run broken by another", "S 2 G\nP p 1+,2+,1+\n"),
        ("run at the end", "S 2 G\nP p 2+,1+,1+\n"),
        ("run in the later path", "P p 1+\nP q 1-,1-\n"),
        ("unknown node between", "P p 1+,9+,1+\n"),
    ] {
        list.normalize(label, &[0], &looped(lines));
    }
    list.normalize(
        "folded and unfolded segments",
        &[0, 1],
        "S 1 AC\nS 2 G\nL 1 + 1 + *\nL 2 + 2 + *\nP p 1+,2+,2+,1+\n",
    );
    list.normalize(
        "returned with its CRLF and blanks",
        &[0],
        "\r\nS 1 A\r\n\n# x\r\nH\n",
    );
}

/// Rule 4: a run becomes one step on one segment per unit and length.
fn runs(list: &mut List) {
    for (label, lines) in [
        ("equal runs share a segment", "P p 1+,1+,1-,1+,1+\n"),
        ("lengths have their own", "P p 1+,1+,1-,1-,1-,1+,1+,1+,1+\n"),
        ("orientations share", "P p 1-,1-\nP q 1+,1+\n"),
        (
            "made in path order",
            "P q 1+,1+,1+\nW s 0 w 0 4 >1>1<1<1<1<1\nP p 1+,1+\n",
        ),
        (
            "a run of twelve",
            "P p 1+,1+,1+,1+,1+,1+,1+,1+,1+,1+,1+,1+\n",
        ),
        ("single steps stay", "P p 1-,1+,1+,1-\nP q 1+\n"),
        ("walk of one run", "W s 0 w 0 4 <1<1<1\n"),
        ("prefix of a walk is lost", "W s 0 w 0 4 ab>1>1\n"),
        (
            "two units",
            "S 2 GT\nL 2 + 2 - 0M\nP p 1+,1+,2+,2+,1-,1-,2-,2-,2-\n",
        ),
        ("unfolded run stays", "S 2 GT\nP p 1+,1+,2+,2+,2+\n"),
    ] {
        list.each(label, &looped(lines));
    }
    list.normalize(
        "sequence with odd bytes",
        &[0],
        "S 1 a*=~N\nL 1 + 1 + 0M\nP p 1-,1-,1-\n",
    );
}

/// Rule 5: new IDs.
fn new_ids(list: &mut List) {
    let folding = |segments: &str, id: &str, steps: &str| {
        format!("{segments}L {id} + {id} + 0M\nP p {steps}\n")
    };
    for (label, segments, id) in [
        ("1 and 007", "S 1 A\nS 007 C\n", "1"),
        ("+5 alone", "S +5 A\n", "+5"),
        ("0 alone", "S 0 A\n", "0"),
        ("next has one digit more", "S 9 A\n", "9"),
        ("99 and 100", "S 99 A\nS 100 C\n", "99"),
        (
            "largest ID 2^64-3",
            "S 18446744073709551613 A\n",
            "18446744073709551613",
        ),
        (
            "largest ID 2^64-2",
            "S 18446744073709551614 A\n",
            "18446744073709551614",
        ),
        (
            "largest ID 2^64-1",
            "S 18446744073709551615 A\n",
            "18446744073709551615",
        ),
        (
            "ID 2^64",
            "S 18446744073709551616 A\n",
            "18446744073709551616",
        ),
        (
            "+ and zeros and 2^64-3",
            "S 1 A\nS +00018446744073709551613 C\n",
            "1",
        ),
        (
            "+ and zeros and 2^64-2",
            "S 1 A\nS +00018446744073709551614 C\n",
            "1",
        ),
        ("zeros alone", "S 000 A\n", "000"),
        ("+ alone", "S 1 A\nS + C\n", "1"),
        ("++1", "S 1 A\nS ++1 C\n", "1"),
        ("-1", "S 1 A\nS -1 C\n", "1"),
        ("1-", "S 1 A\nS 1- C\n", "1"),
        ("blank before 1", "S 1 A\nS ~1 C\n", "1"),
        ("empty ID", "S 1 A\nS  C\n", "1"),
        ("hexadecimal", "S 1 A\nS f C\n", "1"),
        ("every kept byte", "S Az09_.:# A\n", "Az09_.:#"),
        (
            "bytes made _",
            "S a!$%&'()*/;<=>?@[\\]^`{|}b A\n",
            "a!$%&'()*/;<=>?@[\\]^`{|}b",
        ),
        ("name ends in signs", "S a+-+ A\n", "a+-+"),
        ("name of signs only", "S +- A\n", "+-"),
        ("taken", "S a A\nS a_selfloop_run2 C\n", "a"),
        (
            "taken twice",
            "S a A\nS a_selfloop_run2 C\nS a_selfloop_run2_1 C\n",
            "a",
        ),
        (
            "gap in the suffixes",
            "S a A\nS a_selfloop_run2 C\nS a_selfloop_run2_2 C\n",
            "a",
        ),
    ] {
        let text = folding(segments, id, &format!("{id}+,{id}+"));
        list.normalize(label, &[0], &text);
    }
    list.normalize(
        "two new numbers",
        &[0],
        &folding("S 9 A\n", "9", "9+,9+,9-,9-,9-"),
    );
    list.normalize(
        "numbers used up",
        &[0],
        &folding(
            "S 1 AC\nS 18446744073709551613 G\n",
            "1",
            "1+,1+,1-,1-,1-,1+,1+,1+,1+",
        ),
    );
    list.normalize(
        "numbers used up at once",
        &[0],
        &folding(
            "S 1 AC\nS 18446744073709551614 G\n",
            "1",
            "1+,1+,1-,1-,1-,1+,1+,1+,1+ *",
        ),
    );
    list.normalize(
        "names of a+ and a- clash",
        &[0],
        "S a+ A\nS a- C\nL a+ + a+ + 0M\nL a- + a- + 0M\nP p a++,a++,a-+,a-+ *\n",
    );
    list.normalize(
        "names taken by other runs",
        &[0],
        "S a+ A\nS a- C\nS a__selfloop_run3 G\nL a+ + a+ + *\nL a- + a- + *\n\
         P p a-+,a-+,a-+\nP q a++,a++,a++,a+-,a+-\n",
    );
    list.normalize(
        "a new ID folded again by name",
        &[0],
        "S a_selfloop_run2 AA\nS a A\nL a + a + *\nL a_selfloop_run2 + a_selfloop_run2 + *\n\
         P p a+,a+,a_selfloop_run2+,a_selfloop_run2+\n",
    );
}

/// Rule 6: links removed, kept and added.
fn links(list: &mut List) {
    list.normalize(
        "link of the new number kept",
        &[0],
        "S 1 A\nL 1 + 1 + 0M\nL 2 + 2 - 9M\nL 2 + 2 + 9M\nP p 1+,1+,1-,1-\n",
    );
    for (label, lines) in [
        (
            "equal orientations removed",
            "L 1 - 1 - 5M\nL 1 + 1 + x\nP p 1+,1+\n",
        ),
        (
            "unequal orientations kept",
            "L 1 + 1 - *\nL 1 - 1 + *\nP p 1+,1+\n",
        ),
        (
            "kept link is not added",
            "S 2 G\nL 1 + 2 + 4M\nP p 1+,1+,1-,2+,1+,2+\n",
        ),
        (
            "mirror image is another link",
            "S 2 G\nL 2 - 1 - 0M\nP p 1+,1+,1-\nP q 1+,2+\n",
        ),
        (
            "added once",
            "S 2 G\nP p 1+,1+,2+\nP q 1+,1+,2+\nW s 0 w 0 4 >1>1>2\n",
        ),
        (
            "first-seen order",
            "S 2 G\nP p 2+,1+,1+,2+\nP q 1-,2+,1-,2+\n",
        ),
        (
            "unchanged paths get links",
            "S 2 G\nP q 2+,2+,2-\nP p 1+,1+\n",
        ),
        (
            "turn kept, not added",
            "P p 1+,1+\nP q 1-,1+\nL 1 - 1 + *\n",
        ),
        (
            "self-link on an unfolded one kept",
            "S 2 G\nL 2 + 2 + 0M\nP p 1+,1+,2+\n",
        ),
        (
            "links of unknown nodes kept",
            "L 7 + 8 - 0M\nL 7 - 7 - 0M\nP p 1+,1+\n",
        ),
        (
            "equal links kept twice",
            "S 2 G\nL 1 + 2 + 0M\nL 1 + 2 + 0M\nP p 1+,1+,2+\n",
        ),
    ] {
        list.normalize(label, &[0], &looped(lines));
        list.report(label, &[10], &looped(lines));
    }
}

/// Rule 7: the order of lines, and paths as they came.
fn writing(list: &mut List) {
    for (label, text) in [
        (
            "every sort of line",
            "x 1\nP p 1+,1+ * TP:Z:t\n# c\nL 1 + 1 - 0M\nL 1 + 1 + 0M\n\nS 1 A LN:i:1\nH VN:Z:1.0\ny\nS 2 C\nW s 0 w 0 4 >1>1>2 t\n#\n",
        ),
        ("three fields", "S 1 A\nL 1 + 1 + 0M\nP p 1+,1+\n"),
        ("empty overlaps", "S 1 A\nL 1 + 1 + 0M\nP p 1+,1+ \n"),
        ("overlaps as they came", "S 1 A\nL 1 + 1 + 0M\nP p 1+,1+,1- 0M,1M\n"),
        ("empty tags", "S 1 A\nL 1 + 1 + 0M\nP p 1+,1+ *  \n"),
        ("empty path name", "S 1 A\nL 1 + 1 + 0M\nP  1+,1+\n"),
        ("no steps", "S 1 A\nL 1 + 1 + 0M\nP p 1+,1+\nP q  x\nP r *\nP t ,,\nW s 0 w 0 4  z\nW s 0 w 0 4 *\n"),
        ("walk fields as they came", "S 1 A\nL 1 + 1 + 0M\nW     * >1>1  x\n"),
        ("last path without LF", "S 1 A\nL 1 + 1 + 0M\nP p 1+,1+"),
        ("CRLF rewritten", "H\r\n\r\n#\r\nS 1 A\r\nL 1 + 1 + 0M\r\nz\r\nP p 1+,1+ 0M\r\n"),
        (
            "numbers near the largest",
            "L 99999999999999999999 + 99999999999999999999 + \nS 18446744073709551615 t\nL 18446744073709551615 - 18446744073709551615 - *\r\n#\r\nH\r\nS 18446744073709551614 CTc\r\nW sample 1 chr1 0 9 <99999999999999999999>99999999999999999999\nP  99999999999999999999+,99999999999999999999+ *\r\nS 99999999999999999999 n LN:i:1\r\nW sample 1  0 9 <18446744073709551614  z\r\nL +18446744073709551612 - 18446744073709551612 + *\n",
        ),
        (
            "blanks in names",
            "P q a~b+,,a~b+   x\nW sample 1 chr1 0 9 <a~b<a~b<a~b<a~b>a~b>a~b>a~b t:i:1\nS 1 T\nS a~b NAnnAa LN:i:1\nL a~b + a~b - 0M\nL 1 + a~b + 0M t:i:1\nL a~b - a~b - * t:i:1\nW sample 1  0 9 >a~b  z\n",
        ),
    ] {
        list.each(label, text);
    }
}

/// The report's lines.
fn reports(list: &mut List) {
    let preview = |length: usize| {
        let sequence: String = "ACGTNacgtn*-".chars().cycle().take(length).collect();
        format!("S 1 {sequence}\nL 1 + 1 + 0M\n")
    };
    for length in [47, 48, 49, 96] {
        list.report(&format!("preview of {length}"), &[10], &preview(length));
    }
    let several = "S 1 A\nS 2 C\nS 3 G\nL 1 + 1 + *\nL 2 + 2 + *\nL 2 - 2 - *\nL 3 + 3 - *\n\
                   P p 3+,3+,1+,2+,1+\n";
    list.report("order of nodes", &[0, 1, 2, 3, 4, 10], several);
    for (label, text) in [
        ("buckets rise", "S 1 ACG\nS 2 A\nS 3 *\nS 4 \nS 5 G\nL 1 + 1 + *\nL 2 + 2 + *\nL 3 + 3 + *\nL 4 + 4 + *\nL 5 + 5 + *\nL 5 + 5 - *\nL 6 + 6 + *\n"),
        ("links in one direction", "S 1 A\nS 2 C\nL 1 + 2 + 0M\nL 2 + 1 + 0M\n"),
        ("orientations sorted", "S 1 A\nL 1 - 1 - *\nL 1 - 1 + *\nL 1 + 1 - *\nL 1 + 1 + *\nL 1 - 1 + *\n"),
        ("paths, visits, runs", "S 4 n\nL 4 + 4 - *\n#\nL 4 + 4 + 3M t:i:1\nL 4 + 4 -  t:i:1\nP p 4+,4+,4+,4+,,4+,4+,4+ *\nW sample 1  0 9 <4<4<4<4>4  z\nW sample 1  0 9 >4>4>4>4<4  z\n"),
        ("unknown node with odd names", "S ~ AnNNcn a b\nP p ~+,\u{1f}+,\u{1f}+,\u{1f}+,,\u{1f}+,\u{1f}+,\u{1f}+,\u{1f}+ * t:i:1\nS \u{1f} * \nS  AcA\nL 404 - 404 - 0M\n"),
        ("first path with the longest run", "S 1 A\nL 1 + 1 + *\nP a 1+,1+\nP b 1+,1+,1+\nP c 1-,1-,1-\n"),
        ("name of a walk", "S 1 A\nL 1 + 1 + *\nW sample 2 chr2H 0 4 <1<1\n"),
        ("empty name of a path", "S 1 A\nL 1 + 1 + *\nP  1+,1+\nP b 1+\n"),
        ("runs without self-link", "S 1 A\nS 2 C\nL 1 + 1 + *\nP p 2+,2+,2+,1+,1+\n"),
        ("pairs of two orientations", "S 1 A\nL 1 + 1 - *\nP p 1+,1-,1+,1-\n"),
        ("visits before links", "S 1 A\nS 2 C\nL 1 + 1 + *\nL 1 - 1 - *\nL 2 + 2 + *\nP p 2+\n"),
        ("equal pairs before visits", "S 1 A\nS 2 C\nL 1 + 1 + *\nL 2 + 2 + *\nP p 1+,2+,1+,2+,1+,2+,2+\nP q 1-\n"),
        ("links before number", "S 1 A\nS 2 C\nL 1 + 1 + *\nL 2 + 2 + *\nL 2 + 2 + *\n"),
        ("number last", "S 2 C\nS 1 A\nL 1 + 1 + *\nL 2 + 2 + *\n"),
        ("known before unknown", "L 9 + 9 + *\nS 1 A\nL 1 + 1 + *\n"),
        ("unknown with visits first", "L 9 + 9 + *\nS 1 A\nL 1 + 1 + *\nP p 9+\n"),
        ("empty name", "S  AC\nL  +  + *\nW s 0 w 0 4 *\n"),
        ("no node, one run", "S 1 AC\nP p 1+,1+\n"),
        ("eleven nodes", "L 0 + 0 + \nL 1 + 1 + \nL 1 + 1 + \nS 2 A\nL 2 + 2 + \nS 3 A\nL 3 + 3 + \nS 4 A\nL 4 + 4 + \nS 5 A\nL 5 + 5 + \nS 6 A\nL 6 + 6 + \nS 7 A\nL 7 + 7 + \nS 8 A\nL 8 + 8 + \nS 9 A\nL 9 + 9 + \nS 10 AC\nL 10 + 10 + \n"),
    ] {
        list.report(label, &[10], text);
    }
    list.report(
        "top above the nodes",
        &[11],
        "L 0 + 0 + \nS 2 A\nL 2 + 2 + \n",
    );
}

/// Unknown nodes that tie: the earlier first self-link goes first.
fn ties(list: &mut List) {
    let tied = "L b + b + 0M\nL a + a + 0M\nL c + c + 0M\n";
    list.report("tied unknown nodes", &[10, 0, 1, 2, usize::MAX], tied);
    list.report(
        "tied, not by other links",
        &[10],
        "L c + a + *\nL b + b - *\nL a - a - *\n",
    );
    list.report(
        "tied by first self-links",
        &[10],
        "L b + b + *\nL a + a + *\nL a + a + *\nL b + b + *\nP p a+,b+\n",
    );
    list.report(
        "tied unknown nodes after a known one",
        &[10],
        "L y + y + *\nL x + x + *\nS 1 A\nL 1 + 1 + *\n",
    );
}

/// Random graphs, then damaged ones, that are short.
fn random(list: &mut List) {
    for kind in [Kind::Graphs, Kind::Damaged] {
        let cases = (0..)
            .map(|number| generate::case(kind, SEED, number))
            .filter(|(_, case)| case.text.len() <= LONGEST)
            .take(RANDOM);
        for (label, case) in cases {
            list.add(&label, case);
        }
    }
}

#[cfg(test)]
mod tests {
    use super::*;
    use std::collections::HashSet;

    #[test]
    fn labels_and_calls_are_distinct() {
        let cases = cases();
        let labels: HashSet<_> = cases
            .iter()
            .map(|(label, case)| (label, case.service.name()))
            .collect();
        assert_eq!(labels.len(), cases.len());
        let calls: HashSet<_> = cases.iter().map(|(_, case)| format!("{case:?}")).collect();
        assert_eq!(calls.len(), cases.len());
    }

    #[test]
    fn texts_are_short() {
        assert!(cases().iter().all(|(_, case)| case.text.len() <= LONGEST));
    }

    #[test]
    fn every_refusal_of_every_service() {
        let found: HashSet<_> = cases()
            .iter()
            .map(|(_, case)| (case.service, case.answer().number))
            .collect();
        for service in Service::ALL {
            for number in (2..=17).chain([0, 22]) {
                assert!(found.contains(&(service, number)), "{service:?} {number}");
            }
        }
        for number in [18, 19] {
            assert!(found.contains(&(Service::Normalize, number)));
            assert!(found.contains(&(Service::Spell, number)));
        }
        assert!(found.contains(&(Service::Spell, 21)));
    }
}
