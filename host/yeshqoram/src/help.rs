//! What `--help` and `--version` print.

pub const HELP: &str = "\
usage: yeshqoram report [--top N] [OPTIONS] [FILE]
       yeshqoram normalize [--cap N] [--stats] [--note] [OPTIONS] [FILE]
       yeshqoram spell PATH-NUMBER [OPTIONS] [FILE]
       yeshqoram spell --name NAME [OPTIONS] [FILE]
       yeshqoram paths [-o OUT] [FILE]

FILE is GFA text of at most 1,048,576 bytes; without it, or with -, standard input is read.

  report          totals and the nodes with a self-link, the most repeated first
    --top N         how many nodes (10)
  normalize       the text with runs of equal steps on self-looped segments folded
    --cap N         fold segments of at most N bases; 0, which is the default, is no cap
    --stats         the fourteen counters, on standard error
    --note          a release note on standard output in place of the text: what was folded, and for each
                    path its steps and bases; with -o the text still goes to that file
  spell           the bases of a path; the first is number 0
    --name NAME     the path by its name: the second field of a P line, the fourth of a W line
  paths           a line for each path: its number, name, steps, and bases (unknown where they are not known)

  -o, --output OUT  write to OUT, or with - to standard output. A file is replaced whole or left as it was, and a
                    write-protected one is left; a symbolic link stays. A device, a pipe, and a file that standard
                    output or error already goes to are written to
  --room BYTES      the longest answer to make room for (1073741824); a longer one is refused as 22
  --help, --version

The value of an option may be joined to it: --cap=3.

Exit status: 0; 1 if the text or the path is refused; 2 if the command is wrong, a file cannot be read or written, or
memory is short; 141, in silence, if the reader of standard output leaves before the end.
";

pub const VERSION: &str = concat!("yeshqoram ", env!("CARGO_PKG_VERSION"), "\n");
