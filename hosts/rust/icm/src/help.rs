// help.rs: what `icm --help` and `icm VERB --help` print. Each example is run by the tests, over the paper's example as
// t.icm and over the same with line 18 changed as bad.icm.

/// What can be asked for.
#[derive(Debug, PartialEq, Eq)]
pub struct Topic {
    pub name: &'static str,
    pub usage: &'static str,
    /// In a few words.
    short: &'static str,
    /// More, and an example.
    long: &'static str,
}

pub const TOPICS: [Topic; 4] = [
    Topic {
        name: "list",
        usage: "icm list [--json] [FILE]",
        short: "the listing of a file: models, steps, pin maps, sections, values",
        long: "\
The listing is what the proved code writes. Without FILE standard input is read.

example:
    $ icm list t.icm
    accepted 92
    models 1
    A MLM 6
    steps 6
    end 13 P
    section 14 S 2
    fork 15
    section 16 S 1
    endfork 17
    end 18 Q
    maps 2
    P 2
    Q 2
    sections 1
    S Lumped 2
    values 3
    S L 1 1 45e-10
    S L 1 2 8e-10
    S L 2 2 45e-10

The lines are: words used; model, type, steps; step, line, name, Mult or Len or Side; map, pins; section, method,
conductors; section, kind, row, column, value. A value 45e-10 is 45 times ten to the -10.
",
    },
    Topic {
        name: "entry",
        usage: "icm entry [--json] FILE SECTION KIND ROW COLUMN",
        short: "one number of a matrix, by its address",
        long: "\
SECTION is the name of a section, or '#1' for the first of the listing, '#2' for the second. KIND is R, L, G or C.
ROW and COLUMN count from 1, and may be exchanged. What the file does not write is zero, 0e0.

examples:
    $ icm entry t.icm S L 2 1
    8e-10
    $ icm entry --json t.icm '#1' L 2 1
    {\"file\":\"t.icm\",\"accepted\":true,\"section\":\"S\",\"kind\":\"L\",\"row\":2,\"column\":1,\"value\":\"8e-10\",\"word\":\"2156\",\"double\":8e-10}
",
    },
    Topic {
        name: "walk",
        usage: "icm walk [--json] FILE MODEL",
        short: "the steps of a model's path, forks indented",
        long: "\
MODEL is the name of a model, or '#1' for the first of the listing, '#2' for the second. The steps are printed as in
the listing, with their lines.

example:
    $ icm walk t.icm A
    end 13 P
    section 14 S 2
    fork 15
      section 16 S 1
    endfork 17
    end 18 Q
",
    },
    Topic {
        name: "check",
        usage: "icm check [--json] FILE..",
        short: "whether files are accepted, one line for each",
        long: "\
The exit status is the greatest of those of the files.

example:
    $ icm check t.icm bad.icm
    t.icm: accepted, 92 words, 1 model, 1 section
    bad.icm:18: refused 22 SIDE: two ends of a path on one map, with Side lacking at either or the same
",
    },
];

const ABOUT: &str = "\
icm: what stands in files of ICM 1.1 (IBIS Interconnect Modeling Specification), or which rule one breaks and where.

usage:
";

const MORE: &str = "
FILE is the name of a file, or - for standard input. Of a file that is refused the number, the name and the meaning of
the rule are told, with the line of the file that is to blame.

options:
    --json         for scripts: one object of JSON for each file, refused or not, on standard output
    --help, -h     this; icm VERB --help tells more of one, with an example
    --version, -V  the version
    --             behind it nothing is an option: for names that begin with -

exit status: 0 accepted; 1 the file or the question is refused; 2 wrong use, or a file that cannot be read.
Results go to standard output, and everything else to standard error.
";

pub fn topic(name: &str) -> Option<&'static Topic> {
    TOPICS.iter().find(|topic| topic.name == name)
}

impl Topic {
    pub fn text(&self) -> String {
        format!("icm {}: {}\n\nusage: {}\n\n{}", self.name, self.short, self.usage, self.long)
    }
}

pub fn overview() -> String {
    let width = TOPICS.iter().map(|topic| topic.usage.len()).max().unwrap_or(0);
    let lines = TOPICS.iter().map(|topic| format!("    {:width$}  {}\n", topic.usage, topic.short));
    format!("{ABOUT}{}{MORE}", lines.collect::<String>())
}

pub fn version() -> String {
    format!("icm {}\n", env!("CARGO_PKG_VERSION"))
}
