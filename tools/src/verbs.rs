//! The verbs of the command line, and the help on each.

use crate::arguments::Given;
use crate::record::Record;
use crate::table::Sizes;
use crate::task::Task;
use crate::text::Piece;
use crate::tolerance::of_percent;

/// What the tool can be called for.
pub struct Verb {
    pub name: &'static str,
    /// What stands behind the name in a call.
    pub form: &'static str,
    /// What it does, in a line.
    pub does: &'static str,
    /// The rest of its help.
    pub more: &'static str,
    /// The options that it takes.
    pub options: &'static [&'static str],
    /// The files that it reads; those in brackets may be left away.
    pub files: &'static [&'static str],
    /// What is asked for, of the options and the words before the files.
    pub task: fn(&mut Given) -> Result<Task, String>,
}

/// The options that have nothing behind them.
pub const FLAGS: [&str; 1] = ["--empty"];

/// All verbs.
pub static VERBS: [Verb; 13] = [
    Verb {
        name: "plan",
        form: "SHEET [OLD_PLAN] [-o PLAN] [-m MOVES]",
        does: "plans a step and prints it; saves its plan and its moves",
        more: "\
Prints the bench program's lines: kind and limit, a line for each node, a line
for each move. Kind 0: no tree is needed; 1: the old tree is kept; 2: a tree is
rebuilt. Where there is no old plan, leave OLD_PLAN away; an empty file is refused.
  -o PLAN    save the plan, which is the OLD_PLAN of the next step
  -m MOVES   save the moves, for 'firrozka carry'
Both are files: the standard output has the lines.
",
        options: &["-o", "-m"],
        files: &["SHEET", "[OLD_PLAN]"],
        task: |_| Ok(Task::Plan),
    },
    Verb {
        name: "weigh",
        form: "SHEET PLAN",
        does: "says whether a plan's tree holds on a sheet, and why",
        more: "\
Prints the limit, each node's least (the smallest number of its own particles
that it must keep when its helpers take all they can), and whether the tree
holds, or that no tree is needed.
",
        options: &[],
        files: &["SHEET", "PLAN"],
        task: |_| Ok(Task::Weigh),
    },
    Verb {
        name: "carry",
        form: "SHEET MOVES -o NEXT",
        does: "carries out moves and saves the sheet that follows",
        more: "\
  -o NEXT    the file for the sheet that follows
",
        options: &["-o"],
        files: &["SHEET", "MOVES"],
        task: |given| saved(Task::Carry, given, "NEXT"),
    },
    Verb {
        name: "join",
        form: "SHEET INLET -o JOINED",
        does: "adds the counts of two sheets cell by cell and saves the joined sheet",
        more: "\
SHEET and INLET are two sheets, such as the resident one and that of the particles
injected at the gas inlet. The number of nodes and the tolerance must be equal.
  -o JOINED  the file for the joined sheet
",
        options: &["-o"],
        files: &["SHEET", "INLET"],
        task: |given| saved(Task::Join, given, "JOINED"),
    },
    Verb {
        name: "traffic",
        form: "SHEET MOVES",
        does: "prints the traffic page of a step, for the shift desk",
        more: "\
SHEET and MOVES are those that 'firrozka carry' is given. A line of the page has a
node, how many particles it sends and how many it receives, of all subdomains and
to and from all nodes. The last line, ==, has the totals.
",
        options: &[],
        files: &["SHEET", "MOVES"],
        task: |_| Ok(Task::Traffic),
    },
    Verb {
        name: "archive",
        form: "SHEET -o ARCHIVE",
        does: "writes a sheet to an archive, which has 16,392 bytes whatever the sheet",
        more: "\
'firrozka restore' makes the same sheet of it again, and 'firrozka show archive'
shows it.
  -o ARCHIVE  the file for the archive
",
        options: &["-o"],
        files: &["SHEET"],
        task: |given| saved(Task::Archive, given, "ARCHIVE"),
    },
    Verb {
        name: "restore",
        form: "ARCHIVE -o SHEET",
        does: "saves the sheet that an archive holds",
        more: "\
The sheet is the one that was written to the archive, byte for byte.
  -o SHEET   the file for the sheet
",
        options: &["-o"],
        files: &["ARCHIVE"],
        task: |given| saved(Task::Restore, given, "SHEET"),
    },
    Verb {
        name: "groups",
        form: "PLAN",
        does: "prints the groups of a plan, for the message library",
        more: "\
An owner and its helpers are a group, if it has a helper. Under the number of nodes
stands a line for each group: its colour, its owner, and its members by rising
number, the owner among them. The colour is even or odd as the owner's distance
from the root is; no node is in two groups of one colour. Even groups come first,
and in each colour they stand by rising owner. In a plan of kind 0 no node helps,
and there is no group.
",
        options: &[],
        files: &["PLAN"],
        task: |_| Ok(Task::Groups),
    },
    Verb {
        name: "tally",
        form: "SHEET PLAN CALLS",
        does: "follows arrivals between steps, and says when a plan's tree gives way",
        more: "\
CALLS is text with a line for each call:
  add HOLDER SUBDOMAIN COUNT     so many particles of the subdomain arrive at HOLDER
  remove HOLDER SUBDOMAIN COUNT  so many of those that HOLDER has leave
The tally begins with the counts of SHEET; its limit stays that of SHEET. Prints
for the opening and for each call whether the tree of PLAN holds, or why the call
is refused; it then alters nothing, and the next is made. Then come limit and
total, and for each node the particles of its subdomain, whoever holds them, and
its least, as 'firrozka weigh' has it.
",
        options: &[],
        files: &["SHEET", "PLAN", "CALLS"],
        task: |_| Ok(Task::Tally),
    },
    Verb {
        name: "table",
        form: "-n N -t PERCENT [--empty] [-o SHEET] [TABLE]",
        does: "makes a sheet from a table of counts",
        more: "\
TABLE has a line for each count, holder,subdomain,count, in any order. The first
line may be these three names. A count of 0 is left out of the sheet.
  -n N        the number of nodes, 1 to 64
  -t PERCENT  the tolerance in percent, 0.1 to 99.9, such as 10 or 3.5
  --empty     a table without a count is meant, and makes a sheet without particles
  -o SHEET    the file for the sheet
",
        options: &["-n", "-t", "--empty", "-o"],
        files: &["[TABLE]"],
        task: |given| sizes(given).map(Task::Table),
    },
    Verb {
        name: "write",
        form: "sheet|plan|moves|any [-o RECORD] [TEXT]",
        does: "makes a record from the table that 'show' prints, or from words",
        more: "\
TEXT is what 'firrozka show' prints of a record: a head line, the names of the
columns, which may be left away, and a line for each entry:
  sheet      nodes N tolerance T percent    holder,subdomain,count
  plan       kind K limit L                 node,helps,share
  moves      nodes N                        subdomain,from,to,count
Or it is the record's words: numbers with blanks or new lines between them, in
which a sheet's tolerance counts tenths of a percent: 35 is 3.5 percent. A
record that the library refuses is not written. 'any' takes words and writes their
bytes, whatever they are. An archive is made of a sheet: 'firrozka archive'.
  -o RECORD  the file for the record
",
        options: &["-o"],
        files: &["[TEXT]"],
        task: |given| match given.word("sheet, plan, moves or any")?.as_str() {
            "any" => Ok(Task::Write(None)),
            name => {
                named(name, "sheet, plan, moves or any").map(|record| Task::Write(Some(record)))
            }
        },
    },
    Verb {
        name: "show",
        form: "sheet|plan|moves|archive [-o TEXT] [RECORD]",
        does: "shows a record as a table that 'write' takes",
        more: "\
An archive is shown as the table of its sheet, which 'firrozka write sheet' takes.
  -o TEXT    the file for the text
",
        options: &["-o"],
        files: &["[RECORD]"],
        task: |given| match given.word("sheet, plan, moves or archive")?.as_str() {
            "archive" => Ok(Task::ShowArchive),
            name => named(name, "sheet, plan, moves or archive").map(Task::Show),
        },
    },
    Verb {
        name: "words",
        form: "[-o TEXT] [RECORD]",
        does: "shows any bytes as words",
        more: "\
  -o TEXT    the file for the text
",
        options: &["-o"],
        files: &["[RECORD]"],
        task: |_| Ok(Task::Words),
    },
];

/// The task, if the call names the file for what it makes.
fn saved(task: Task, given: &Given, name: &str) -> Result<Task, String> {
    match given.has("-o") {
        true => Ok(task),
        false => Err(format!("-o {name} is missing")),
    }
}

fn named(name: &str, all: &str) -> Result<Record, String> {
    Record::named(name).ok_or_else(|| format!("'{name}' is none of {all}"))
}

/// N and t, if a sheet can have them.
fn sizes(given: &mut Given) -> Result<Sizes, String> {
    let n = given.value("-n", "N", Piece::number)?;
    let t = given.value("-t", "PERCENT", of_percent)?;
    let accepted = Record::Sheet.of_words(&[n, t, 0]);
    accepted.map_err(|refused| format!("-n {n}: {refused}"))?;
    let empty = given.has("--empty");
    Ok(Sizes { n, t, empty })
}

/// What holds for all verbs.
const FOR_ALL: &str = "\
The file - is the standard input, and behind -o the standard output. Where TABLE,
TEXT or RECORD is left away, the standard input is read, and without -o the
standard output is written.
Ends with 0 if all is well; with 1 if a file is missing, bad or refused, or cannot
be written; with 2 if the call is wrong.
";

impl Verb {
    /// The verb of this name.
    pub fn named(name: &str) -> Option<&'static Verb> {
        VERBS.iter().find(|verb| verb.name == name)
    }

    /// The option of this name.
    pub fn option(&self, name: &str) -> Result<&'static str, String> {
        let mut options = self.options.iter().copied();
        let option = options.find(|option| *option == name);
        option.ok_or(format!(
            "it has no option {name}; a file of this name is written ./{name}"
        ))
    }

    /// How it is called, in a line.
    pub fn usage(&self) -> String {
        format!("  firrozka {} {}\n", self.name, self.form)
    }

    /// How it is called, and what it does.
    fn summary(&self) -> String {
        format!("{}      {}\n", self.usage(), self.does)
    }

    /// All that is to say of it.
    pub fn help(&self) -> String {
        format!("{}\n{}\n{FOR_ALL}", self.summary(), self.more)
    }
}

/// How the tool is called.
pub fn usage() -> String {
    let lines = VERBS.iter().map(Verb::summary);
    lines.collect::<String>() + "  firrozka VERB --help\n  firrozka --version\n"
}

/// What is to say of the tool.
pub fn help() -> String {
    let about = "The load balance of a particle simulation, step by step, from files.";
    format!("{about}\n\n{}\n{FOR_ALL}", usage())
}
