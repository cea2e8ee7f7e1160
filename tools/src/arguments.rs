//! The command line.

use crate::files::{self, STANDARD};
use crate::task::Task;
use crate::text::{Fault, Piece};
use crate::verbs::{self, Verb, FLAGS};
use std::collections::{BTreeMap, VecDeque};

/// What the tool is called for.
#[derive(Clone, Debug, PartialEq, Eq)]
pub enum Asked {
    /// Help or the version: this text.
    Text(String),
    Work(Call),
}

/// A task, and names of files; `-` is the standard input or output.
#[derive(Clone, Debug, PartialEq, Eq)]
pub struct Call {
    pub task: Task,
    pub inputs: Vec<String>,
    /// Behind `-o`.
    pub output: Option<String>,
    /// Behind `-m`.
    pub moves: Option<String>,
}

/// What the arguments ask for, or what is wrong with them, and then the usage.
pub fn parse(arguments: &[String]) -> Result<Asked, String> {
    let first = arguments.first().map_or("", String::as_str);
    if first == "--version" {
        return Ok(Asked::Text(format!("firrozka {}\n", crate::version())));
    }
    let verb = Verb::named(first);
    let is_help = |argument: &String| argument == "--help" || argument == "-h";
    if arguments.iter().any(is_help) {
        return Ok(Asked::Text(verb.map_or_else(verbs::help, Verb::help)));
    }
    let (what, usage) = match verb {
        Some(verb) => match call(verb, &arguments[1..]) {
            Ok(call) => return Ok(Asked::Work(call)),
            Err(what) => (format!("{}: {what}", verb.name), verb.usage()),
        },
        None if first.is_empty() => (String::from("a verb is missing"), verbs::usage()),
        None => (format!("there is no verb '{first}'"), verbs::usage()),
    };
    Err(format!("firrozka: {what}\nusage:\n{usage}"))
}

/// The call of a verb, or what is wrong with it.
fn call(verb: &Verb, arguments: &[String]) -> Result<Call, String> {
    let mut given = Given::of(verb, arguments)?;
    let task = (verb.task)(&mut given)?;
    let inputs = given.inputs(verb)?;
    let (output, moves) = (given.options.remove("-o"), given.options.remove("-m"));
    let call = Call {
        task,
        inputs,
        output,
        moves,
    };
    call.check_files()?;
    Ok(call)
}

/// Options and plain arguments, as they stand.
pub struct Given {
    options: BTreeMap<&'static str, String>,
    plain: VecDeque<String>,
}

impl Given {
    fn of(verb: &Verb, arguments: &[String]) -> Result<Given, String> {
        let (mut options, mut plain) = (BTreeMap::new(), VecDeque::new());
        let mut arguments = arguments.iter();
        while let Some(argument) = arguments.next() {
            if argument == STANDARD || !argument.starts_with('-') {
                plain.push_back(argument.clone());
                continue;
            }
            let option = verb.option(argument)?;
            let value = match FLAGS.contains(&option) {
                true => String::new(),
                false => behind(option, arguments.next())?,
            };
            if options.insert(option, value).is_some() {
                return Err(format!("{option} stands twice"));
            }
        }
        Ok(Given { options, plain })
    }

    /// Whether the option is given.
    pub fn has(&self, option: &str) -> bool {
        self.options.contains_key(option)
    }

    /// What stands behind an option, read as in a text.
    pub fn value<'a>(
        &'a self,
        option: &str,
        name: &str,
        read: fn(Piece<'a>) -> Result<u32, Fault>,
    ) -> Result<u32, String> {
        let text = self.options.get(option);
        let text = text.ok_or_else(|| format!("{option} {name} is missing"))?;
        let value = read(Piece::first(text));
        value.map_err(|fault| format!("{option}: {}", fault.what))
    }

    /// The next plain argument, one of these words.
    pub fn word(&mut self, all: &str) -> Result<String, String> {
        let word = self.plain.pop_front();
        word.ok_or_else(|| format!("{all} is missing"))
    }

    /// The files to read: the plain arguments that are left.
    fn inputs(&self, verb: &Verb) -> Result<Vec<String>, String> {
        let mut inputs: Vec<String> = self.plain.iter().cloned().collect();
        if let Some(over) = inputs.get(verb.files.len()) {
            return Err(format!("'{over}' is one file too many"));
        }
        if inputs.iter().any(String::is_empty) {
            return Err(String::from("the name of a file is empty"));
        }
        let mut missing = verb.files[inputs.len()..].iter();
        if let Some(name) = missing.find(|name| !name.starts_with('[')) {
            return Err(format!("{name} is missing"));
        }
        if inputs.is_empty() {
            inputs.push(String::from(STANDARD));
        }
        Ok(inputs)
    }
}

/// The value of an option: what stands behind it, if that is no other option.
fn behind(option: &str, next: Option<&String>) -> Result<String, String> {
    let is_option = |next: &str| next.starts_with('-') && next.contains(char::is_alphabetic);
    match next.map(String::as_str) {
        None | Some("") => Err(format!("nothing stands behind {option}")),
        Some(next) if is_option(next) => Err(format!("behind {option} stands {next}")),
        Some(next) => Ok(String::from(next)),
    }
}

impl Call {
    /// Whether each file has one use.
    fn check_files(&self) -> Result<(), String> {
        let standard = |name: &&String| *name == STANDARD;
        if self.inputs.iter().filter(standard).count() > 1 {
            return Err(String::from("only one input can be the standard input"));
        }
        let outputs = [("-o", &self.output), ("-m", &self.moves)];
        for (option, output) in outputs {
            let output = match output {
                Some(output) => output,
                None => continue,
            };
            if self.task == Task::Plan && output == STANDARD {
                return Err(format!(
                    "{option} needs a file: the standard output has the lines"
                ));
            }
            let read = |input: &&String| *input != STANDARD && files::same(input, output);
            if let Some(input) = self.inputs.iter().find(read) {
                return Err(format!("{option} names '{input}', which is read"));
            }
        }
        match (&self.output, &self.moves) {
            (Some(output), Some(moves)) if files::same(output, moves) => {
                Err(format!("-o and -m both name '{output}'"))
            }
            _ => Ok(()),
        }
    }
}
