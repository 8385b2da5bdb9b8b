//! The words of the command line.

use crate::calls::MOST_WALK;
use crate::dates::{Date, Step};
use crate::failure::{failure, Failure, USAGE};
use crate::files::{is_standard, name_of};
use crate::naming::NamingOrder;
use crate::{completion, help};
use std::ffi::{OsStr, OsString};
use std::time::Duration;

/// The walk number of a front's searches where none is given: seconds each at most.
const FRONT_WALK: u64 = 100_000_000;

/// How many calls a front may take for what raising every fee does not find, where no number is given.
const FRONT_CALLS: u64 = 100;

/// The walk number of a hall's search where none is given: some seconds.
const HALL_WALK: u64 = 100_000_000;

/// The options that may be given more than once.
const MANY: [&str; 4] = ["--log", "--left", "--price", "--close"];

/// A job and a plan of it.
pub struct Pair {
    pub job: OsString,
    pub plan: OsString,
}

/// `plan`: the job, where its plan goes, the walk number if one is given, and how the walks are made. Many jobs with a folder for their plans, how many
/// are planned at a time, and where their summary goes.
pub struct PlanOrder {
    pub job: OsString,
    pub jobs: Vec<OsString>,
    pub into: Option<OsString>,
    pub at_once: u64,
    pub summary: Option<OsString>,
    pub output: Option<OsString>,
    pub walk: Option<u64>,
    pub limit: Option<Duration>,
    pub count_nodes: bool,
    pub once: bool,
    pub quiet: bool,
    pub json: bool,
}

/// `judge`: a plan, and whether every part that fails is named.
pub struct JudgeOrder {
    pub pair: Pair,
    pub verbose: bool,
    pub json: bool,
    pub naming: NamingOrder,
}

/// `latest`: a job, the stops by a plan or by their steps, and where the plan goes, if anywhere.
pub struct LatestOrder {
    pub job: OsString,
    pub plan: Option<OsString>,
    pub stops: Option<Vec<u64>>,
    pub output: Option<OsString>,
    pub json: bool,
    pub naming: NamingOrder,
}

/// `carry`: a job, the work logs in their order, the plan that was followed if one is given, and where the job that is left and its plan go, if anywhere.
pub struct CarryOrder {
    pub job: OsString,
    pub logs: Vec<OsString>,
    pub planned: Option<OsString>,
    pub plan: Option<OsString>,
    pub output: Option<OsString>,
    pub json: bool,
    pub naming: NamingOrder,
}

/// How a list is written.
#[derive(Debug, Clone, Copy, PartialEq, Eq)]
pub enum Form {
    Text,
    Csv,
    Json,
}

/// `list`: a plan, in one of the forms, by periods of this many steps or not.
pub struct ListOrder {
    pub pair: Pair,
    pub form: Form,
    pub every: Option<u64>,
    pub naming: NamingOrder,
}

/// `draw`: a plan and the picture's file; with work logs the plan is of the job that they leave.
pub struct DrawOrder {
    pub pair: Pair,
    pub logs: Vec<OsString>,
    pub output: OsString,
    pub naming: NamingOrder,
}

/// `compare`: two plans, of one job or each of its own.
pub struct CompareOrder {
    pub pairs: [Pair; 2],
    pub json: bool,
    pub naming: NamingOrder,
}

/// `count`: a job.
pub struct CountOrder {
    pub job: OsString,
    pub json: bool,
}

/// `worth`: a job.
pub struct WorthOrder {
    pub job: OsString,
    pub json: bool,
    pub naming: NamingOrder,
}

/// Another amount in place of one: just this, so much more, so many percent more.
#[derive(Debug, Clone, Copy, PartialEq, Eq)]
pub enum Amount {
    Just(u64),
    More(i64),
    Percent(i64),
}

/// `whatif`: a job, the changes to it, a plan of before if one is given, and where the new plan and the changed job go, if anywhere.
pub struct WhatifOrder {
    pub job: OsString,
    pub plan: Option<OsString>,
    pub fee: Option<Amount>,
    /// Parts with what would be left of the one that is in.
    pub lefts: Vec<(u64, u64)>,
    /// Parts with their prices.
    pub prices: Vec<(u64, Amount)>,
    /// Steps from the first to the last.
    pub closed: Vec<(u64, u64)>,
    pub output: Option<OsString>,
    pub save: Option<OsString>,
    pub json: bool,
    pub naming: NamingOrder,
}

/// `front`: a job, the walk number of each search and how many calls there are for what the first do not find, how long the search may take, whether
/// progress is shown, the number of stops whose plan is wanted, if one, and where that or the picture goes.
pub struct FrontOrder {
    pub job: OsString,
    pub walk: u64,
    pub calls: u64,
    pub limit: Option<Duration>,
    pub quiet: bool,
    pub take: Option<u64>,
    pub output: Option<OsString>,
    pub form: Form,
}

/// `join`: the lines' jobs, what a call of the crew costs, and where the hall's text goes.
pub struct JoinOrder {
    pub jobs: Vec<OsString>,
    pub call: u64,
    pub output: Option<OsString>,
    pub json: bool,
}

/// `hall`: a hall, the walk number, how long the search may take, whether progress is shown, and where its picture and its lines' plans go.
pub struct HallOrder {
    pub hall: OsString,
    pub walk: u64,
    pub limit: Option<Duration>,
    pub quiet: bool,
    pub output: Option<OsString>,
    pub into: Option<OsString>,
    pub json: bool,
    pub naming: NamingOrder,
}

/// `write`: a table, and where the job text goes.
pub struct WriteOrder {
    pub table: OsString,
    pub output: OsString,
}

/// What the words ask for.
pub enum Command {
    /// A text of the program's own, such as help.
    Print(String),
    Plan(PlanOrder),
    Judge(JudgeOrder),
    Latest(LatestOrder),
    Carry(CarryOrder),
    List(ListOrder),
    Draw(DrawOrder),
    Compare(CompareOrder),
    Count(CountOrder),
    Worth(WorthOrder),
    Whatif(WhatifOrder),
    Front(FrontOrder),
    Join(JoinOrder),
    Hall(HallOrder),
    Write(WriteOrder),
    Check(OsString),
}

impl Command {
    /// The command's name where its answers are asked for as JSON.
    pub fn json(&self) -> Option<&'static str> {
        match self {
            Command::Plan(order) if order.json => Some("plan"),
            Command::Judge(order) if order.json => Some("judge"),
            Command::Latest(order) if order.json => Some("latest"),
            Command::Carry(order) if order.json => Some("carry"),
            Command::List(order) if order.form == Form::Json => Some("list"),
            Command::Compare(order) if order.json => Some("compare"),
            Command::Count(order) if order.json => Some("count"),
            Command::Worth(order) if order.json => Some("worth"),
            Command::Whatif(order) if order.json => Some("whatif"),
            Command::Join(order) if order.json => Some("join"),
            Command::Hall(order) if order.json => Some("hall"),
            Command::Front(order) if order.form == Form::Json => Some("front"),
            _ => None,
        }
    }
}

/// The options of all commands together, as far as they were given, and the files.
#[derive(Default)]
struct Given {
    files: Vec<OsString>,
    output: Option<OsString>,
    every: Option<u64>,
    walk: Option<u64>,
    limit: Option<Duration>,
    from: Option<Date>,
    step: Option<Step>,
    names: Option<OsString>,
    stops: Option<Vec<u64>>,
    after: Option<u64>,
    take: Option<u64>,
    calls: Option<u64>,
    call: Option<u64>,
    logs: Vec<OsString>,
    planned: Option<OsString>,
    plan: Option<OsString>,
    save: Option<OsString>,
    into: Option<OsString>,
    at_once: Option<u64>,
    summary: Option<OsString>,
    fee: Option<Amount>,
    lefts: Vec<(u64, u64)>,
    prices: Vec<(u64, Amount)>,
    closed: Vec<(u64, u64)>,
    csv: bool,
    json: bool,
    count_nodes: bool,
    once: bool,
    quiet: bool,
    verbose: bool,
    help: bool,
}

/// Reads the words.
pub fn read(words: &[OsString]) -> Result<Command, Failure> {
    let Some((first, rest)) = words.split_first() else {
        return Err(Failure { status: USAGE, message: help::usage(), fault: None });
    };
    let name = first.to_str().unwrap_or("");
    match name {
        "--help" | "-h" => return Ok(Command::Print(help::all())),
        "--version" | "-V" => return Ok(Command::Print(format!("juzvarola {}\n", env!("CARGO_PKG_VERSION")))),
        "help" => return asked_help(rest),
        _ => {}
    }
    let Some(page) = help::page(name) else {
        return Err(unknown("command", first, help::PAGES.iter().map(|page| page.name)));
    };
    let given = gather(page, rest)?;
    if given.help {
        return Ok(Command::Print(page.text()));
    }
    given.count_files(page)?;
    command(page, given)
}

/// `help`, and `help COMMAND`.
fn asked_help(rest: &[OsString]) -> Result<Command, Failure> {
    let Some(word) = rest.first() else {
        return Ok(Command::Print(help::all()));
    };
    match help::page(word.to_str().unwrap_or("")) {
        Some(page) => Ok(Command::Print(page.text())),
        None => Err(unknown("command", word, help::PAGES.iter().map(|page| page.name))),
    }
}

/// The command with its files, whose number is right.
fn command(page: &help::Page, mut given: Given) -> Result<Command, Failure> {
    let (naming, form) = (given.naming()?, given.form()?);
    let Given { every, json, verbose, .. } = given;
    Ok(match page.name {
        "plan" => Command::Plan(given.plan()),
        "judge" => Command::Judge(JudgeOrder { pair: given.pair(), verbose, json, naming }),
        "latest" => Command::Latest(given.latest(naming)),
        "carry" => Command::Carry(given.carry(naming)),
        "list" => Command::List(ListOrder { pair: given.pair(), form, every, naming }),
        "draw" => Command::Draw(given.draw(page, naming)?),
        "compare" => Command::Compare(given.compare(naming)),
        "worth" => Command::Worth(WorthOrder { job: given.next(), json, naming }),
        "whatif" => Command::Whatif(given.whatif(naming)),
        "front" => Command::Front(given.front(form)),
        "join" => Command::Join(given.join(page)?),
        "hall" => Command::Hall(given.hall(naming)),
        "write" => Command::Write(WriteOrder { table: given.next(), output: given.output.unwrap_or_else(|| "-".into()) }),
        "check" => Command::Check(given.next()),
        "completion" => Command::Print(completion::bash()),
        _ => Command::Count(CountOrder { job: given.next(), json }),
    })
}

impl Given {
    /// How steps and parts are to be called.
    fn naming(&self) -> Result<NamingOrder, Failure> {
        if self.step.is_some() && self.from.is_none() {
            return Err(failure(USAGE, "--step says how long a step is, and needs --from DATE, the first step's"));
        }
        if self.names.as_ref().is_some_and(|names| is_standard(names)) && self.files.iter().any(|file| is_standard(file)) {
            return Err(failure(USAGE, "standard input (-) can be read for one file only"));
        }
        Ok(NamingOrder { from: self.from, step: self.step.unwrap_or_default(), names: self.names.clone(), after: self.after.unwrap_or(0) })
    }

    /// Refuses files too many or too few, and standard input for more than one.
    fn count_files(&self, page: &help::Page) -> Result<(), Failure> {
        let count = self.files.len();
        // The stops stand in the place of the last file.
        let wanted = page.files.len() - usize::from(self.stops.is_some());
        let fits = match page.name {
            // The plan of before may be left out.
            "whatif" if count == 1 => true,
            // With a folder for their plans there may be many jobs.
            "plan" if self.into.is_some() => count > 0,
            // Logs or lines one after the other.
            "carry" | "join" => count >= wanted,
            // Plans each with a job of its own.
            "compare" if count == 4 => true,
            _ => count == wanted,
        };
        if self.into.is_none() && (self.at_once.is_some() || self.summary.is_some()) {
            return Err(failure(USAGE, "-j and --summary are for many jobs, and need --into FOLDER"));
        }
        let files = match (page.name, wanted) {
            ("plan", _) if self.into.is_some() => "one file or more".to_string(),
            ("carry", _) => "2 files or more".to_string(),
            ("join", _) => "one file or more".to_string(),
            ("compare", _) => "3 files or 4".to_string(),
            ("whatif", _) => "one file or 2".to_string(),
            ("latest", 2) => "2 files, or one with --stops".to_string(),
            (_, 0) => "no file".to_string(),
            (_, 1) => "one file".to_string(),
            (_, more) => format!("{more} files"),
        };
        if !fits {
            return Err(failure(USAGE, format_args!("{} takes {files}, not {count}\nusage: {}", page.name, page.usage)));
        }
        let all = self.files.iter().chain(&self.logs).chain(&self.planned);
        match all.filter(|file| is_standard(file)).count() > 1 {
            true => Err(failure(USAGE, "standard input (-) can be read for one file only")),
            false => Ok(()),
        }
    }

    /// The next file.
    fn next(&mut self) -> OsString {
        if self.files.is_empty() {
            return OsString::default();
        }
        self.files.remove(0)
    }

    /// The next two files.
    fn pair(&mut self) -> Pair {
        Pair { job: self.next(), plan: self.next() }
    }

    /// The plan or plans that are asked for.
    fn plan(self) -> PlanOrder {
        let Given { files: jobs, output, walk, limit, into, at_once, summary, json, count_nodes, once, quiet, .. } = self;
        let job = jobs.first().cloned().unwrap_or_default();
        PlanOrder { job, jobs, into, at_once: at_once.unwrap_or(1), summary, output, walk, limit, count_nodes, once, quiet, json }
    }

    /// The habit that is asked for.
    fn latest(mut self, naming: NamingOrder) -> LatestOrder {
        let job = self.next();
        let plan = self.stops.is_none().then(|| self.next());
        LatestOrder { job, plan, stops: self.stops, output: self.output, json: self.json, naming }
    }

    /// The job that is left.
    fn carry(mut self, naming: NamingOrder) -> CarryOrder {
        let job = self.next();
        let Given { files: logs, planned, plan, output, json, .. } = self;
        CarryOrder { job, logs, planned, plan, output, json, naming }
    }

    /// The picture that is asked for.
    fn draw(mut self, page: &help::Page, naming: NamingOrder) -> Result<DrawOrder, Failure> {
        let needs = format!("draw needs -o FILE, ending in .svg, .html or .ics\nusage: {}", page.usage);
        let pair = self.pair();
        let output = self.output.ok_or_else(|| failure(USAGE, needs))?;
        Ok(DrawOrder { pair, logs: self.logs, output, naming })
    }

    /// The comparison that is asked for: of one job, or each plan with its own.
    fn compare(mut self, naming: NamingOrder) -> CompareOrder {
        let two_jobs = self.files.len() == 4;
        let one = self.pair();
        let job = if two_jobs { self.next() } else { one.job.clone() };
        CompareOrder { pairs: [one, Pair { job, plan: self.next() }], json: self.json, naming }
    }

    /// The front that is asked for.
    fn front(mut self, form: Form) -> FrontOrder {
        let (job, walk, calls) = (self.next(), self.walk.unwrap_or(FRONT_WALK), self.calls.unwrap_or(FRONT_CALLS));
        FrontOrder { job, walk, calls, limit: self.limit, quiet: self.quiet, take: self.take, output: self.output, form }
    }

    /// The lines that are joined.
    fn join(self, page: &help::Page) -> Result<JoinOrder, Failure> {
        let needs = format!("join needs --call N, what a call of the crew costs\nusage: {}", page.usage);
        let call = self.call.ok_or_else(|| failure(USAGE, needs))?;
        Ok(JoinOrder { jobs: self.files, call, output: self.output, json: self.json })
    }

    /// The hall that is planned.
    fn hall(mut self, naming: NamingOrder) -> HallOrder {
        let (hall, walk) = (self.next(), self.walk.unwrap_or(HALL_WALK));
        let Given { limit, quiet, output, into, json, .. } = self;
        HallOrder { hall, walk, limit, quiet, output, into, json, naming }
    }

    /// The changed job that is asked for.
    fn whatif(mut self, naming: NamingOrder) -> WhatifOrder {
        let job = self.next();
        let Given { files, output, save, fee, lefts, prices, closed, json, .. } = self;
        WhatifOrder { job, plan: files.into_iter().next(), fee, lefts, prices, closed, output, save, json, naming }
    }

    /// The form of a list.
    fn form(&self) -> Result<Form, Failure> {
        match (self.csv, self.json) {
            (true, true) => Err(failure(USAGE, "--csv and --json are two forms of one list: give one of them")),
            (true, false) => Ok(Form::Csv),
            (false, true) => Ok(Form::Json),
            (false, false) => Ok(Form::Text),
        }
    }

    /// Takes an option with its value; false where it is none that has one.
    fn take(&mut self, name: &str, value: &mut dyn FnMut() -> Result<OsString, Failure>) -> Result<bool, Failure> {
        match name {
            "-o" | "--output" => self.output = Some(value()?),
            "--names" => self.names = Some(value()?),
            "--log" => self.logs.push(value()?),
            "--planned" => self.planned = Some(value()?),
            "--plan" => self.plan = Some(value()?),
            "--save" => self.save = Some(value()?),
            "--into" => self.into = Some(value()?),
            "--summary" => self.summary = Some(value()?),
            "--for" => self.limit = Some(read_as(name, "a time such as 60s, 5m or 1h", &value()?, duration)?),
            "--from" => self.from = Some(read_as(name, "a date such as 2027-01-04", &value()?, Date::read)?),
            "--step" => self.step = Some(read_as(name, "day, week or month", &value()?, Step::read)?),
            _ => return self.take_numbers(name, value),
        }
        Ok(true)
    }

    /// The same of an option whose value is a number or has some.
    fn take_numbers(&mut self, name: &str, value: &mut dyn FnMut() -> Result<OsString, Failure>) -> Result<bool, Failure> {
        match name {
            "--after" => self.after = Some(read_as(name, "a step of the whole, from 1 to 365", &value()?, |word| within(word, 1, 365))?),
            "--call" => self.call = Some(read_as(name, "an amount from 0 to 1000000", &value()?, |word| within(word, 0, 1_000_000))?),
            "--take" => self.take = Some(read_as(name, "a number of stops, from 0 to 64", &value()?, |word| within(word, 0, 64))?),
            "--calls" => {
                self.calls = Some(read_as(name, "a number of calls from 0 to 1000000", &value()?, |word| within(word, 0, 1_000_000))?)
            }
            "-j" | "--jobs" => {
                self.at_once = Some(read_as(name, "how many at a time, from 1 to 256", &value()?, |word| within(word, 1, 256))?)
            }
            "--fee" => self.fee = Some(read_as(name, "an amount such as 120, +10, -5 or +10%", &value()?, amount)?),
            "--left" => self.lefts.push(read_as(name, "a part and what is left, such as 3=2", &value()?, |word| {
                let (part, left) = word.split_once('=')?;
                Some((within(part, 1, 16)?, within(left, 0, 1000)?))
            })?),
            "--price" => self.prices.push(read_as(name, "a part and an amount, such as 5=+10%, 5=40 or 5=-3", &value()?, |word| {
                let (part, price) = word.split_once('=')?;
                Some((within(part, 1, 16)?, amount(price)?))
            })?),
            "--close" => self.closed.push(read_as(name, "a step or steps, such as 20 or 20-22", &value()?, |word| {
                let (first, last) = word.split_once('-').unwrap_or((word, word));
                Some((within(first, 1, 365)?, within(last, 1, 365)?)).filter(|(first, last)| first <= last)
            })?),
            "--stops" => {
                self.stops = Some(read_as(name, "steps from 1 to 365 with commas between them, such as 2,10,18", &value()?, steps)?)
            }
            "--every" => self.every = Some(read_as(name, "a number of steps from 1 to 365", &value()?, |word| within(word, 1, 365))?),
            "--walk" => {
                self.walk = Some(read_as(name, "a number of nodes from 0 to 4000000000", &value()?, |word| within(word, 0, MOST_WALK))?)
            }
            _ => return Ok(false),
        }
        Ok(true)
    }

    /// Takes an option without a value.
    fn set(&mut self, name: &str) {
        match name {
            "--csv" => self.csv = true,
            "--json" => self.json = true,
            "--count-nodes" => self.count_nodes = true,
            "--once" => self.once = true,
            "--quiet" | "-q" => self.quiet = true,
            "--verbose" | "-v" => self.verbose = true,
            _ => self.help = true,
        }
    }
}

/// Sorts a command's words into files and its options.
fn gather(page: &help::Page, words: &[OsString]) -> Result<Given, Failure> {
    let mut given = Given::default();
    let mut once: Vec<&str> = Vec::new();
    let mut rest = words.iter();
    while let Some(word) = rest.next() {
        let text = word.to_str().unwrap_or("");
        let option = word.as_encoded_bytes().starts_with(b"-") && !is_standard(word);
        if !option {
            given.files.push(word.clone());
            continue;
        }
        if text == "--" {
            given.files.extend(rest.cloned());
            break;
        }
        let (name, attached) = name_and_value(text);
        if !matches!(name, "--help" | "-h") && !page.options.contains(&name) {
            return Err(unknown("option", word, page.options.iter().copied().chain(["--help"])));
        }
        let mut value = || match attached {
            Some(value) => Ok(OsString::from(value)),
            None => rest.next().cloned().ok_or_else(|| failure(USAGE, format_args!("{name} needs a value\nusage: {}", page.usage))),
        };
        if given.take(name, &mut value)? {
            let long = match name {
                "-o" => "--output",
                "-j" => "--jobs",
                own => own,
            };
            if once.contains(&long) {
                return Err(failure(
                    USAGE,
                    format_args!("{long} is given twice, and one of them would count for nothing\nusage: {}", page.usage),
                ));
            }
            once.extend(Some(long).filter(|long| !MANY.contains(long)));
            continue;
        }
        if attached.is_some() {
            return Err(failure(USAGE, format_args!("{name} takes no value\nusage: {}", page.usage)));
        }
        given.set(name);
    }
    Ok(given)
}

/// An option's name and the value attached to it: `--every=7`, `-oFILE`.
fn name_and_value(word: &str) -> (&str, Option<&str>) {
    let attached = |letter: &'static str| word.strip_prefix(letter).filter(|value| !value.is_empty()).map(|value| (letter, Some(value)));
    match attached("-o").or_else(|| attached("-j")) {
        Some(own) => own,
        None => word.split_once('=').map_or((word, None), |(name, value)| (name, Some(value))),
    }
}

/// An option's value, or what it should have been.
fn read_as<T>(name: &str, wanted: &str, word: &OsStr, read: impl Fn(&str) -> Option<T>) -> Result<T, Failure> {
    let value = word.to_str().and_then(read);
    value.ok_or_else(|| failure(USAGE, format_args!("{name} takes {wanted}, not '{}'", name_of(word))))
}

/// A number within these limits.
fn within(word: &str, low: u64, high: u64) -> Option<u64> {
    let digits = !word.is_empty() && word.bytes().all(|byte| byte.is_ascii_digit());
    word.parse().ok().filter(|number| digits && (low..=high).contains(number))
}

/// An amount: a number, a number with its sign, or so many percent with their sign.
fn amount(word: &str) -> Option<Amount> {
    let (number, percent) = word.strip_suffix('%').map_or((word, false), |number| (number, true));
    let sign = match number.as_bytes().first()? {
        b'+' => 1,
        b'-' => -1,
        _ if percent => return None,
        _ => return within(number, 0, 1_000_000).map(Amount::Just),
    };
    let more = sign * within(&number[1..], 0, 1_000_000)? as i64;
    Some(if percent { Amount::Percent(more) } else { Amount::More(more) })
}

/// Steps with commas between them; none for nothing.
fn steps(word: &str) -> Option<Vec<u64>> {
    if word.is_empty() {
        return Some(Vec::new());
    }
    word.split(',').map(|step| within(step.trim(), 1, 365)).collect()
}

/// A time: seconds, minutes or hours, or seconds where nothing is said.
fn duration(word: &str) -> Option<Duration> {
    let (number, unit) = word.split_at(word.find(|letter: char| !letter.is_ascii_digit()).unwrap_or(word.len()));
    let seconds = match unit {
        "" | "s" => 1,
        "m" | "min" => 60,
        "h" => 3600,
        _ => return None,
    };
    within(number, 1, 1_000_000).map(|number| Duration::from_secs(number * seconds))
}

/// A word that is none of those known, with the one that it is likest.
fn unknown<'w>(kind: &str, word: &OsStr, known: impl Iterator<Item = &'w str>) -> Failure {
    let name = name_of(word);
    let likest = known.map(|other| (distance(&name, other), other)).min().filter(|(steps, other)| *steps * 2 <= other.len());
    let hint = likest.map_or_else(|| "juzvarola --help lists what there is".to_string(), |(_, other)| format!("did you mean '{other}'?"));
    failure(USAGE, format_args!("no {kind} '{name}'; {hint}"))
}

/// How many letters must be put in, taken out or replaced to make one word of the other.
fn distance(first: &str, second: &str) -> usize {
    let second: Vec<char> = second.chars().collect();
    let mut row: Vec<usize> = (0..=second.len()).collect();
    for (i, letter) in first.chars().enumerate() {
        let mut diagonal = row[0];
        row[0] = i + 1;
        for (j, other) in second.iter().enumerate() {
            let replaced = diagonal + usize::from(letter != *other);
            diagonal = row[j + 1];
            row[j + 1] = replaced.min(row[j] + 1).min(diagonal + 1);
        }
    }
    row[second.len()]
}
