//! What the program says of itself.

/// A command: its usage, what it does, its files and its options.
pub struct Page {
    pub name: &'static str,
    pub usage: &'static str,
    pub summary: &'static str,
    pub files: &'static [&'static str],
    pub options: &'static [&'static str],
    pub body: &'static str,
}

/// All commands, in the order in which they are listed.
pub const PAGES: &[Page] = &[
    Page {
        name: "plan",
        usage: "juzvarola plan JOB [-o PLAN] [--walk N] [--for TIME] [--count-nodes]\n       [--once] [--quiet] [--json]\n       juzvarola plan JOB.. --into FOLDER [-j N] [--summary FILE] [--walk N]\n       [--for TIME] [--count-nodes] [--once] [--quiet] [--json]",
        summary: "the cheapest plan that keeps every part's life",
        files: &["JOB"],
        options: &[
            "-o",
            "--output",
            "--walk",
            "--for",
            "--count-nodes",
            "--once",
            "--quiet",
            "-q",
            "--json",
            "--into",
            "-j",
            "--jobs",
            "--summary",
        ],
        body: "\
Writes the plan text to PLAN, or to standard output; what it costs, and whether
that is proved the least, is said on standard error. If the search is longer
than its walk number, the best plan so far is written and called such, with
what could still be saved; if there is none, no file is made. Prefer -o to >:
a shell makes an empty file first, which is the plan of doing nothing.

  -o, --output PLAN   where the plan goes; - is standard output
      --walk N        each walk has at most N nodes, 0 to 4000000000, which it
                      is without
      --for TIME      no longer than this: 60s, 5m, 1h
      --count-nodes   the papers' counted walk alone, and how many nodes it has
      --once          no growing walks: least time, but nothing is shown and
                      nothing is kept of a walk that is ended
  -q, --quiet         no progress, however long the walk
      --json          the answer as JSON on standard output; the plan text
                      too, to PLAN, where -o names one

The walks of the optimum are asked first; where they are longer than the walk
number, the counted walk goes as far, for a cheaper plan. Both are made with
growing walk numbers. Where that takes more than a second and standard error is
a terminal, the walk number and the best cost so far are shown. Ctrl-C, SIGTERM
and the end of --for write the best plan so far (status 3).

Many jobs, a line for each; a job at fault stops nobody, and the exit status is
the worst of all:

      --into FOLDER   each job's plan goes there under the job's name; a plan
                      that is there already and that the judge accepts is
                      left alone
  -j, --jobs N        so many at a time
      --summary FILE  a table of all, as CSV
",
    },
    Page {
        name: "judge",
        usage: "juzvarola judge JOB PLAN [--verbose] [--json] [--from DATE]\n       [--step day|week|month] [--names FILE] [--after N]",
        summary: "whether a plan keeps every life, and whether its cost is true",
        files: &["JOB", "PLAN"],
        options: &["--verbose", "-v", "--json", "--from", "--step", "--names", "--after"],
        body: "\
Says the verdict on standard output: which part fails, by when it was due and
how much too late its change comes; or the true cost and the difference.
An empty PLAN is the plan of doing nothing.

  -v, --verbose       every part that fails, not the first alone
      --json          the verdict as JSON
      --from DATE     dates beside the steps: step 1 begins on 2027-01-04, say
      --step LENGTH   how long a step is: day, week or month
      --names FILE    names of parts: rows of number, name and order number
      --after N       JOB is what is left after step N of a whole job
",
    },
    Page {
        name: "latest",
        usage:
            "juzvarola latest JOB (PLAN | --stops STEPS) [-o PLAN] [--json]\n       [--from DATE] [--step day|week|month] [--names FILE] [--after N]",
        summary: "each part changed as late as given stops allow, and why",
        files: &["JOB", "PLAN"],
        options: &["-o", "--output", "--stops", "--json", "--from", "--step", "--names", "--after"],
        body: "\
The foreman's habit. Of PLAN only the stops count; --stops names them in its
place. Says what the habit costs, whether other changes at these stops cost
less, what the cheapest plan costs, and why each change was made: by how much
the next stop would have been too late. If the stops can't keep some part, that
part is named (status 1).

      --stops STEPS   the stops, rising, with commas between them: 2,10,18
  -o, --output PLAN   where the plan goes; - is standard output, and the rest
                      is then said on standard error
      --json          the answer as JSON
      --from DATE     dates beside the steps: step 1 begins on 2027-01-04, say
      --step LENGTH   how long a step is: day, week or month
      --names FILE    names of parts: rows of number, name and order number
      --after N       JOB is what is left after step N of a whole job
",
    },
    Page {
        name: "carry",
        usage: "juzvarola carry JOB LOG.. [-o REST] [--planned PLAN] [--plan PLAN]\n       [--json] [--from DATE] [--step day|week|month] [--names FILE]\n       [--after N]",
        summary: "the job that is left after work logs",
        files: &["JOB", "LOG.."],
        options: &["-o", "--output", "--planned", "--plan", "--json", "--from", "--step", "--names", "--after"],
        body: "\
Writes the text of the job from the last log's step on to REST, or to standard
output: later openings and idle steps renumbered, each part's left the life not
yet used. What was done, what is left of each part's life (with ! where the
next opening is the last that serves) and what the rest costs is said on
standard error. Each log is one of the job that is left by those before it; one
log of all, with later steps shifted and the costs added, gives the same job.
A log is refused where a part had used more than its life or the cost is wrong
(status 1); then no file is made.

  -o, --output REST   where the job goes; - is standard output
      --planned PLAN  the plan that was followed: whether all was done as
                      planned, where not, and what its rest would cost now
      --plan PLAN     the plan of what is left goes here, found at once; its
                      steps are those of REST, and the job goes nowhere
                      without -o
      --json          the answer as JSON on standard output; the texts too,
                      where -o and --plan name files
      --from DATE     dates beside the steps: step 1 of JOB begins on
                      2027-01-04, say
      --step LENGTH   how long a step is: day, week or month
      --names FILE    names of parts: rows of number, name and order number
      --after N       JOB is what is left after step N of a whole job
",
    },
    Page {
        name: "list",
        usage: "juzvarola list JOB PLAN [--csv | --json] [--every N] [--from DATE]\n       [--step day|week|month] [--names FILE] [--after N]",
        summary: "what to buy and when, and when the line stops",
        files: &["JOB", "PLAN"],
        options: &["--csv", "--json", "--every", "--from", "--step", "--names", "--after"],
        body: "\
For the buyer: how many of each part, when, at which prices, by stop and by
period. For production: the stops with their fees and the running steps
between them. The plan is judged first, and the verdict stands on top, with
what could still be saved as far as walks of a fraction of a second tell.

      --every N       totals by periods of N steps too
      --csv           comma-separated values: one row for each change, stop,
                      period, part and sum, told apart by the column `record`
      --json          the lists as JSON
      --from DATE     dates beside the steps: step 1 begins on 2027-01-04, say
      --step LENGTH   how long a step is: day, week or month
      --names FILE    names of parts: rows of number, name and order number
      --after N       JOB is what is left after step N of a whole job
",
    },
    Page {
        name: "draw",
        usage: "juzvarola draw JOB PLAN -o FILE [--log LOG].. [--from DATE]\n       [--step day|week|month] [--names FILE] [--after N]",
        summary: "the plan as a calendar to hang on the wall",
        files: &["JOB", "PLAN"],
        options: &["-o", "--output", "--log", "--from", "--step", "--names", "--after"],
        body: "\
Draws a row for each part, its lives as bars that fill as the part wears, the
stops with their fees, openings not used, idle steps, parts that come out and
stay in use, and the costs. The plan is judged first, and the verdict stands
on top, with what could still be saved.

  -o, --output FILE   an SVG picture if FILE ends in .svg (or is - or a
                      device); a page with lists beneath if in .html or .htm;
                      the stops for a calendar program if in .ics
      --log LOG       a work log, or several in their order: PLAN is of the job
                      that they leave (juzvarola carry), and the picture has
                      what was done in grey before a line for today
      --from DATE     dates beside the steps: step 1 begins on 2027-01-04, say
                      (.ics needs it)
      --step LENGTH   how long a step is: day, week or month
      --names FILE    names of parts: rows of number, name and order number
      --after N       JOB is what is left after step N of a whole job, whose
                      steps stand beside its own
",
    },
    Page {
        name: "compare",
        usage: "juzvarola compare JOB PLAN [JOB] PLAN [--json] [--from DATE]\n       [--step day|week|month] [--names FILE] [--after N]",
        summary: "two plans side by side, and where they differ",
        files: &["JOB", "PLAN", "PLAN"],
        options: &["--json", "--from", "--step", "--names", "--after"],
        body: "\
Judges both plans, sets their costs side by side, says what each could still
save, and lists the steps at which one stops or changes a part and the other
does not. Where prices are from-to it says whether one plan is cheaper at every
price within the bands. With a job before each plan they are of two jobs, such
as two suppliers' prices.

      --json          the comparison as JSON
      --from DATE     dates beside the steps: step 1 begins on 2027-01-04, say
      --step LENGTH   how long a step is: day, week or month
      --names FILE    names of parts: rows of number, name and order number
      --after N       JOB is what is left after step N of a whole job
",
    },
    Page {
        name: "count",
        usage: "juzvarola count JOB [--json]",
        summary: "how long the walk of a job may become, without walking",
        files: &["JOB"],
        options: &["--json"],
        body: "\
Says the most nodes that the walk of the job can have, and about how many
seconds they take on this machine (found by a short walk). With a walk number
of that or more the planner always finishes. Jobs without holders only.

      --json          the count as JSON
",
    },
    Page {
        name: "worth",
        usage: "juzvarola worth JOB [--json] [--names FILE]",
        summary: "what a step of each part's life is worth",
        files: &["JOB"],
        options: &["--json", "--names"],
        body: "\
Says for each part by how much the least cost changes if its life were one
running step shorter, and if it were one longer; what is left of the one that
is in stays as it is. For the buyer who is offered a better seal. Where walks
of a fraction of a second do not prove a least cost, it is given from-to.

      --json          the answer as JSON
      --names FILE    names of parts: rows of number, name and order number
",
    },
    Page {
        name: "whatif",
        usage: "juzvarola whatif JOB [PLAN] [--fee AMOUNT] [--left PART=N]\n       [--price PART=AMOUNT] [--close STEPS] [-o PLAN] [--save JOB] [--json]\n       [--from DATE] [--step day|week|month] [--names FILE] [--after N]",
        summary: "the plan of a changed job, and what the old plan would cost",
        files: &["JOB", "PLAN"],
        options: &["--fee", "--left", "--price", "--close", "-o", "--output", "--save", "--json", "--from", "--step", "--names", "--after"],
        body: "\
Plans the job as it would be, says what that costs beside the job as it is, and
what PLAN would now cost, or why it would not do; without PLAN, the cheapest
plan of the job as it is. Changes may be given together, those of parts and of
steps several times.

      --fee AMOUNT           every opening's fee: 120, +10, -5, +10%
      --left PART=N          what is left of the part that is in
      --price PART=AMOUNT    all prices of a part: 5=40, 5=+10%, 5=-3
      --close STEPS          no stop at this step, or from one to another: 20-22
  -o, --output PLAN          where the new plan goes; - is standard output
      --save JOB             where the changed job goes
      --json                 the answer as JSON
      --from DATE            dates beside the steps
      --step LENGTH          how long a step is: day, week or month
      --names FILE           names of parts: rows of number, name and order
      --after N              JOB is what is left after step N of a whole job
",
    },
    Page {
        name: "front",
        usage: "juzvarola front JOB [-o PICTURE] [--take N [-o PLAN]] [--calls N]\n       [--walk N] [--for TIME] [--quiet] [--csv | --json]",
        summary: "the cheapest plan for each number of stops",
        files: &["JOB"],
        options: &["-o", "--output", "--take", "--calls", "--walk", "--for", "--quiet", "-q", "--csv", "--json"],
        body: "\
For who would rather stop less often, or pay less for parts: from the fewest
stops that keep the lives to the most that save something, what the cheapest
plan costs and what life it leaves in the parts. It is found by raising every
fee by a number and taking it off again, for one number after the other; a plan
found so is proved to be the cheapest with as many stops. For a number of stops
that is the cheapest at no fee the openings are cut into spans with so many
stops each, and fees are raised span by span: its plan is proved so, or has the
cost beside it that no plan with so many stops is below (7).

  -o, --output FILE   a picture (.svg); with --take the plan
      --take N        the plan with N stops is written, to standard output
                      without -o; if it is not proved, that is said
      --calls N       at most N calls of the library by spans (100 where it is
                      left out)
      --walk N        at most N nodes in each walk, 0 to 4000000000
                      (100000000 where it is left out); by spans a hundredth
      --for TIME      no longer than this: 60s, 5m, 1h
  -q, --quiet         no progress, however long the search
      --csv, --json   the table as comma-separated values, or as JSON

Where it takes more than a second and standard error is a terminal, the calls
and what is proved so far are shown. Ctrl-C, SIGTERM and the end of --for say
what was found (status 3).
",
    },
    Page {
        name: "join",
        usage: "juzvarola join JOB.. --call N [-o HALL] [--json]",
        summary: "the jobs of several lines as one hall's text",
        files: &["JOB.."],
        options: &["--call", "-o", "--output", "--json"],
        body: "\
Writes the text of a hall to HALL, or to standard output: up to four lines that
pay one crew, whose journey costs N for any step at which some line stops. The
lines have one horizon and the same idle steps, and together at most 16 parts
and 64 openings; a job that does not fit is named, with the key at which it
differs (14).

      --call N        what a call of the crew costs, 0 to 1000000
  -o, --output HALL   where the hall's text goes; - is standard output
      --json          the answer as JSON on standard output; the text too, to
                      HALL, where -o names one
",
    },
    Page {
        name: "hall",
        usage: "juzvarola hall HALL [-o PICTURE] [--into FOLDER] [--walk N] [--for TIME]\n       [--quiet] [--json] [--from DATE] [--step day|week|month] [--after N]",
        summary: "the cheapest plans of lines that pay one crew",
        files: &["HALL"],
        options: &["-o", "--output", "--into", "--walk", "--for", "--quiet", "-q", "--json", "--from", "--step", "--after"],
        body: "\
Plans all lines of a hall (juzvarola join) together: what they cost with one
call of the crew for each step at which some line stops, which parts each line
changes at each call, and what planning each line alone would cost with its
calls. If the walk has more nodes than its walk number, the best plans so far
are said and called such, with what could still be saved (7).

  -o, --output FILE   a picture (.svg): the calls, and each line's parts beneath
      --into FOLDER   each line's plan goes there, as line1.txt and so on
      --walk N        at most N nodes, 0 to 4000000000
                      (100000000 where it is left out)
      --for TIME      no longer than this: 60s, 5m, 1h
  -q, --quiet         no progress, however long the walk
      --json          the answer as JSON
      --from DATE     dates beside the steps: step 1 begins on 2027-01-04, say
      --step LENGTH   how long a step is: day, week or month
      --after N       the hall is what is left after step N of a whole one

The walk is made with growing walk numbers. Where that takes more than a second
and standard error is a terminal, the nodes and the best cost so far are shown.
Ctrl-C, SIGTERM and the end of --for say and write the best plans so far
(status 3).
",
    },
    Page {
        name: "write",
        usage: "juzvarola write TABLE [-o JOB]",
        summary: "a job text from a spreadsheet's table",
        files: &["TABLE"],
        options: &["-o", "--output"],
        body: "\
Writes the text of the job that TABLE describes to JOB, or to standard output.
TABLE is a spreadsheet saved as CSV (cells separated by commas, semicolons or
tabs), laid out like this; juzvarola-table(5) says more:

  horizon,52
  idle,30,31
  opening,10,20,40
  fee,60
  part,life,left,removal,holders,prices
  1,22,12,,,40,40,45
  2,26,26,15,1,70 to 80
  3,20,18,,,base,90,drop,5,least,70

A single fee or price stands for every opening; the row idle and the cells of
removal and holders may be left out. A price may go from a low end to a high
one. A rule in place of the prices: the first
opening's, how much less each further one's is, and what none is below. A fault
is named by its cell and by the line of the text that would have held it.

  -o, --output JOB    where the job text goes; - is standard output
",
    },
    Page {
        name: "check",
        usage: "juzvarola check JOB",
        summary: "whether a job text is well formed, and what it says",
        files: &["JOB"],
        options: &[],
        body: "\
Says how many steps, openings and parts the job has, or which line is at
fault. Nothing is planned.
",
    },
    Page {
        name: "completion",
        usage: "juzvarola completion",
        summary: "a script that has bash complete the words",
        files: &[],
        options: &[],
        body: "\
Writes the script to standard output; put eval \"$(juzvarola completion)\" into
~/.bashrc, or have make install put it where bash looks.
",
    },
];

const INTRODUCTION: &str = "\
Plans the stops and part changes of a filling line, and judges, lists, draws and
compares such plans. Every plan and every verdict is a proved library's.
";

const TEXTS: &str = "\
A file named - is standard input. juzvarola-job(5) and juzvarola-plan(5)
describe the texts, juzvarola-json(5) the keys of --json.
";

const STATUSES: &str = "\
exit status:
  0   the cheapest plan; a plan that keeps every life at its true cost
  1   a verdict: no plan keeps the lives (6), a part is not kept (10), the
      stated cost is wrong (11)
  2   a text is at fault (1 to 5, 9, 12 to 14): its line is named; a job with a
      holder was to be counted (12)
  3   the walk is longer than its walk number or was ended (7)
  64 and up   usage, files, output that can't be written (as sysexits has them)
";

/// The page of a command.
pub fn page(name: &str) -> Option<&'static Page> {
    PAGES.iter().find(|page| page.name == name)
}

impl Page {
    /// The help of one command.
    pub fn text(&self) -> String {
        let Page { name, usage, summary, body, .. } = self;
        format!("usage: {usage}\n{name}: {summary}.\n\n{body}\n{TEXTS}\n{STATUSES}")
    }
}

/// The commands, one to a line.
fn commands() -> String {
    let line = |page: &Page| format!("{} {}", page.name, page.files.join(" "));
    PAGES.iter().map(|page| format!("  {:<22} {}\n", line(page), page.summary)).collect()
}

/// What is said to somebody who gave no words.
pub fn usage() -> String {
    format!("usage: juzvarola COMMAND FILES\n{}juzvarola COMMAND --help says more\n", commands())
}

/// The help of the whole program.
pub fn all() -> String {
    let commands = commands();
    format!(
        "usage: juzvarola COMMAND FILES\n{INTRODUCTION}\ncommands:\n{commands}  help [COMMAND], --help, --version\n\n\
         juzvarola COMMAND --help says more, and names the options.\n\n{STATUSES}"
    )
}
