// Times two programs on the same inputs, sees that they write the same bytes, and prints a table in Markdown:
// timing FOLDER REPEATS PROVED PLAIN TIMED. A time is the processor time of a whole process, best of the repeats.

mod usage;

use std::fs::File;
use std::path::{Path, PathBuf};
use std::process::{exit, Command, Stdio};
use std::time::Duration;
use usage::time_of_children;

const WHOLE: [(&str, &str); 15] = [
    ("live1", "1 live, taken back in order"),
    ("live64", "64 live, taken back in order"),
    ("live256", "256 live, taken back in order"),
    ("middle1", "1 live, taken back by serial"),
    ("middle64", "64 live, the oldest free one taken back"),
    ("middle256", "256 live, the oldest free one taken back"),
    ("chain63", "64 parts in a chain of 63 couplings, all moved"),
    ("all2016", "64 parts with all 2,016 couplings, all moved"),
    ("beside0", "1 coupling made and removed, no other"),
    ("beside62", "1 coupling made, a chain of 62 beside it"),
    ("beside2015", "1 coupling made, 2,015 others beside it"),
    ("wide0", "a step of 64 entries, no coupling"),
    ("wide63", "a step of 64 entries that makes 63 couplings"),
    ("couples32", "32 couples made, the oldest taken back first"),
    ("refused", "200 live, then refusals only"),
];

/// A question at 256 live: an input, what it is, and how often the program is told to ask in a run.
type Asked<'a> = (&'a str, &'a str, usize);

/// The way back to the start.
const WAYS: [Asked; 4] = [
    ("single_before", "nothing has to go", 10),
    (
        "way_parts",
        "all have to go, 32 parts moved eight times each",
        10,
    ),
    ("way_wide", "all have to go, steps of 64 entries", 10),
    (
        "way_kept",
        "all have to go, steps of 64 entries and 255 in-couplings",
        1,
    ),
];

/// The listing of the live firings.
const LISTINGS: [Asked; 2] = [
    (
        "single_before",
        "64 parts moved four times each by steps of their own",
        10,
    ),
    (
        "way_wide",
        "each depends on all before it, steps of 64 entries",
        10,
    ),
];

/// How often the timed program asks where it is told once.
const CALLS: usize = 10;

/// The plain program ends in milliseconds, so it runs more often for a steady time.
const PLAIN_RUNS: usize = 10;

struct Bench {
    folder: PathBuf,
    repeats: usize,
}

/// A program, and the words after its name.
type Program<'a> = (&'a Path, &'a [&'a str]);

fn fail(what: &str) -> ! {
    eprintln!("bench: {what}");
    exit(1)
}

impl Bench {
    fn input(&self, name: &str) -> PathBuf {
        self.folder.join(name).with_extension("in")
    }

    /// One run; what it writes goes to a file.
    fn once(&self, (program, words): Program, input: &str, output: &Path) -> Duration {
        let from = File::open(self.input(input)).unwrap_or_else(|e| fail(&format!("{input}: {e}")));
        let to =
            File::create(output).unwrap_or_else(|e| fail(&format!("{}: {e}", output.display())));
        let mut command = Command::new(program);
        command
            .args(words)
            .stdin(Stdio::from(from))
            .stdout(Stdio::from(to));
        let before = time_of_children();
        let status = command.status();
        let took = time_of_children() - before;
        match status {
            Ok(s) if s.success() => took,
            _ => fail(&format!("{} does not run on {input}", program.display())),
        }
    }

    /// Both programs in turn on one input: the best time of each.
    fn best(&self, proved: Program, plain: Program, input: &str) -> (Duration, Duration) {
        let outputs = [
            self.folder.join("proved.out"),
            self.folder.join("plain.out"),
        ];
        let mut best = (Duration::MAX, Duration::MAX);
        for _ in 0..self.repeats {
            best.0 = best.0.min(self.once(proved, input, &outputs[0]));
            for _ in 0..PLAIN_RUNS {
                best.1 = best.1.min(self.once(plain, input, &outputs[1]));
            }
            let [a, b] = outputs
                .each_ref()
                .map(|o| std::fs::read(o).unwrap_or_else(|e| fail(&e.to_string())));
            if a != b {
                fail(&format!("the outputs differ on {input}"));
            }
        }
        best
    }

    /// The best time of one way to run the commands of an input.
    fn alone(&self, program: Program, input: &str, runs: usize) -> Duration {
        let output = self.folder.join("timed.out");
        let times = (0..runs).map(|_| self.once(program, input, &output));
        times.min().unwrap_or_default()
    }

    /// 1,000 commands at 256 live as one block, by `run`, and singly: a table of times alone.
    fn blocks(&self, timed: &Path, single: Duration) {
        let more = self.commands("blocks") - self.commands("single_before");
        let runs = PLAIN_RUNS * self.repeats;
        let thousand = |way: &str| {
            let words = [way];
            let (whole, before) = (
                self.alone((timed, &words), "blocks", runs),
                self.alone((timed, &words), "single_before", runs),
            );
            micros(whole.saturating_sub(before)) * 1000.0 / more as f64
        };
        let (block, run, one) = (thousand("blocks"), thousand("run"), micros(single));
        println!();
        println!("| 1,000 commands at 256 live | µs |");
        println!("|---|---|");
        println!("| as one block | {block:.0} |");
        println!("| as a list by `run`, nothing checked | {run:.0} |");
        println!("| one single call | {one:.0} |");
        println!("| by 1,000 single calls | {:.0} |", 1000.0 * one);
        println!();
        let share = (block - one) / run;
        println!("Less one single call, the block takes {share:.2} times what `run` takes.");
    }

    /// A question at 256 live, asked by a word: a table of times alone, less what the firings take.
    fn asked(&self, timed: &Path, question: &str, word: &str, rows: &[Asked]) {
        println!();
        println!("| {question} at 256 live | µs |");
        println!("|---|---|");
        for &(input, what, asks) in rows {
            let best = |way| self.alone((timed, &vec![way; asks]), input, asks * self.repeats);
            let less = best(word).saturating_sub(best("blocks"));
            let calls = (CALLS * asks) as f64;
            println!("| {what} | {:.0} |", micros(less) / calls);
        }
    }

    /// How many commands an input has.
    fn commands(&self, name: &str) -> usize {
        let bytes = std::fs::read(self.input(name)).unwrap_or_else(|e| fail(&e.to_string()));
        let sheet = usize::from(u16::from_le_bytes([bytes[0], bytes[1]]));
        (bytes.len() - 2 - sheet) / 3
    }
}

fn micros(d: Duration) -> f64 {
    d.as_secs_f64() * 1e6
}

fn row(what: &str, commands: usize, (proved, plain): (Duration, Duration)) {
    let each = |d: Duration| d.as_nanos() as f64 / commands as f64;
    let ratio = proved.as_secs_f64() / plain.as_secs_f64();
    println!(
        "| {what} | {commands} | {:.0} | {:.0} | {ratio:.1} |",
        each(proved),
        each(plain)
    );
}

fn main() {
    let words: Vec<String> = std::env::args().skip(1).collect();
    let [folder, repeats, proved, plain, timed] = &words[..] else {
        fail("timing FOLDER REPEATS PROVED PLAIN TIMED");
    };
    let repeats = repeats
        .parse()
        .ok()
        .filter(|&n| n > 0)
        .unwrap_or_else(|| fail("how many repeats?"));
    let bench = Bench {
        folder: PathBuf::from(folder),
        repeats,
    };
    let (proved, plain, timed) = (Path::new(proved), Path::new(plain), Path::new(timed));

    let plain_runs = PLAIN_RUNS * repeats;
    println!("Processor time of whole processes, best of {repeats} (plain: {plain_runs}); the outputs were equal.");
    println!();
    println!("| input | commands | proved, ns a command | plain Rust, ns a command | ratio |");
    println!("|---|---|---|---|---|");
    for (name, what) in WHOLE {
        row(
            what,
            bench.commands(name),
            bench.best((proved, &[]), (plain, &[]), name),
        );
    }
    let alone = |input| bench.best((timed, &["singly"]), (plain, &["singly"]), input);
    let (before, whole) = (alone("single_before"), alone("single"));
    let filled = bench.commands("single_before");
    let single = bench.commands("single") - filled;
    let less = (
        whole.0.saturating_sub(before.0),
        whole.1.saturating_sub(before.1),
    );
    row(
        "the single call, sheet and record checked, 256 live",
        single,
        less,
    );
    let (a, b) = bench.best((proved, &[]), (plain, &[]), "start");
    println!();
    println!("Nothing is subtracted in the rows of whole lists: an input of no commands takes");
    println!(
        "{:.0} µs proved and {:.0} µs plain. The single call is the time of {filled} firings",
        micros(a),
        micros(b)
    );
    println!("and {single} commands less that of the firings alone, divided by {single}.");
    bench.blocks(timed, less.0 / single as u32);
    bench.asked(timed, "the way back", "way", &WAYS);
    bench.asked(timed, "the listing", "listing", &LISTINGS);
}
