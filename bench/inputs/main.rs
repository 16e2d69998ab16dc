// Writes the inputs of the measurement into a folder: inputs FOLDER. The same bytes on each run.
// An input is what the exam program reads: the sheet's length, the sheet, the commands.

use std::collections::VecDeque;
use std::path::Path;

const COMMANDS: usize = 65_535;
const PARTS: u8 = 64;
const MOST_LIVE: usize = 256;
/// Commands of the single call that are timed at 256 live firings.
const SINGLE: usize = 2_000;

/// How many commands go in blocks of 1,000 after that; the program that is timed reads at most 65,536 bytes.
const BLOCKS: usize = 20_000;

type Coupling = (u8, u8);

struct Step {
    entries: Vec<(u8, u8, u8)>,
    ins: Vec<Coupling>,
    outs: Vec<Coupling>,
}

/// A step of one entry and no coupling.
fn plain_step(part: u8, from: u8, to: u8) -> Step {
    Step {
        entries: vec![(part, from, to)],
        ins: vec![],
        outs: vec![],
    }
}

/// A step that moves these parts from place 0 to place 1 and makes these couplings.
fn coupling_step(parts: impl Iterator<Item = u8>, outs: &[Coupling]) -> Step {
    Step {
        entries: parts.map(|part| (part, 0, 1)).collect(),
        ins: vec![],
        outs: outs.to_vec(),
    }
}

/// A step that takes all parts from a place to place 1; these couplings are there before and after.
fn wide_step(from: u8, kept: &[Coupling]) -> Step {
    Step {
        entries: (0..PARTS).map(|part| (part, from, 1)).collect(),
        ins: kept.to_vec(),
        outs: kept.to_vec(),
    }
}

fn word(n: usize) -> [u8; 2] {
    u16::try_from(n).expect("two bytes").to_le_bytes()
}

fn pairs(couplings: &[Coupling]) -> Vec<u8> {
    couplings.iter().flat_map(|&(p, q)| [p, q]).collect()
}

fn step_bytes(step: &Step) -> Vec<u8> {
    let mut bytes = vec![step.entries.len() as u8];
    bytes.extend(
        step.entries
            .iter()
            .flat_map(|&(part, from, to)| [part, from, to]),
    );
    for couplings in [&step.ins, &step.outs] {
        bytes.push(couplings.len() as u8);
        bytes.extend(pairs(couplings));
    }
    bytes
}

/// A sheet of two places and 64 parts, all at place 0.
fn sheet(start: &[Coupling], steps: &[Step]) -> Vec<u8> {
    let mut stretches = vec![vec![0; usize::from(PARTS)], pairs(start)];
    stretches.extend(steps.iter().map(step_bytes));
    let mut bytes = vec![1, 2, PARTS, steps.len() as u8];
    let mut offset = 4 + 4 * stretches.len();
    for stretch in &stretches {
        bytes.extend(word(offset));
        bytes.extend(word(stretch.len()));
        offset += stretch.len();
    }
    bytes.extend(stretches.concat());
    bytes
}

type Command = [u8; 3];

const UNDO_LAST: Command = [2, 0, 0];

fn fire(step: usize) -> Command {
    let [low, high] = word(step);
    [1, low, high]
}

fn undo(serial: usize) -> Command {
    let [low, high] = word(serial);
    [3, low, high]
}

fn write(folder: &Path, name: &str, sheet: &[u8], commands: impl Iterator<Item = Command>) {
    let mut bytes = word(sheet.len()).to_vec();
    bytes.extend_from_slice(sheet);
    bytes.extend(commands.flatten());
    std::fs::write(folder.join(name).with_extension("in"), bytes)
        .expect("the folder can be written");
}

/// One firing on each part in turn.
fn filled(n: usize) -> impl Iterator<Item = Command> {
    (0..n).map(|i| fire(i % usize::from(PARTS)))
}

/// n live at most: n - 1 stand, and one more is fired and taken back.
fn in_order(n: usize) -> impl Iterator<Item = Command> {
    filled(n - 1)
        .chain([fire(0), UNDO_LAST].into_iter().cycle())
        .take(COMMANDS)
}

/// n live at most: the oldest that no later one blocks is taken back by its serial, and its step fires again.
fn out_of_order(n: usize) -> impl Iterator<Item = Command> {
    let mut next = 1;
    // The last firing on each part, oldest first: these are the ones that nothing blocks.
    let mut unblocked: VecDeque<(usize, usize)> = VecDeque::new();
    let mut commands: Vec<Command> = filled(n).collect();
    for i in 0..n {
        let step = i % usize::from(PARTS);
        unblocked.retain(|&(s, _)| s != step);
        unblocked.push_back((step, next));
        next += 1;
    }
    while commands.len() < COMMANDS {
        let (step, serial) = unblocked.pop_front().expect("at least one is live");
        commands.push(undo(serial));
        commands.push(fire(step));
        unblocked.push_back((step, next));
        next += 1;
    }
    commands.into_iter().take(COMMANDS)
}

/// n steps all fire, and are taken back oldest first; then again, with the serials that follow.
fn oldest_first(n: usize) -> impl Iterator<Item = Command> {
    let round = move |i: usize| {
        let serials = i * n + 1..=(i + 1) * n;
        (0..n).map(fire).chain(serials.map(undo))
    };
    (0..).flat_map(round).take(COMMANDS)
}

/// 256 firings in n equal runs: run i fires step i, and then only step n + i.
fn out_and_stay(n: usize) -> impl Iterator<Item = Command> {
    let run = move |i| {
        let stay = std::iter::repeat(fire(n + i)).take(MOST_LIVE / n - 1);
        std::iter::once(fire(i)).chain(stay)
    };
    (0..n).flat_map(run)
}

/// 200 firings stand, and everything after them is refused.
fn refusals() -> impl Iterator<Item = Command> {
    let bad = [
        fire(64),
        undo(0),
        undo(1),
        [9, 0, 0],
        [2, 1, 0],
        undo(5_000),
        fire(300),
        fire(64 + 256),
    ];
    filled(200).chain(bad.into_iter().cycle()).take(COMMANDS)
}

fn main() {
    let folder = std::env::args().nth(1).expect("inputs FOLDER");
    let folder = Path::new(&folder);
    let apart: Vec<Step> = (0..PARTS).map(|p| plain_step(p, 0, 0)).collect();
    let apart = sheet(&[], &apart);
    let there_and_back = [plain_step(0, 0, 1), plain_step(0, 1, 0)];
    let all: Vec<Coupling> = (0..PARTS)
        .flat_map(|p| (p + 1..PARTS).map(move |q| (p, q)))
        .collect();
    let line: Vec<Coupling> = (1..PARTS).map(|q| (q - 1, q)).collect();

    write(folder, "start", &apart, std::iter::empty());
    for n in [1, 64, 256] {
        write(folder, &format!("live{n}"), &apart, in_order(n));
        write(folder, &format!("middle{n}"), &apart, out_of_order(n));
    }
    write(
        folder,
        "all2016",
        &sheet(&all, &there_and_back),
        in_order(1),
    );
    write(
        folder,
        "chain63",
        &sheet(&line, &there_and_back),
        in_order(1),
    );
    write(folder, "refused", &apart, refusals());

    // The coupling of parts 0 and 1 comes before all others in their order.
    let first = [coupling_step(0..2, &all[..1])];
    for others in [&[], &line[1..], &all[1..]] {
        write(
            folder,
            &format!("beside{}", others.len()),
            &sheet(others, &first),
            in_order(1),
        );
    }
    for outs in [&[], &line[..]] {
        write(
            folder,
            &format!("wide{}", outs.len()),
            &sheet(&[], &[coupling_step(0..PARTS, outs)]),
            in_order(1),
        );
    }
    let couples: Vec<Step> = (0..PARTS)
        .step_by(2)
        .map(|p| coupling_step(p..p + 2, &[(p, p + 1)]))
        .collect();
    write(
        folder,
        &format!("couples{}", couples.len()),
        &sheet(&[], &couples),
        oldest_first(couples.len()),
    );

    let again = || [UNDO_LAST, fire(63)].into_iter().cycle();
    write(folder, "single_before", &apart, filled(MOST_LIVE));
    write(
        folder,
        "single",
        &apart,
        filled(MOST_LIVE).chain(again()).take(MOST_LIVE + SINGLE),
    );
    write(
        folder,
        "blocks",
        &apart,
        filled(MOST_LIVE).chain(again()).take(MOST_LIVE + BLOCKS),
    );

    // Each first firing of a run takes its parts away from their start places, so all 256 have to go for the way back there.
    let half = PARTS / 2;
    let parts: Vec<Step> = [0, 1]
        .iter()
        .flat_map(|&from| (0..half).map(move |p| plain_step(p, from, 1)))
        .collect();
    write(
        folder,
        "way_parts",
        &sheet(&[], &parts),
        out_and_stay(usize::from(half)),
    );
    for (name, start, kept) in [
        ("way_wide", &[][..], &[][..]),
        ("way_kept", &all, &all[..255]),
    ] {
        let steps = [wide_step(0, kept), wide_step(1, kept)];
        write(folder, name, &sheet(start, &steps), out_and_stay(1));
    }
}
