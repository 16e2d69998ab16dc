// The exam program in plain Rust, to be measured against the proved one. It shares nothing with the proved code.
// With the argument `singly` each command checks the sheet and the whole record again, as the customer's single call does.

mod session;
mod sheet;

use session::{Answer, Session, Tally};
use sheet::Net;
use std::io::{Read, Write};

const MAX_COMMANDS: usize = 65_535;
const MAX_INPUT: u64 = 2 + 65_535 + 3 * MAX_COMMANDS as u64;

fn put_number(out: &mut Vec<u8>, n: usize) {
    let mut digits = [0u8; 20];
    let mut at = digits.len();
    let mut left = n;
    loop {
        at -= 1;
        digits[at] = b'0' + (left % 10) as u8;
        left /= 10;
        if left == 0 {
            break;
        }
    }
    out.extend_from_slice(&digits[at..]);
}

/// A word and numbers, each after a space, and a newline.
fn put_line(out: &mut Vec<u8>, word: &[u8], numbers: impl IntoIterator<Item = usize>) {
    out.extend_from_slice(word);
    for n in numbers {
        out.push(b' ');
        put_number(out, n);
    }
    out.push(b'\n');
}

fn put_answer(out: &mut Vec<u8>, number: usize, answer: Answer) {
    put_number(out, number);
    match answer {
        Answer::Fired(serial) => put_line(out, b" fired", [usize::from(serial)]),
        Answer::Undone(serial) => put_line(out, b" undone", [usize::from(serial)]),
        Answer::Refused(list) => put_line(out, b" refused", [usize::from(list)]),
    }
}

fn put_tally(out: &mut Vec<u8>, tally: &Tally) {
    put_line(
        out,
        b"tally",
        [tally.fired, tally.undone, tally.refused].map(usize::from),
    );
}

fn put_closing(out: &mut Vec<u8>, parts: usize, session: &Session, tally: &Tally) {
    let places = &session.marking.places[..parts];
    put_line(out, b"places", places.iter().map(|&p| usize::from(p)));
    for p in 0..parts {
        for q in p + 1..parts {
            if session.marking.coupled((p as u8, q as u8)) {
                put_line(out, b"bond", [p, q]);
            }
        }
    }
    put_line(
        out,
        b"live",
        session.live.iter().map(|f| usize::from(f.serial)),
    );
    put_tally(out, tally);
}

/// One command as the single call does it: the sheet's conditions, the record's soundness, then the command.
fn single(session: &mut Session, sheet: &[u8], bytes: &[u8]) -> Answer {
    let net = match sheet::read(sheet) {
        Ok(net) => net,
        Err(number) => return Answer::Refused(number),
    };
    if !session.is_sound(&net) {
        return Answer::Refused(10);
    }
    session.command(&net, bytes)
}

fn run(out: &mut Vec<u8>, net: &Net, commands: &[u8]) {
    let mut session = Session::start(net);
    let mut tally = Tally::default();
    for (i, bytes) in commands.chunks(3).take(MAX_COMMANDS).enumerate() {
        let answer = session.command(net, bytes);
        tally.count(answer);
        put_answer(out, i + 1, answer);
    }
    put_closing(out, net.start_places.len(), &session, &tally);
}

/// Every command by the single call; the sum of the serials given and the tally, as the program singly prints them.
fn run_singly(out: &mut Vec<u8>, net: &Net, sheet: &[u8], commands: &[u8]) {
    let mut session = Session::start(net);
    let mut tally = Tally::default();
    let mut sum = 0u32;
    for bytes in commands.chunks(3) {
        let answer = single(&mut session, sheet, bytes);
        tally.count(answer);
        if let Answer::Fired(serial) | Answer::Undone(serial) = answer {
            sum = sum.wrapping_add(u32::from(serial));
        }
    }
    put_line(out, b"keys", [sum as usize]);
    put_tally(out, &tally);
}

/// The sheet and the commands' bytes; missing bytes shorten the sheet.
fn parted(input: &[u8]) -> (&[u8], &[u8]) {
    let Some((length, rest)) = input.split_first_chunk::<2>() else {
        return (&[], &[]);
    };
    let length = usize::from(u16::from_le_bytes(*length));
    rest.split_at(length.min(rest.len()))
}

fn main() -> std::io::Result<()> {
    let singly = std::env::args().nth(1).is_some_and(|a| a == "singly");
    let mut input = Vec::with_capacity(MAX_INPUT as usize);
    std::io::stdin()
        .lock()
        .take(MAX_INPUT)
        .read_to_end(&mut input)?;
    let (sheet, commands) = parted(&input);
    let mut out = Vec::with_capacity(24 * (commands.len() / 3 + 1));
    match sheet::read(sheet) {
        Ok(net) if singly => run_singly(&mut out, &net, sheet, commands),
        Ok(net) => run(&mut out, &net, commands),
        Err(number) => put_line(&mut out, b"sheet refused", [usize::from(number)]),
    }
    let mut stdout = std::io::stdout().lock();
    stdout.write_all(&out)?;
    stdout.flush()
}
