// A sheet read into a net, with document 01's conditions 1 to 9 in checking order.
// Every number is read once; sums of offsets are of machine words and cannot wrap.

pub const MAX_SHEET: usize = 32_768;
pub const MAX_COUNT: usize = 64;

pub type Coupling = (u8, u8);

pub struct Entry {
    pub part: u8,
    pub from: u8,
    pub to: u8,
}

pub struct Step {
    pub entries: Vec<Entry>,
    pub needed: Vec<Coupling>,
    /// Out-couplings that are no in-couplings: what a firing adds and taking back removes.
    pub added: Vec<Coupling>,
    /// In-couplings that are no out-couplings: what a firing removes and taking back adds.
    pub broken: Vec<Coupling>,
}

pub struct Net {
    pub start_places: Vec<u8>,
    pub start_couplings: Vec<Coupling>,
    pub steps: Vec<Step>,
}

/// The number of the first condition that holds.
pub type Refusal = u8;

fn word(bytes: &[u8], at: usize) -> usize {
    usize::from(u16::from_le_bytes([bytes[at], bytes[at + 1]]))
}

fn refuse_if(wrong: bool, number: Refusal) -> Result<(), Refusal> {
    if wrong {
        Err(number)
    } else {
        Ok(())
    }
}

/// Pairs of parts p < q, strictly ascending as pairs, or nothing.
fn ascending_pairs(bytes: &[u8]) -> Option<Vec<Coupling>> {
    if bytes.len() % 2 != 0 {
        return None;
    }
    let pairs: Vec<Coupling> = bytes.chunks_exact(2).map(|c| (c[0], c[1])).collect();
    let in_order = pairs.windows(2).all(|w| w[0] < w[1]);
    let each_ascends = pairs.iter().all(|&(p, q)| p < q);
    (in_order && each_ascends).then_some(pairs)
}

/// The stretches that the pairs name, in order; none where they do not fit or break the offset rule.
fn stretches(sheet: &[u8], steps: usize) -> Option<Vec<&[u8]>> {
    let count = steps + 2;
    let mut at = 4 + 4 * count;
    if at > sheet.len() {
        return None;
    }
    let mut found = Vec::with_capacity(count);
    for i in 0..count {
        let (offset, length) = (word(sheet, 4 + 4 * i), word(sheet, 6 + 4 * i));
        if offset != at || at + length > sheet.len() {
            return None;
        }
        found.push(&sheet[at..at + length]);
        at += length;
    }
    (at == sheet.len()).then_some(found)
}

/// A step's entries, in-couplings and out-couplings as bytes; none where the length is not what the counts give.
fn step_parts(bytes: &[u8]) -> Option<(&[u8], &[u8], &[u8])> {
    let (&entries, rest) = bytes.split_first()?;
    let entries = usize::from(entries);
    if entries == 0 || entries > MAX_COUNT {
        return None;
    }
    let (entries, rest) = rest.split_at_checked(3 * entries)?;
    let (&ins, rest) = rest.split_first()?;
    let (ins, rest) = rest.split_at_checked(2 * usize::from(ins))?;
    let (&outs, rest) = rest.split_first()?;
    (rest.len() == 2 * usize::from(outs)).then_some((entries, ins, rest))
}

fn read_entries(bytes: &[u8], places: u8, parts: u8) -> Option<Vec<Entry>> {
    let entries: Vec<Entry> = bytes
        .chunks_exact(3)
        .map(|c| Entry {
            part: c[0],
            from: c[1],
            to: c[2],
        })
        .collect();
    let there = entries
        .iter()
        .all(|e| e.part < parts && e.from < places && e.to < places);
    let in_order = entries.windows(2).all(|w| w[0].part < w[1].part);
    (there && in_order).then_some(entries)
}

/// Couplings of parts among the entries, the two of each sharing the place that `place` gives.
fn read_couplings(
    bytes: &[u8],
    entries: &[Entry],
    place: impl Fn(&Entry) -> u8,
) -> Option<Vec<Coupling>> {
    let pairs = ascending_pairs(bytes)?;
    let place_of = |part: u8| {
        entries
            .binary_search_by_key(&part, |e| e.part)
            .ok()
            .map(|i| place(&entries[i]))
    };
    let fine = pairs
        .iter()
        .all(|&(p, q)| match (place_of(p), place_of(q)) {
            (Some(a), Some(b)) => a == b,
            _ => false,
        });
    fine.then_some(pairs)
}

fn read_step(bytes: &[u8], places: u8, parts: u8) -> Result<Step, Refusal> {
    let (entries, ins, outs) = step_parts(bytes).ok_or(7)?;
    let entries = read_entries(entries, places, parts).ok_or(8)?;
    let needed = read_couplings(ins, &entries, |e| e.from).ok_or(9)?;
    let mut added = read_couplings(outs, &entries, |e| e.to).ok_or(9)?;
    let mut broken = needed.clone();
    broken.retain(|c| added.binary_search(c).is_err());
    added.retain(|c| needed.binary_search(c).is_err());
    Ok(Step {
        entries,
        needed,
        added,
        broken,
    })
}

pub fn read(sheet: &[u8]) -> Result<Net, Refusal> {
    refuse_if(sheet.len() < 4 || sheet.len() > MAX_SHEET, 1)?;
    refuse_if(sheet[0] != 1, 2)?;
    let (places, parts, steps) = (sheet[1], sheet[2], sheet[3]);
    let counted = |n: u8| (1..=MAX_COUNT).contains(&usize::from(n));
    refuse_if(![places, parts, steps].into_iter().all(counted), 3)?;
    let found = stretches(sheet, usize::from(steps)).ok_or(4)?;

    let start_places = found[0].to_vec();
    let wrong =
        start_places.len() != usize::from(parts) || start_places.iter().any(|&p| p >= places);
    refuse_if(wrong, 5)?;
    let start_couplings = ascending_pairs(found[1]).ok_or(6)?;
    let apart = |&(p, q): &Coupling| {
        q >= parts || start_places[usize::from(p)] != start_places[usize::from(q)]
    };
    refuse_if(start_couplings.iter().any(apart), 6)?;

    let steps: Result<Vec<Step>, Refusal> = found[2..]
        .iter()
        .map(|bytes| read_step(bytes, places, parts))
        .collect();
    Ok(Net {
        start_places,
        start_couplings,
        steps: steps?,
    })
}
