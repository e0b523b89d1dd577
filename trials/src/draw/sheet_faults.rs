//! Faults planted in unit sheets, one function for each refusal. They work on
//! the list of commands, so that one sheet can get several.

use super::damage::small;
use super::{bad_size, high_bit, size_above, too_large, Commands};
use crate::random::Random;
use crate::sheet::all_values;

/// Plants a fault that leads to that refusal, if no earlier one is there, in a
/// sheet of up to four inputs.
pub fn plant(rng: &mut Random, number: u8, sheet: &mut Commands) {
    plant_up_to(rng, 4, number, sheet);
}

/// The same in a sheet of up to so many inputs.
pub fn plant_up_to(rng: &mut Random, most: u8, number: u8, sheet: &mut Commands) {
    match number {
        1 => cut(rng, sheet),
        2 => unknown(rng, sheet),
        3 => range(rng, most, sheet),
        4 => trailing(rng, most, sheet),
        5 => turn(rng, most, sheet),
        6 => signal(rng, most, sheet),
        7 => repeat(rng, most, sheet),
        8 => many(rng, most, sheet),
        9 => missing(rng, sheet),
        10 => empty(rng, most, sheet),
        _ => unreachable!("sheets have refusals 1 to 10"),
    }
}

/// A place for one more command: after 01 and at the latest before 00.
fn place(rng: &mut Random, sheet: &Commands) -> usize {
    match sheet.len() {
        0 => 0,
        1 => 1,
        len => rng.within(1, len - 1),
    }
}

fn insert(rng: &mut Random, sheet: &mut Commands, command: Vec<u8>) {
    let at = place(rng, sheet);
    sheet.insert(at, command);
}

fn size_of(most: u8, sheet: &Commands) -> (u8, u8) {
    match sheet.first().map(Vec::as_slice) {
        Some([0x01, n, m @ 1..=4]) if (1..=most).contains(n) => (*n, *m),
        _ => (most, 4),
    }
}

/// Any command that would be in range, with signals among the wires.
fn any_command(rng: &mut Random, most: u8, sheet: &Commands) -> Vec<u8> {
    let (n, m) = size_of(most, sheet);
    let p = rng.below(1 << n) as u8;
    let wire = rng.below(m.into()) as u8;
    match rng.below(6) {
        0 => vec![0x02, p, rng.below(1 << m) as u8],
        1 => vec![0x03, p],
        2 => vec![0x04, rng.below(6) as u8, wire, rng.below(m.into()) as u8],
        3 => vec![0x05, wire],
        4 => {
            let [low, high] = (rng.word() & all_values(m.into())).to_le_bytes();
            vec![0x06, p, low, high]
        }
        _ => vec![0x00],
    }
}

/// 1: the bytes end anywhere, between commands or inside one.
fn cut(rng: &mut Random, sheet: &mut Commands) {
    let i = rng.below(sheet.len().max(1)).min(sheet.len().saturating_sub(1));
    sheet.truncate(i + 1);
    if let Some(last) = sheet.last_mut() {
        last.truncate(rng.below(last.len().max(1)));
    }
}

/// 2: a first byte that no unit sheet knows.
fn unknown(rng: &mut Random, sheet: &mut Commands) {
    let first = match rng.below(6) {
        0 => 0x07,
        1 => 0xFF,
        2 => rng.of(&[0x20, 0x21, 0x22, 0x23, 0x24, 0x2F]),
        _ => rng.within(7, 255) as u8,
    };
    match rng.below(3) {
        0 => {
            let at = rng.below(sheet.len());
            sheet[at][0] = first;
        }
        1 => sheet.insert(0, vec![first]),
        _ => {
            let command = vec![first, small(rng)];
            insert(rng, sheet, command);
        }
    }
}

/// 3: one operand (or two) outside its range.
fn range(rng: &mut Random, most: u8, sheet: &mut Commands) {
    let (n, m) = size_of(most, sheet);
    let bad_p = too_large(rng, 1 << n);
    let bad_v = too_large(rng, 1 << m);
    let p = rng.below(1 << n) as u8;
    let v = rng.below(1 << m) as u8;
    let good = all_values(m.into());
    let command = match rng.below(13) {
        0 => return sheet[0] = vec![0x01, size_above(rng, most), m],
        1 => return sheet[0] = vec![0x01, n, bad_size(rng)],
        2 => return sheet[0] = vec![0x01, size_above(rng, most), bad_size(rng)],
        3 | 4 => vec![0x02, bad_p, v],
        5 | 6 => vec![0x02, p, bad_v],
        7 => vec![0x02, bad_p, bad_v],
        8 => vec![0x03, bad_p],
        9 => vec![0x04, too_large(rng, 6), rng.below(m.into()) as u8, small(rng)],
        10 if m < 4 => {
            let [low, high] = (rng.word() & good | high_bit(rng, 1 << m)).to_le_bytes();
            vec![0x06, p, low, high]
        }
        11 if m < 4 => {
            let [low, high] = (rng.word() | 1 << (1 << m)).to_le_bytes();
            vec![0x06, bad_p, low, high]
        }
        _ => {
            let [low, high] = (rng.word() & good).to_le_bytes();
            vec![0x06, bad_p, low, high]
        }
    };
    insert(rng, sheet, command);
}

/// 4: bytes after the end.
fn trailing(rng: &mut Random, most: u8, sheet: &mut Commands) {
    let more = match rng.below(3) {
        0 => vec![0x00],
        1 => any_command(rng, most, sheet),
        _ => (0..rng.within(1, 4)).map(|_| rng.byte()).collect(),
    };
    sheet.push(more);
}

/// 5: another command first, or 01 once more; cut short or not.
fn turn(rng: &mut Random, most: u8, sheet: &mut Commands) {
    let mut command = if rng.once_in(2) { any_command(rng, most, sheet) } else { vec![0x01] };
    if command[0] == 0x01 {
        command = match rng.below(3) {
            0 => sheet[0].clone(),
            1 => vec![0x01, rng.byte(), rng.byte()],
            _ => vec![0x01, rng.within(1, 4) as u8, rng.within(1, 4) as u8],
        };
        let at = place(rng, sheet);
        if rng.once_in(4) {
            // The last command, and too short: still 5.
            sheet.truncate(at);
            command.truncate(rng.within(1, 2));
        }
        sheet.insert(at.min(sheet.len()), command);
    } else {
        match rng.below(4) {
            0 => sheet[0] = command,
            1 => {
                command.truncate(rng.within(1, command.len()));
                *sheet = vec![command];
            }
            _ => sheet.insert(0, command),
        }
    }
}

/// The number of signals made before a place.
fn made(most: u8, sheet: &Commands, at: usize) -> u8 {
    let gates = sheet[..at].iter().filter(|c| c[0] == 0x04).count();
    size_of(most, sheet).1 + gates as u8
}

/// 6: a signal that is not made yet.
fn signal(rng: &mut Random, most: u8, sheet: &mut Commands) {
    let at = place(rng, sheet);
    let made = made(most, sheet, at);
    let bad = too_large(rng, made);
    let good = rng.below(made.into()) as u8;
    let kind = rng.below(6) as u8;
    let command = match rng.below(4) {
        0 => vec![0x04, kind, bad, good],
        1 => vec![0x04, kind, good, bad],
        2 => vec![0x04, kind, bad, too_large(rng, made)],
        _ => vec![0x05, bad],
    };
    sheet.insert(at, command);
}

/// 7: a pattern that already has 02 or 03.
fn repeat(rng: &mut Random, most: u8, sheet: &mut Commands) {
    let (_, m) = size_of(most, sheet);
    let row = |c: &Vec<u8>| matches!(c[0], 0x02 | 0x03) && c.len() > 1;
    let rows: Vec<usize> = (0..sheet.len()).filter(|&i| row(&sheet[i])).collect();
    if rows.is_empty() {
        return;
    }
    let first = rng.of(&rows);
    let p = sheet[first][1];
    let command = match rng.below(5) {
        0 | 1 => vec![0x02, p, rng.below(1 << m) as u8],
        2 | 3 => vec![0x03, p],
        // 3 is tested before 7.
        _ => vec![0x02, p, too_large(rng, 1 << m)],
    };
    let latest = (sheet.len() - 1).max(first + 1);
    let at = if rng.once_in(3) { latest } else { rng.within(first + 1, latest) };
    sheet.insert(at, command);
}

/// 8: the 33rd gate or the 9th output; 3 and 6 are tested before it.
fn many(rng: &mut Random, most: u8, sheet: &mut Commands) {
    let (_, m) = size_of(most, sheet);
    let wire = |rng: &mut Random| rng.below(m.into()) as u8;
    let gates = rng.once_in(4);
    let (first, limit) = if gates { (0x04, 32) } else { (0x05, 8) };
    let have = sheet.iter().filter(|c| c[0] == first).count();
    for _ in have..limit {
        let more = if gates { vec![0x04, rng.below(6) as u8, wire(rng), wire(rng)] } else { vec![0x05, wire(rng)] };
        insert(rng, sheet, more);
    }
    // After the last of them, where the next is one too many.
    let last = sheet.iter().rposition(|c| c[0] == first).expect("filled up");
    let latest = (sheet.len() - 1).max(last + 1);
    let at = rng.within(last + 1, latest);
    let bad = too_large(rng, made(most, sheet, at));
    let odd = rng.once_in(3);
    let command = match (gates, odd) {
        (true, false) => vec![0x04, rng.below(6) as u8, wire(rng), wire(rng)],
        (true, true) => vec![0x04, rng.of(&[0, 6]), wire(rng), bad],
        (false, false) => vec![0x05, wire(rng)],
        (false, true) => vec![0x05, bad],
    };
    sheet.insert(at, command);
}

/// 9: a pattern (or several) with neither 02 nor 03.
fn missing(rng: &mut Random, sheet: &mut Commands) {
    let count = rng.of(&[1, 1, 1, 1, 1, 2, 3, 16]);
    for _ in 0..count {
        let rows: Vec<usize> = (0..sheet.len()).filter(|&i| matches!(sheet[i][0], 0x02 | 0x03)).collect();
        if rows.is_empty() {
            return;
        }
        sheet.remove(rng.of(&rows));
    }
}

/// 10: limits that leave nothing.
fn empty(rng: &mut Random, most: u8, sheet: &mut Commands) {
    let (n, m) = size_of(most, sheet);
    let all = all_values(m.into());
    for _ in 0..rng.of(&[1, 1, 1, 2]) {
        let p = rng.below(1 << n) as u8;
        let set = rng.word() & all;
        let sets = match rng.below(3) {
            0 => vec![0],
            1 => vec![set, all & !set],
            _ => {
                let v = rng.below(1 << m);
                vec![1 << v, all & !(1 << v)]
            }
        };
        for w in sets {
            let [low, high] = u16::to_le_bytes(w);
            insert(rng, sheet, vec![0x06, p, low, high]);
        }
    }
}

/// Commands one after another with operands of every kind, mostly in range, of up
/// to four inputs.
pub fn soup(rng: &mut Random) -> Vec<u8> {
    let size = super::sizes(rng);
    soup_up_to(rng, 4, size)
}

/// The same of those sizes, with up to so many inputs.
pub fn soup_up_to(rng: &mut Random, most: u8, (n, m): (u8, u8)) -> Vec<u8> {
    let mut sheet = vec![vec![0x01, n, m]];
    for _ in 0..rng.within(1, 14) {
        let mut command = any_command(rng, most, &sheet);
        if command.len() > 1 && rng.once_in(6) {
            let i = rng.within(1, command.len() - 1);
            command[i] = if rng.once_in(2) { rng.below(20) as u8 } else { rng.byte() };
        }
        sheet.push(command);
    }
    sheet.concat()
}

#[cfg(test)]
mod tests {
    use super::*;
    use crate::draw::sheets::draft_of;
    use crate::relation::of_unit;
    use crate::sheet::read;

    /// Each planted fault mostly gives the refusal it was planted for.
    #[test]
    fn faults_are_met() {
        let mut rng = Random::new(99);
        for (most, number) in [4, 6].into_iter().flat_map(|most| (1..=10).map(move |number| (most, number))) {
            let mut met = 0;
            for _ in 0..300 {
                let (n, m) = (rng.within(most - 3, most) as u8, rng.within(1, 4) as u8);
                let mut sheet = draft_of(&mut rng, n, m).commands(&mut rng);
                plant_up_to(&mut rng, most as u8, number, &mut sheet);
                let reply = read(&sheet.concat()).and_then(|unit| of_unit(&unit));
                met += usize::from(matches!(reply, Err(r) if r.number == number));
            }
            assert!(met > 170, "refusal {number}: {met} of 300");
        }
    }
}
