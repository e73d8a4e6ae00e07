//! Nights with damage.

use crate::random::Random;

/// A well-formed group line of exactly so many bytes, with so many counts.
fn long_group(random: &mut Random, counts: usize, length: usize) -> String {
    let digits = length.saturating_sub(5 + counts).max(counts);
    let mut line = String::from("group");
    for i in 0..counts {
        let many = digits / counts + usize::from(i < digits % counts);
        line.push('\t');
        for d in 0..many {
            line.push((b'0' + random.from(i128::from(d == 0), 9) as u8) as char);
        }
    }
    line
}

/// A good night with damage: changed bytes, tabs and ends of lines lost or doubled, lines too long, out of order or out of place.
pub fn damaged(mut random: Random, file: &[u8]) -> Vec<u8> {
    let mut lines: Vec<Vec<u8>> = file.split(|&b| b == b'\n').map(|l| l.to_vec()).collect();
    let opening = lines.iter().take_while(|l| l.starts_with(b"house") || l.starts_with(b"member")).count();
    // Mostly the opening is spared: damage there ends the night.
    let first = if random.percent(10) { 0 } else { opening };
    for _ in 0..random.one(&[1, 2, 5, 10, 30]) {
        if lines.len() <= first {
            break;
        }
        let at = first + random.below(lines.len() - first);
        damage(&mut random, &mut lines, at);
    }
    let mut text = lines.join(&b'\n');
    match random.below(12) {
        0 => text.truncate(random.below(text.len() + 1)),
        1 => text.extend_from_slice(b"\n\n\n"),
        2 => {
            text.pop();
        }
        _ => {}
    }
    text
}

/// One damage at one line.
fn damage(random: &mut Random, lines: &mut Vec<Vec<u8>>, at: usize) {
    let other = random.below(lines.len() - at) + at;
    let line = &mut lines[at];
    let place = random.below(line.len().max(1));
    let tabs: Vec<usize> = (0..line.len()).filter(|&i| line[i] == b'\t').collect();
    match random.below(24) {
        0 | 1 if !line.is_empty() => line[place] = random.draw() as u8,
        2 | 3 if !line.is_empty() => line[place] = random.one(b"0123456789\t\n -+\r\0aeoprst"),
        4 if !line.is_empty() => drop(line.remove(place)),
        5 => line.insert(place, random.one(b"0123456789\t\n -\r")),
        6 if !tabs.is_empty() => drop(line.remove(random.one(&tabs))),
        7 if !tabs.is_empty() => line.insert(random.one(&tabs), b'\t'),
        8 if !tabs.is_empty() => line[random.one(&tabs)] = b' ',
        9 => line.push(random.one(b"\t\r 0")),
        10 => line.insert(0, random.one(b"\t 0")),
        11 => {
            let next = if at + 1 < lines.len() { lines.remove(at + 1) } else { Vec::new() };
            lines[at].extend(next);
        }
        12 => line.clear(),
        13 => lines.insert(at, Vec::new()),
        14 => lines.swap(at, other),
        15 => lines.insert(at, lines[other].clone()),
        16 => {
            let stray = ["house\t1\t2", "house\t2\t2", "member\t1\t0\t0", "member\t3\t-5\t5", "house", "member"];
            lines.insert(at, random.one(&stray).as_bytes().to_vec());
        }
        17 => {
            let long = random.one(&[1, 380, 390, 399, 400, 401, 402, 500, 5_000, 70_000]);
            line.resize(long.max(line.len()), random.one(b"0 \t9"));
        }
        18 | 19 => {
            let counts = random.one(&[20, 21, 22, 40, 63, 64, 64, 65]);
            let length = random.one(&[398, 399, 400, 401, 402]);
            lines.insert(at, long_group(random, counts, length).into_bytes());
        }
        20 => {
            let odd = ["group", "group\t", "resolve\t", "end\t", "end\r", " end", "END", "Resolve", "pay", "release\t\t1", "\t", "-", "0"];
            lines.insert(at, random.one(&odd).as_bytes().to_vec());
        }
        21 => lines.insert(at, long_group(random, 64, 133).into_bytes()),
        22 if !tabs.is_empty() => line.insert(random.one(&tabs) + 1, random.one(b"0-1")),
        _ => drop(lines.remove(at)),
    }
}
