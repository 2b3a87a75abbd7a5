//! Bytes written as runs between gaps of zeros: 2 bytes gap, 1 byte count, so many bytes. After the last run come zeros.

/// A shorter stretch of zeros is left inside its run.
const SHORTEST_GAP: usize = 4;
const LONGEST_RUN: usize = 255;

pub fn packed(plain: &[u8]) -> Vec<u8> {
    let (mut out, mut done) = (Vec::new(), 0);
    while let Some(start) = next_run(plain, done) {
        let end = run_end(plain, start);
        out.extend(((start - done) as u16).to_be_bytes());
        out.push((end - start) as u8);
        out.extend(&plain[start..end]);
        done = end;
    }
    out
}

pub fn unpacked(pack: &[u8], size: usize) -> Vec<u8> {
    let (mut out, mut rest) = (Vec::with_capacity(size), pack);
    while let [high, low, count, tail @ ..] = rest {
        let (run, after) = tail.split_at(usize::from(*count));
        out.resize(out.len() + (usize::from(*high) << 8 | usize::from(*low)), 0);
        out.extend(run);
        rest = after;
    }
    out.resize(size, 0);
    out
}

/// The first byte from here on that is not zero.
fn next_run(plain: &[u8], from: usize) -> Option<usize> {
    let gap = plain[from..].iter().position(|byte| *byte != 0)?;
    Some(from + gap)
}

/// The end of the run that starts here: at a gap, at its longest, or with the bytes.
fn run_end(plain: &[u8], start: usize) -> usize {
    let most = plain.len().min(start + LONGEST_RUN);
    let at_gap = |at: &usize| plain[*at..].iter().take(SHORTEST_GAP).all(|byte| *byte == 0);
    (start..most).find(at_gap).unwrap_or(most)
}

#[cfg(test)]
mod tests {
    use super::*;

    #[test]
    fn what_is_packed_comes_back() {
        for count in [0, 1, 254, 255, 256, 600] {
            let mut plain = vec![0; 2_000];
            plain[7..7 + count].fill(9);
            plain[1_990..1_993].copy_from_slice(&[1, 0, 2]);
            assert_eq!(unpacked(&packed(&plain), plain.len()), plain);
        }
    }
}
