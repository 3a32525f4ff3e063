//! Functions of whole numbers: boards, and the numbers of a stream.
use super::Page;
use crate::random::Random;

pub fn boards(page: &mut Page, draw: &mut Random) {
    page.title("boards: those of the table, and others; 256 stands for a skipped discovery");
    let known = [0, 1, 2, 3, 4, 5, 6, 10, 11, 20, 256];
    let others: Vec<u64> = (0..14).map(|_| draw.below(256)).collect();
    for n in known.into_iter().chain(others) {
        for what in ["adcs", "enable", "scheme"] {
            page.case(format!("board_{what} {n}"));
        }
    }
}

const HALF: u32 = 1 << 31;

fn observe(page: &mut Page, has: u32, expected: u32, run: u64, number: u32) {
    for what in ["event", "gap", "expected", "run"] {
        page.case(format!("observe_{what} {has} {expected} {run} {number}"));
    }
}

/// Any, or about 0, where numbers wrap, or about 2^31.
fn expected(draw: &mut Random) -> u32 {
    let about = draw.below(140) as u32;
    match draw.below(4) {
        0 => about.wrapping_sub(70),
        1 => about.wrapping_sub(70).wrapping_add(HALF),
        _ => draw.any() as u32,
    }
}

/// The last two are where a stale number makes a difference.
fn run(draw: &mut Random) -> u64 {
    draw.one_of(&[0, 1, 2, 3, 4, 5, 6, 7, 6, 7])
}

pub fn arrivals(page: &mut Page, draw: &mut Random) {
    page.title(
        "observe: from 66 behind the expected number to 3 ahead, after stale runs of 0 to 7",
    );
    let behind = (0..12).map(|_| -3 - draw.below(60) as i32);
    let mut distances: Vec<i32> = behind.collect();
    for _ in 0..2 {
        distances.extend([-66, -65, -64, -63, -2, -1, 0, 1, 2, 3]);
    }
    for d in distances {
        let e = expected(draw);
        observe(page, 1, e, run(draw), e.wrapping_add_signed(d));
    }
    page.title("observe: numbers about 2^31 away, number 0, and the first");
    for d in [-2, -1, 0, 1, -1, 0] {
        let e = expected(draw);
        let number = e.wrapping_add(HALF).wrapping_add_signed(d);
        observe(page, 1, e, run(draw), number);
    }
    for e in [0, 1, 2, 64, 65, HALF - 1, HALF, HALF + 1, u32::MAX] {
        observe(page, 1, e, run(draw), 0);
    }
    for _ in 0..2 {
        observe(page, 0, 0, 0, expected(draw));
    }
}
