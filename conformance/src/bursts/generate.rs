//! Random bursts, right and wrong, and random handlers at work.

use crate::generate::Random;
use crate::runtime::*;
use crate::scenario::Call;

/// A burst's length: mostly one of those that there are, so often in 20 any of them, just the room or one more than it; now
/// and then none, five, or any other.
fn length(random: &mut Random, room: usize, any: usize) -> u16 {
    match random.below(20) {
        chance if chance < any => random.from(1, MAX_BURST) as u16,
        0..=12 => room.clamp(1, MAX_BURST) as u16,
        13..=15 => (room + 1).clamp(1, MAX_BURST) as u16,
        16 => 0,
        17 => MAX_BURST as u16 + 1,
        18 => random.pick(&[5, 6, 6, 6, 7, 7, 8, 9, 256, 257, 260, 0x8001, 65531, 65535]),
        _ => random.word(),
    }
}

/// An event that the program has, if it has any, or one that it hasn't.
fn event(random: &mut Random, events: usize, good: bool) -> u16 {
    match good && events > 0 {
        true => random.below(events) as u16,
        false => random.pick(&[events as u16, events as u16, events as u16 + 1, 16, 256, 0x8000, 65535]),
    }
}

/// Events and data in turn: so often in a hundred one of the events is bad, now and then several, mostly none.
fn words(random: &mut Random, events: usize, one: usize) -> BurstWords {
    let mut words = [0; BURST_WORDS];
    let (one, several, place) = (random.percent(one), random.percent(5), random.below(MAX_BURST));
    for (position, pair) in words.chunks_mut(2).enumerate() {
        let bad = (one && position == place) || (several && random.percent(50));
        pair[0] = event(random, events, !bad);
        pair[1] = random.word();
    }
    words
}

/// A burst. Behind its last event's data are zeros, good events, or anything.
pub fn burst(random: &mut Random, events: usize, room: usize) -> Call {
    let count = length(random, room, 6);
    let mut words = words(random, events, 15);
    let used = Handler::new(count, &words).used();
    match random.below(3) {
        0 => words[used..].fill(0),
        1 => words[used..].iter_mut().for_each(|word| *word = random.word()),
        _ => {}
    }
    Call::Burst { count, words }
}

/// A handler at work, at any of its stores, or past its last.
pub fn handler(random: &mut Random, events: usize, room: usize) -> Handler {
    let length = length(random, room, 11);
    let words = words(random, events, 40);
    let last = 2 * length.min(MAX_BURST as u16 + 1);
    let made = match random.below(20) {
        0 => 0,
        1..=14 => random.from(0, last as usize) as u16,
        15 | 16 => last + 1,
        17 => random.from(0, 12) as u16,
        _ => random.pick(&[65535, 65535, 32768, 256]),
    };
    Handler { made, ..Handler::new(length, &words) }
}
