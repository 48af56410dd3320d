//! Any words, any lengths, any device states: no call panics, overflows or goes on for ever, and a refused one
//! changes nothing. The words are noise with enough sense in it to get past the first checks now and then.

use conformance::generate::Random;
use conformance::lines::generate::{any_table, raise};
use conformance::reference::{broken, store_length, Reference, CONTROL, MEMORY, PROGRAM_MARK, STORE_MARK};
use conformance::runtime::*;
use conformance::scenario::{Call, Machine, Table};

fn noise(random: &mut Random, length: usize) -> Vec<u16> {
    (0..length).map(|_| random.word()).collect()
}

fn program(random: &mut Random) -> Vec<u16> {
    let length = random.below(60);
    let mut words = noise(random, length);
    let mut put = |index: usize, word: u16| {
        if let Some(place) = words.get_mut(index) {
            *place = word;
        }
    };
    if random.percent(90) {
        put(0, PROGRAM_MARK);
        put(5, length as u16);
    }
    if random.percent(90) {
        let tasks = random.from(1, 3);
        put(1, tasks as u16);
        put(2, random.below(3) as u16);
        put(3, random.from(1, 4) as u16);
        put(4, random.below(tasks) as u16);
    }
    for body in 0..random.below(6) {
        put(6 + 3 * body, random.from(8, 50) as u16);
        put(7 + 3 * body, random.below(8) as u16);
        put(8 + 3 * body, random.below(2) as u16);
    }
    for index in 24..length {
        if random.percent(60) {
            let word = if index % 2 == 0 { (random.below(18) as u16) << 8 } else { random.below(4) as u16 };
            put(index, word);
        }
    }
    words
}

fn store(random: &mut Random, program: &[u16]) -> Vec<u16> {
    let memory = program.get(3).copied().unwrap_or(1) as usize;
    let (log_pairs, queue_records) = (random.from(1, 3), random.from(1, 3));
    if memory > 1024 || random.percent(5) {
        let length = random.below(60);
        return noise(random, length);
    }
    let mut words = noise(random, store_length(memory, log_pairs, queue_records));
    let log = MEMORY + memory;
    let contents =
        [STORE_MARK as usize, memory, log_pairs, queue_records, CONTROL, MEMORY, log, log + 2 * log_pairs];
    for (index, word) in contents.iter().enumerate() {
        if random.percent(99) {
            words[index] = *word as u16;
        }
    }
    for index in CONTROL..MEMORY {
        if random.percent(95) {
            words[index] = random.below(3) as u16;
        }
    }
    words
}

/// Any words as a line table, of right rows mostly.
fn table(random: &mut Random) -> Vec<u16> {
    if random.percent(70) {
        let events = random.below(3);
        return any_table(random, events);
    }
    let length = random.below(300);
    noise(random, length)
}

fn device(random: &mut Random) -> Device {
    let mut words = [0; DEVICE_WORDS];
    for word in words.iter_mut() {
        *word = if random.percent(85) { random.below(4) as u16 } else { random.word() };
    }
    words[0] = random.percent(90) as u16;
    words[9] %= 3;
    words[10] %= 2;
    words[15] = if random.percent(40) { random.from(1, 3) as u16 } else { 0 };
    if words[9] == 0 {
        words[10] = 0;
        words[11] = 0;
        words[12] = 0;
    }
    if words[9] == 2 {
        words[13] = 0;
    }
    if words[15] == 0 {
        words[16..].fill(0);
    }
    // One that drops, or has dropped, has a burst of one; one that drops no store made.
    if words[15] > 1 {
        words[16] = 1;
    }
    if words[15] == 2 {
        words[17] = 0;
    }
    let used = 2 * words[16].min(4) as usize;
    words[18 + used..].fill(0);
    Device::from_words(&words).expect("a device's words")
}

fn burst(random: &mut Random) -> BurstWords {
    let mut words = [0; BURST_WORDS];
    words.iter_mut().for_each(|word| *word = if random.percent(80) { random.below(3) as u16 } else { random.word() });
    words
}

#[test]
fn any_words() {
    let mut random = Random::new(11);
    let mut seen = [0u32; 34];
    let (mut effective, mut nothing) = (0, 0);
    let mut tables: Vec<Table> = Vec::new();
    for round in 0..300_000 {
        if round % 100 == 0 {
            tables = (0..4).map(|_| table(&mut random).into()).collect();
        }
        let program = program(&mut random);
        let store = store(&mut random, &program);
        let totals = Totals { committed: u32::MAX, accepted: 0, stores: u32::MAX - 1 };
        let mut machine = Machine { program, store, device: device(&mut random), stray: None, totals };
        for _ in 0..random.from(1, 6) {
            let lent = random.pick(&tables);
            let call = match random.below(11) {
                0 => Call::Check,
                1 => Call::Format { log_pairs: random.word(), queue_records: random.word() },
                2 => Call::Boot,
                3 => Call::Post { event: random.below(3) as u16, datum: random.word() },
                4 => Call::Run { budget: random.below(50) as u32 },
                5 => raise(&mut random, &lent),
                6 if random.percent(5) => Call::LinesCheck { table: lent },
                7 => Call::Burst { count: random.below(6) as u16, words: burst(&mut random) },
                _ => Call::Step,
            };
            let before = machine.clone();
            let outcome = machine.call(&Reference, &call).expect("a call of the runtime");
            match outcome.refusal() {
                Some(refusal) => {
                    seen[refusal.number as usize] += 1;
                    if refusal.number == 7 {
                        assert!(broken(&machine.program, &machine.store).all.contains(&refusal.place.0));
                    }
                    if !matches!(call, Call::Run { .. }) {
                        assert_eq!(machine, before);
                    }
                }
                None => {
                    effective += 1;
                    nothing += outcome.nothing_posted() as u32;
                    assert!(!outcome.nothing_posted() || machine == before);
                }
            }
        }
    }
    println!("{effective} calls not refused, of these {nothing} posted nothing; refusals {seen:?}");
    assert!(effective > 5_000 && nothing > 1_000);
    assert!(seen[30..=32].iter().all(|count| *count > 1_000) && seen[33] > 100);
}
