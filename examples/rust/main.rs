//! The counting program of document 01 on the library, from Rust. In the repository's root, after `tools/library.sh`:
//!
//!     rustc -O examples/rust/main.rs -L target/staticlib -l static=exports -o target/counting-rust && target/counting-rust
//!
//! In a cargo project: docs/USING.md.

mod runtime;

use runtime::*;

const COUNTING: [u16; 26] = [
    PROGRAM_MARK_VALUE, 1, 1, 2, 0, 26, // one task, one event, two memory words, entry 0
    12, 5, 0, // the task's row
    22, 2, 0, // the event's row
    0x0800, 0, 0x0010, 1, 0x0201, 0, 0x0900, 0, 0x0F00, 0, // adds 1 to word 0
    0x0900, 1, 0x1000, 0, // saves its data in word 1
];

const LINES: [u16; 2 * LINES_ROW_WORDS] = [
    3, 0, 999, LINES_NO_EVENT, // line 3: silent below level 1000
    3, 1000, 65535, 0, // from there on it raises event 0
];

const LOG_PAIRS: u16 = 1;
const QUEUE_RECORDS: u16 = 1;

fn print(call: &str, answer: Answer) {
    println!("{call:<16} {answer}");
}

fn print_memory(node: &Node) {
    let store = &node.store;
    println!(
        "{:16} memory {} {}, phase {}, begun {}, head {}, tail {}",
        "",
        store[STORE_MEMORY],
        store[STORE_MEMORY + 1],
        store[STORE_PHASE],
        store[STORE_BEGUN],
        store[STORE_HEAD],
        store[STORE_TAIL]
    );
}

fn steps(node: &mut Node, count: u32) {
    for _ in 0..count {
        match node.step() {
            (answer, None) => print("step", answer),
            (answer, Some(index)) => println!("{:<16} {answer}, word {index}", "step"),
        }
    }
}

fn raise(node: &mut Node, table: &[u16], line: u16, level: u16) {
    print(&format!("raise {line} {level}"), node.raise(table, line, level));
}

/// A cut, a boot, then steps while a commit is unfinished.
fn recover(node: &mut Node) {
    print("cut", node.cut());
    print("boot", node.boot());
    while node.store[STORE_PHASE] != PHASE_RUNNING {
        steps(node, 1);
    }
    print_memory(node);
}

fn burst(node: &mut Node, count: u16, words: &[u16; BURST_WORDS]) {
    print(&format!("burst of {count}"), node.burst(count, words));
}

fn main() {
    print("check", check(&COUNTING));
    let mut node = Node::new(&COUNTING, LOG_PAIRS, QUEUE_RECORDS);
    let formatted = node.format(LOG_PAIRS, QUEUE_RECORDS);
    print("format", formatted);
    if formatted != Answer::Done {
        std::process::exit(1);
    }

    print("boot", node.boot());
    steps(&mut node, 9);
    recover(&mut node); // before the commit store: the task is taken up at its first instruction, nothing else of it is left
    steps(&mut node, 9);
    recover(&mut node); // after it: the commit is finished

    print("post", node.post(0, 77));
    steps(&mut node, 3);
    print("post", node.post(0, 78)); // the queue is full: its one record is dropped
    steps(&mut node, 5);
    print("post", node.post(0, 79)); // full again, and the event has begun: REFUSAL_QUEUE_FULL
    steps(&mut node, 7);
    recover(&mut node); // between the head store and the last: head moves on by one slot in all

    let (made, end) = node.run(1500);
    print(&format!("run 1500: {made}"), end);
    print_memory(&node);

    let mut sample = [0, 5, 0, 6, 0, 0, 0, 0]; // event 0 with data 5, event 0 with data 6
    burst(&mut node, 2, &sample); // it doesn't fit into a queue of one record: REFUSAL_QUEUE_FULL
    sample[2] = 1; // the program has event 0 alone: REFUSAL_NO_EVENT, at position 1
    burst(&mut node, 2, &sample);
    burst(&mut node, 5, &sample); // REFUSAL_BURST_LENGTH, whatever its events are
    burst(&mut node, 1, &sample); // as a post: what stands behind its data isn't looked at
    steps(&mut node, 2);
    recover(&mut node); // before its last store: none of it came in

    let mut table = LINES;
    print("lines_check", lines_check(&table));
    raise(&mut node, &table, 3, 999); // its row has no event
    raise(&mut node, &table, 4, 1000); // no row names this line
    raise(&mut node, &table, 3, 1000); // the post of event 0 with the level as data
    steps(&mut node, 3);
    table[LINES_HIGH] = 998; // level 999 is in no row now: REFUSAL_LINES_GAP
    print("lines_check", lines_check(&table));
    raise(&mut node, &table, 3, 1000);

    node.device[DEVICE_ON] = 2; // no device has this word
    steps(&mut node, 1);
    println!(
        "committed {}, accepted {}, stores {}",
        node.totals[TOTALS_COMMITTED], node.totals[TOTALS_ACCEPTED], node.totals[TOTALS_STORES]
    );
}
