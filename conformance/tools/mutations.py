#!/usr/bin/env python3
"""How sharp the generator is: copies of the reference with one line changed each are compared with it.

Each change is a pair of texts, the first of which stands exactly once in src/reference.rs, or in src/lines.rs. The copies are
built in one go in a folder of their own, and for each the calls until the comparison catches it are printed,
or NOT CAUGHT. Changes that don't change the meaning are marked as such and must not be caught.

    tools/mutations.py [FOLDER] [SEEDS]
"""
import os, re, shutil, subprocess, sys

HERE = os.path.dirname(os.path.dirname(os.path.abspath(__file__)))
FOLDER = sys.argv[1] if len(sys.argv) > 1 else "/tmp/conformance-mutations"
SEEDS = int(sys.argv[2]) if len(sys.argv) > 2 else 4000

CHANGES = [
    # 1 to 3
    ("program.len() < 6 || program.len() != program[5] as usize", "program.len() < 6 || program.len() < program[5] as usize"),
    ("[(1, 32), (0, 16), (1, 1024)]", "[(1, 33), (0, 16), (1, 1024)]"),
    ("[(1, 32), (0, 16), (1, 1024)]", "[(1, 32), (0, 17), (1, 1024)]"),
    ("[(1, 32), (0, 16), (1, 1024)]", "[(1, 32), (0, 16), (1, 1025)]"),
    ("[(1, 32), (0, 16), (1, 1024)]", "[(0, 32), (0, 16), (1, 1024)]"),
    ("program[4] >= program[1]", "program[4] > program[1]"),
    ("return Err(refusal_at(3, 4, 0))", "return Err(refusal_at(3, 1, 0))"),
    # 4
    ("row.count >= 1 && row.count <= 256", "row.count <= 256"),
    ("row.count >= 1 && row.count <= 256", "row.count >= 1 && row.count <= 257"),
    ("let most = if body < head.tasks { 255 } else { 0 };", "let most = if body < head.tasks { 256 } else { 0 };"),
    ("let most = if body < head.tasks { 255 } else { 0 };", "let most = if body < head.tasks { 255 } else { 255 };"),
    ("row.start != start || !within_limits(head, body, &row)", "row.start < start || !within_limits(head, body, &row)"),
    ("    if start != head.total {", "    if start > head.total {"),
    ("return Err(refusal_at(4, head.bodies(), 0))", "return Err(refusal_at(4, 0, 0))"),
    ("        start += 2 * row.count;\n", "        start += 2 * row.count;\n        if start > head.total {\n            return Err(refusal_at(4, body, 0));\n        }\n"),
    # 4 in a step
    ("!within_limits(head, body, &row) || !behind_rows || !inside_total", "!behind_rows || !inside_total || row.count == 0 || row.count > 256"),
    ("!within_limits(head, body, &row) || !behind_rows || !inside_total", "!within_limits(head, body, &row) || !inside_total"),
    ("let inside_total = row.start + 2 * row.count <= head.total;", "let inside_total = row.start + 2 * row.count < head.total;"),
    ("let row = use_row(program, head, number)?;", "if head.rows_end() > head.total { return Err(refusal_at(4, number, 0)); }\n    let row = use_row(program, head, number)?;"),
    ("let next_row = use_row(program, head, k as usize)?;", "let next_row = self::row(program, k as usize);\n        if !within_limits(head, k as usize, &next_row) { return Err(refusal_at(4, k as usize, 0)); }"),
    # 5
    ("let most = if used { 7 } else { 0 };", "let most = if used { 8 } else { 0 };\n        let field = if field == 8 { 7 } else { field };"),
    ("let most = if used { 7 } else { 0 };", "let most = if used { 7 } else { 15 };"),
    ("K::Unused => 1,", "K::Unused => 65536,"),
    ("K::Shift => SHIFTS,", "K::Shift => 15,"),
    ("K::Shift => SHIFTS,", "K::Shift => 17,"),
    ("K::Memory => head.memory,", "K::Memory => 1024,"),
    ("K::Instruction => row.count,", "K::Instruction => 256,"),
    ("In::Tasks => body < head.tasks,", "In::Tasks => true,"),
    ("In::Events => body >= head.tasks,", "In::Events => true,"),
    ("if index + 1 == row.count && !rule.last {", "if false {"),
    ("if index + 1 == row.count && !rule.last {", "if index + 1 == row.count && !rule.last && opcode != JZ {"),
    # 6 and 9
    ("log_pairs >= 1 && log_pairs <= 64 && queue_records >= 1", "log_pairs >= 1 && log_pairs <= 65 && queue_records >= 1"),
    ("log_pairs >= 1 && log_pairs <= 64 && queue_records >= 1", "log_pairs >= 1 && log_pairs <= 64"),
    ("queue_records <= 32\n", "queue_records <= 33\n"),
    ("if store[0..8] != contents_words(head.memory, log_pairs, queue_records) {", "if store[0..7] != contents_words(head.memory, log_pairs, queue_records)[0..7] {"),
    ("if store[0..8] != contents_words(head.memory, log_pairs, queue_records) {", "if store[1..8] != contents_words(head.memory, log_pairs, queue_records)[1..8] {"),
    ("if store.len() != store_length(head.memory, log_pairs, queue_records) {\n        return Err(refusal(6));\n    }\n    let log", "if store.len() < store_length(head.memory, log_pairs, queue_records) {\n        return Err(refusal(6));\n    }\n    let log"),
    # 7
    ("require(phase <= 2, PHASE);", "require(phase <= 2, TASK);"),
    ("require(word(TASK) < head.tasks, TASK);", "require(word(TASK) <= head.tasks, TASK);"),
    ("        require(word(OPEN) == 0, OPEN);", "        require(true, OPEN);"),
    ("require(word(HEAD) <= parts.queue_records, HEAD);", "require(word(HEAD) < parts.queue_records, HEAD);"),
    ("require(word(TAIL) <= parts.queue_records, TAIL);", "require(word(TAIL) < parts.queue_records, TAIL);"),
    ("require(word(COUNT) <= parts.log_pairs, COUNT);", "require(word(COUNT) < parts.log_pairs, COUNT);"),
    ("    if phase == 1 || phase == 2 {\n", "    if phase <= 2 {\n"),
    ("        require(word(PENDING) < head.tasks, PENDING);", "        require(true, PENDING);"),
    ("&& word(HEAD) != word(TAIL);\n        require", ";\n        require"),
    ("let stays = word(PENDING) == word(HEAD);", "let stays = false;"),
    ("    if phase == 0 && sound[TASK] && store[OPEN] != 0 {", "    if phase <= 1 && sound[TASK] && store[OPEN] != 0 {"),
    ("    if phase == 1 && sound[PENDING] && store[PENDING_OPEN] != 0 {", "    if false && sound[PENDING] && store[PENDING_OPEN] != 0 {"),
    ("    let first = if phase == 2 { PENDING } else { HEAD };", "    let first = HEAD;"),
    ("    if phase != 0 && sound[COUNT] {", "    if phase == 1 && sound[COUNT] {"),
    ("        while slot != store[TAIL] as usize {", "        for _ in 0..parts.queue_records {"),
    # 7, of several rules the lowest word
    ("    broken_in_control(head, parts, store, |place| lowest = lowest.min(place));", "    broken_in_control(head, parts, store, |place| lowest = place);"),
    ("    broken_in_control(head, parts, store, |place| lowest = lowest.min(place));", "    broken_in_control(head, parts, store, |place| if lowest == NO_WORD { lowest = place });"),
    ("    broken_in_control(head, parts, store, |place| lowest = lowest.min(place));", "    broken_in_control(head, parts, store, |place| lowest = if lowest == NO_WORD { place } else { lowest.max(place) });"),
    ("    broken_in_store(program, head, parts, store, |place| lowest = lowest.min(place));", "    broken_in_store(program, head, parts, store, |place| lowest = place);"),
    ("    broken_in_store(program, head, parts, store, |place| lowest = lowest.min(place));", "    broken_in_store(program, head, parts, store, |place| if lowest == NO_WORD { lowest = place });"),
    ("    broken_in_store(program, head, parts, store, |place| lowest = lowest.min(place));", "    broken_in_store(program, head, parts, store, |place| lowest = if lowest == NO_WORD { place } else { lowest.max(place) });"),
    ("        require(word(PENDING) <= parts.queue_records, PENDING);", "        require(true, PENDING);"),
    ("        require(word(PENDING) <= parts.queue_records, PENDING);", "        require(word(PENDING) < parts.queue_records, PENDING);"),
    ("        require(word(PENDING) <= parts.queue_records, PENDING);", "        require(word(PENDING) <= parts.queue_records + 1, PENDING);"),
    ("    if phase == 2 {\n        require(word(PENDING)", "    if phase >= 1 {\n        require(word(PENDING)"),
    ("    if phase == 2 && word(HEAD) <= parts.queue_records && word(TAIL) <= parts.queue_records {", "    if phase == 2 {"),
    ("    if phase == 2 && word(HEAD) <= parts.queue_records && word(TAIL) <= parts.queue_records {", "    if phase == 2 && word(HEAD) <= parts.queue_records {"),
    ("    if phase == 2 && word(HEAD) <= parts.queue_records && word(TAIL) <= parts.queue_records {", "    if phase == 2 && word(TAIL) <= parts.queue_records {"),
    ("        for pair in 0..store[COUNT] as usize {", "        for pair in (0..store[COUNT] as usize).rev() {", "same meaning"),
    ("        for pair in 0..store[COUNT] as usize {", "        for pair in 1..store[COUNT] as usize {"),
    ("                name(at);\n            }\n            slot = parts.after(slot);", "                name(at);\n                break;\n            }\n            slot = parts.after(slot);"),
    ("    check_control(&head, &parts, store)?;\n", "    check_control(&head, &parts, store).or_else(|_| check_store(program, &head, &parts, store))?;\n"),
    ("    check_store(program, &head, &parts, store)?;\n", "    check_control(&head, &parts, store)?;\n    check_store(program, &head, &parts, store)?;\n"),
    # .. of word 16
    ("require(word(BEGUN) <= EVENT_BEGUN as usize, BEGUN);", "require(true, BEGUN);"),
    ("require(word(BEGUN) <= EVENT_BEGUN as usize, BEGUN);", "require(word(BEGUN) <= 3, BEGUN);"),
    ("require(word(BEGUN) <= EVENT_BEGUN as usize, BEGUN);", "require(phase > 0 || word(BEGUN) <= EVENT_BEGUN as usize, BEGUN);"),
    ("require(word(BEGUN) <= EVENT_BEGUN as usize, BEGUN);", "require(phase == 1 || word(BEGUN) <= EVENT_BEGUN as usize, BEGUN);"),
    ("require(word(BEGUN) <= EVENT_BEGUN as usize, BEGUN);", "require(phase == 2 || word(BEGUN) <= EVENT_BEGUN as usize, BEGUN);"),
    ("    if phase == 0 && word(BEGUN) == EVENT_BEGUN as usize && ring {", "    if phase <= 1 && word(BEGUN) == EVENT_BEGUN as usize && ring {"),
    ("    if phase == 0 && word(BEGUN) == EVENT_BEGUN as usize && ring {", "    if phase != 1 && word(BEGUN) == EVENT_BEGUN as usize && ring {"),
    ("    if phase == 0 && word(BEGUN) == EVENT_BEGUN as usize && ring {", "    if phase == 0 && word(BEGUN) > 0 && ring {"),
    ("    if phase == 0 && word(BEGUN) == EVENT_BEGUN as usize && ring {", "    if phase == 0 && word(BEGUN) == EVENT_BEGUN as usize {", "same meaning"),
    ("require(word(HEAD) != word(TAIL) && word(OPEN) == 0, BEGUN);", "require(word(HEAD) != word(TAIL), BEGUN);"),
    ("require(word(HEAD) != word(TAIL) && word(OPEN) == 0, BEGUN);", "require(word(OPEN) == 0, BEGUN);"),
    ("require(word(HEAD) != word(TAIL) && word(OPEN) == 0, BEGUN);", "require(word(HEAD) != word(TAIL) || word(OPEN) == 0, BEGUN);"),
    ("require(word(HEAD) != word(TAIL) && word(OPEN) == 0, BEGUN);", "require(word(HEAD) != word(TAIL) && word(OPEN) == 0, HEAD);"),
    ("require(word(HEAD) != word(TAIL) && word(OPEN) == 0, BEGUN);", "require(word(HEAD) != word(TAIL), BEGUN);\n        require(word(OPEN) == 0, OPEN);"),
    # .. where a rule that is passed over has a higher word than the broken one that it needs
    ("    if phase == 0 && sound[TASK] && store[OPEN] != 0 {", "    if phase == 0 && store[OPEN] != 0 {", "same meaning"),
    ("    if phase == 1 && sound[PENDING] && store[PENDING_OPEN] != 0 {", "    if phase == 1 && store[PENDING_OPEN] != 0 {", "same meaning"),
    ("    if sound[first] && sound[TAIL] {", "    if sound[HEAD] && sound[first] && sound[TAIL] {", "same meaning"),
    # 25, early
    ("        return *device != Device::OFF;", "        return false;"),
    ("if device.log_count as usize > look.parts.log_pairs {", "if device.log_count as usize >= look.parts.log_pairs {"),
    # .. of a handler at work
    ("    length == 0\n        || length > MAX_BURST\n", "    length > MAX_BURST\n"),
    ("        || length > MAX_BURST\n", ""),
    ("        || length > MAX_BURST\n", "        || length > MAX_BURST + 1\n"),
    ("        || length > MAX_BURST\n", "        || length >= MAX_BURST\n"),
    ("        || handler.made as usize > 2 * length\n", ""),
    ("        || handler.made as usize > 2 * length\n", "        || handler.made as usize > 2 * length + 1\n"),
    ("        || handler.made as usize > 2 * length\n", "        || handler.made as usize >= 2 * length\n"),
    ("        || handler.made as usize > 2 * length\n", "        || handler.made as usize > 2 * MAX_BURST\n"),
    ("        || (handler.work != Work::Dropping && length > look.room(store))\n", ""),
    ("(handler.work != Work::Dropping && length > look.room(store))", "(handler.work != Work::Dropping && look.room(store) == 0)"),
    ("(handler.work != Work::Dropping && length > look.room(store))", "(handler.work != Work::Dropping && length >= look.room(store))"),
    ("(handler.work != Work::Dropping && length > look.room(store))", "(handler.work != Work::Dropping && length > look.room(store) + 1)"),
    ("(handler.work != Work::Dropping && length > look.room(store))", "(handler.work != Work::Dropping && length.saturating_sub(handler.made as usize / 2) > look.room(store))"),
    ("(handler.work != Work::Dropping && length > look.room(store))", "(handler.work != Work::Dropping && length > look.room(store) && handler.made == 0)"),
    ("        || first_bad_event(look, length, &handler.words).is_some()\n", ""),
    ("        || first_bad_event(look, length, &handler.words).is_some()\n", "        || first_bad_event(look, length.min(1), &handler.words).is_some()\n"),
    ("        || first_bad_event(look, length, &handler.words).is_some()\n", "        || first_bad_event(look, length - 1, &handler.words).is_some()\n"),
    ("        || first_bad_event(look, length, &handler.words).is_some()\n", "        || first_bad_event(look, length, &handler.words).is_some_and(|position| 2 * position >= handler.made as usize)\n"),
    ("        || first_bad_event(look, length, &handler.words).is_some()\n", "        || first_bad_event(look, length, &handler.words).is_some_and(|position| 2 * position < handler.made as usize)\n"),
    ("        || first_bad_event(look, length, &handler.words).is_some()\n", "        || first_bad_event(look, MAX_BURST, &handler.words).is_some()\n", "same meaning"),
    # bursts: events, room
    (".position(|event| *event as usize >= look.head.events)", ".position(|event| *event as usize > look.head.events)"),
    ("words.iter().step_by(2).take(length)", "words.iter().take(length)"),
    ("words.iter().step_by(2).take(length)", "words.iter().skip(1).step_by(2).take(length)"),
    ("words.iter().step_by(2).take(length)", "words.iter().step_by(2)"),
    ("            self.parts.queue_records - (tail - head)\n", "            self.parts.queue_records + 1 - (tail - head)\n"),
    ("            self.parts.queue_records - (tail - head)\n", "            (self.parts.queue_records - (tail - head)).max(1)\n"),
    ("            head - tail - 1\n", "            head - tail\n"),
    ("            head - tail - 1\n", "            0\n"),
    ("        if head <= tail {\n", "        if head < tail {\n"),
    ("        let (head, tail) = (store[HEAD] as usize, store[TAIL] as usize);\n        if head", "        let (head, tail) = (store[if store[PHASE] == 2 { PENDING } else { HEAD }] as usize, store[TAIL] as usize);\n        if head"),
    # bursts: the call
    ("    if length == 0 || length > MAX_BURST {\n", "    if length > MAX_BURST {\n"),
    ("    if length == 0 || length > MAX_BURST {\n", "    if length == 0 || length > MAX_BURST + 1 {\n"),
    ("    if length == 0 || length > MAX_BURST {\n", "    if length == 0 || length >= MAX_BURST {\n"),
    ("    if length == 0 || length > MAX_BURST {\n", "    if length == 0 || length % 256 > MAX_BURST {\n"),
    ("    if length == 0 || length > MAX_BURST {\n", "    if length == 0 || length > MAX_BURST.min(store[3] as usize) {\n"),
    ("        return Err(refusal_at(8, position, 0));", "        return Err(refusal_at(8, 0, position));"),
    ("        return Err(refusal_at(8, position, 0));", "        return Err(refusal_at(8, 0, 0));"),
    ("        return Err(refusal_at(8, position, 0));", "        return Err(refusal_at(8, 2 * position, 0));"),
    ("work == Work::Storing && length > look.room(store)", "work == Work::Storing && length >= look.room(store)"),
    ("work == Work::Storing && length > look.room(store)", "work == Work::Storing && look.room(store) == 0"),
    ("work == Work::Storing && length > look.room(store)", "work == Work::Storing && length > look.room(store) + 1"),
    ("Some(Handler { work, ..Handler::new(count, words) })", "Some(Handler { work, words: *words, ..Handler::new(count, words) })"),
    # drops: which posts drop
    ("self.room(store) == 0 && store[BEGUN] != EVENT_BEGUN && store[PHASE] != 2", "store[BEGUN] != EVENT_BEGUN && store[PHASE] != 2"),
    ("self.room(store) == 0 && store[BEGUN] != EVENT_BEGUN && store[PHASE] != 2", "self.room(store) == 0 && store[PHASE] != 2"),
    ("self.room(store) == 0 && store[BEGUN] != EVENT_BEGUN && store[PHASE] != 2", "self.room(store) == 0 && store[BEGUN] != EVENT_BEGUN"),
    ("self.room(store) == 0 && store[BEGUN] != EVENT_BEGUN && store[PHASE] != 2", "self.room(store) == 0 && store[BEGUN] == NOTHING_BEGUN && store[PHASE] != 2"),
    ("self.room(store) == 0 && store[BEGUN] != EVENT_BEGUN && store[PHASE] != 2", "self.room(store) == 0 && store[BEGUN] != EVENT_BEGUN && store[PHASE] == 0"),
    ("self.room(store) == 0 && store[BEGUN] != EVENT_BEGUN && store[PHASE] != 2", "self.room(store) == 0 && (store[BEGUN] != EVENT_BEGUN || store[PHASE] == 1) && store[PHASE] != 2"),
    ("self.room(store) == 0 && store[BEGUN] != EVENT_BEGUN && store[PHASE] != 2", "self.room(store) == 0 && store[BEGUN] != EVENT_BEGUN && (store[PHASE] != 2 || store[PENDING] == store[HEAD])"),
    ("self.room(store) == 0 && store[BEGUN] != EVENT_BEGUN && store[PHASE] != 2", "self.room(store) == 0 && store[OPEN] == 0 && store[BEGUN] != EVENT_BEGUN && store[PHASE] != 2"),
    ("if length == 1 && look.drops(store) { Work::Dropping }", "if length <= 2 && look.drops(store) { Work::Dropping }"),
    ("if length == 1 && look.drops(store) { Work::Dropping }", "if length == 1 && look.drops(store) { return Err(refusal(21)) }"),
    # .. 25 of a handler that drops
    ("        || (handler.work == Work::Dropping && !look.drops(store))\n", ""),
    ("(handler.work == Work::Dropping && !look.drops(store))", "(handler.work == Work::Dropping && look.room(store) > 0)"),
    ("(handler.work == Work::Dropping && !look.drops(store))", "(handler.work == Work::Dropping && (store[BEGUN] == EVENT_BEGUN || store[PHASE] == 2))"),
    ("(handler.work == Work::Dropping && !look.drops(store))", "(handler.work != Work::Storing && !look.drops(store))"),
    ("(handler.work != Work::Dropping && length > look.room(store))", "(handler.work == Work::Storing && length > look.room(store))"),
    ("(handler.work != Work::Dropping && length > look.room(store))", "length > look.room(store)"),
    # .. the stores
    ("    if node.store[slot] as usize >= look.head.events {\n        return Err(refusal_at(7, slot, 0));\n    }\n    node.make((HEAD", "    node.make((HEAD"),
    ("    if node.store[slot] as usize >= look.head.events {\n        return Err(refusal_at(7, slot, 0));", "    if node.store[slot] as usize > look.head.events {\n        return Err(refusal_at(7, slot, 0));"),
    ("    if node.store[slot] as usize >= look.head.events {\n        return Err(refusal_at(7, slot, 0));", "    if node.store[slot] as usize >= look.head.events {\n        return Err(refusal_at(7, slot + 1, 0));"),
    ("    if node.store[slot] as usize >= look.head.events {\n        return Err(refusal_at(7, slot, 0));", "    if node.store[slot] as usize >= look.head.events {\n        return Err(refusal_at(7, HEAD, 0));"),
    ("node.make((HEAD, look.parts.after(head) as u16));", "node.make((HEAD, head as u16 + 1));"),
    ("node.make((HEAD, look.parts.after(head) as u16));", "node.make((HEAD, look.parts.past(head, 1 + look.parts.queue_records / 32) as u16));"),
    ("node.make((HEAD, look.parts.after(head) as u16));", "node.make((HEAD, node.store[TAIL]));"),
    ("Some(Handler { work: Work::Replacing, ..handler })", "Some(Handler { work: Work::Storing, ..handler })"),
    ("Some(Handler { work: Work::Replacing, ..handler })", "Some(Handler { work: Work::Replacing, made: 1, ..handler })"),
    ("    Ok(Answer::Stored)\n}\n\n/// A handler at work makes", "    Ok(Answer::Accepted(None))\n}\n\n/// A handler at work makes"),
    # .. the accepting answer
    ("look.parts.slot(look.parts.after(tail));\n    let dropped", "look.parts.slot(tail);\n    let dropped"),
    ("look.parts.slot(look.parts.after(tail));\n    let dropped", "look.parts.slot(node.store[HEAD] as usize);\n    let dropped"),
    ("look.parts.slot(look.parts.after(tail));\n    let dropped", "look.parts.slot(look.parts.after(tail.min(look.parts.queue_records - 1)));\n    let dropped"),
    ("(node.store[slot], node.store[slot + 1]);", "(node.store[slot + 1], node.store[slot]);"),
    ("(handler.work == Work::Replacing).then_some(dropped)", "None"),
    ("(handler.work == Work::Replacing).then_some(dropped)", "(handler.work == Work::Replacing).then_some(handler.record())"),
    ("(handler.work == Work::Replacing).then_some(dropped)", "Some(dropped)"),
    ("add(&mut node.totals.accepted, handler.length as u32);", "if handler.work == Work::Storing {\n        add(&mut node.totals.accepted, handler.length as u32);\n    }"),
    # bursts: the stores
    ("look.parts.past(tail, made / 2)", "tail"),
    ("look.parts.past(tail, made / 2)", "look.parts.past(tail, made % length)"),
    ("look.parts.past(tail, made / 2)", "(tail + made / 2).min(look.parts.queue_records)"),
    ("look.parts.past(tail, made / 2)", "look.parts.past(tail, length - 1 - made / 2)"),
    ("handler.words[made]));", "handler.words[made ^ 1]));"),
    ("handler.words[made]));", "handler.words[made | (made == 2) as usize]));"),
    ("(slot + made % 2, handler", "(slot + 1 - made % 2, handler"),
    ("    if made < 2 * length {\n", "    if made + 1 < 2 * length {\n"),
    ("    if made < 2 * length {\n", "    if made < 2 * length.min(3) {\n"),
    ("(TAIL, look.parts.past(tail, length) as u16)", "(TAIL, look.parts.past(tail, 1) as u16)"),
    ("(TAIL, look.parts.past(tail, length) as u16)", "(TAIL, (tail + length) as u16)"),
    ("        if slot + many < slots {\n", "        if slot + many <= slots {\n"),
    ("        let slots = self.queue_records + 1;\n", "        let slots = self.queue_records.max(4);\n"),
    ("handler.length as u32);\n    node.device.handler = None;", "1);\n    node.device.handler = None;"),
    ("Some(Handler { made: handler.made + 1, ..handler })", "Some(Handler { made: handler.made + 1, words: { let mut words = handler.words; words[made] = 0; words }, ..handler })"),
    ("                1 => n + 3,", "                1 => n + 4,"),
    ("                1 => n + 3,", "                1 => n + 2,"),
    ("                _ => n + 2,", "                _ => n + 3,"),
    ("                0 => 0,\n                1 => n + 3,", "                0 => 1,\n                1 => n + 3,"),
    ("task as usize >= look.head.tasks || task != store[TASK]", "task as usize >= look.head.tasks"),
    # .. which a 2 in word 16 rules out already
    ("event as usize >= look.head.events || store[OPEN] != 0 ||", "event as usize >= look.head.events ||", "same meaning"),
    (" || store[OPEN] != 0 || look.queue_empty(store) {", " || store[OPEN] != 0 {", "same meaning"),
    ("            3\n        }", "            4\n        }"),
    ("            2\n        }\n    };", "            3\n        }\n    };"),
    ("        _ => device.log_count as usize == look.parts.log_pairs,", "        _ => false,"),
    # 25, what word 16 says
    ("    if phase == 0 && store[BEGUN] != running_word(device) {", "    if store[BEGUN] != running_word(device) {"),
    ("    if phase == 0 && store[BEGUN] != running_word(device) {", "    if phase == 0 && store[BEGUN] > running_word(device) {"),
    ("    if phase == 0 && store[BEGUN] != running_word(device) {", "    if phase == 0 && store[BEGUN] < running_word(device) {"),
    ("    if phase == 0 && store[BEGUN] != running_word(device) {", "    if phase == 0 && device.handler.is_none() && store[BEGUN] != running_word(device) {"),
    ("    if phase == 0 && store[BEGUN] != running_word(device) {", "    if phase == 0 && device.place != (Place::NoBody { commit: 0 }) && store[BEGUN] != running_word(device) {"),
    ("    if phase == 0 && store[BEGUN] != running_word(device) {", "    if phase == 0 && (store[BEGUN] == 0) != (running_word(device) == 0) {"),
    ("    if !device.on {\n        return *device != Device::OFF;", "    if !device.on {\n        return *device != Device::OFF || (store[PHASE] == 0 && store[BEGUN] != 0);"),
    # the order
    ("    check_control(&head, &parts, store)?;\n    let look = Look { head, parts };\n    if state_unlike(&look, store, device) {\n        return Err(refusal(25));\n    }", "    let look = Look { head, parts };\n    check_control(&look.head, &look.parts, store)?;\n    if device.on && state_unlike(&look, store, device) {\n        return Err(refusal(25));\n    }"),
    ("    if let Some(position) = first_bad_event(&look, length, words) {\n        return Err(refusal_at(8, position, 0));\n    }\n    if device.handler.is_some() {\n        return Err(refusal(20));\n    }", "    if device.handler.is_some() {\n        return Err(refusal(20));\n    }\n    if let Some(position) = first_bad_event(&look, length, words) {\n        return Err(refusal_at(8, position, 0));\n    }"),
    ("    if device.handler.is_some() {\n        return Err(refusal(20));\n    }\n    let work = if length == 1 && look.drops(store) { Work::Dropping } else { Work::Storing };\n    if work == Work::Storing && length > look.room(store) {\n        return Err(refusal(21));\n    }", "    let work = if length == 1 && look.drops(store) { Work::Dropping } else { Work::Storing };\n    if work == Work::Storing && length > look.room(store) {\n        return Err(refusal(21));\n    }\n    if device.handler.is_some() {\n        return Err(refusal(20));\n    }"),
    ("    if length == 0 || length > MAX_BURST {\n        return Err(refusal(33));\n    }\n    if let Some(position) = first_bad_event(&look, length, words) {\n        return Err(refusal_at(8, position, 0));\n    }", "    if let Some(position) = first_bad_event(&look, length, words) {\n        return Err(refusal_at(8, position, 0));\n    }\n    if length == 0 || length > MAX_BURST {\n        return Err(refusal(33));\n    }"),
    ("    let look = look(program, store, device)?;\n    let length = count as usize;\n    if length == 0 || length > MAX_BURST {\n        return Err(refusal(33));\n    }", "    let length = count as usize;\n    if length == 0 || length > MAX_BURST {\n        return Err(refusal(33));\n    }\n    let look = look(program, store, device)?;"),
    ("    let look = look(program, store, device)?;\n    let length = count as usize;\n    if length == 0 || length > MAX_BURST {\n        return Err(refusal(33));\n    }", "    let length = count as usize;\n    let bad = length == 0 || length > MAX_BURST;\n    let look = match look(program, store, device) {\n        Err(Refusal { number: 22, .. }) if bad => return Err(refusal(33)),\n        other => other?,\n    };\n    if bad {\n        return Err(refusal(33));\n    }"),
    ("    check_store(program, &head, &parts, store)?;\n    if device.on {\n        return Err(refusal(26));\n    }", "    if device.on {\n        return Err(refusal(26));\n    }\n    check_store(program, &head, &parts, store)?;"),
    ("        unlike = store[slot] != event;", "        if store[slot] != event {\n            return Err(refusal(25));\n        }"),
    ("        unlike = store[slot] != event;", "        unlike = false;\n        let _ = event;"),
    ("        if store[slot] as usize >= head.events {\n            return Err(refusal_at(7, slot, 0));\n        }\n        unlike = store[slot] != event;", "        unlike = store[slot] != event;"),
    ("    if let Body::Task(_) = body {\n        if store[OPEN] != 0 && store[OPEN] != row.transaction {\n            return Err(refusal_at(7, OPEN, 0));\n        }\n    }", ""),
    ("    let Some(instruction) = instruction else { return Err(refusal(25)) };", "    let Some(instruction) = instruction else { return Err(refusal_at(5, number, index)) };"),
    ("    let mut instruction = None;\n    if index < row.count {", "    let mut instruction = None;\n    if index >= row.count {\n        return Err(refusal(25));\n    } else {"),
    ("    if half && opcode != SAVE && opcode != SAVEX {", "    if half && opcode != SAVE {"),
    ("    if ending > 0 && opcode != GO && opcode != DONE {", "    if false {"),
    ("    let row = use_row(program, head, number)?;\n", "    if half && node.device.log_count == 0 && store[OPEN] != 0 && Some(&store[OPEN]) != program.get(8 + 3 * number) { return Err(refusal_at(7, OPEN, 0)); }\n    let row = use_row(program, head, number)?;\n"),
    # the order, finer
    ("    // 4: at GO, task k's row; with it the new open number.\n", "    if matches!(body, Body::Task(_)) && store[OPEN] != 0 && store[OPEN] != row.transaction {\n        return Err(refusal_at(7, OPEN, 0));\n    }\n"),
    ("    let mut instruction = None;\n    if index < row.count {", "    if matches!(body, Body::Task(_)) && store[OPEN] != 0 && store[OPEN] != row.transaction {\n        return Err(refusal_at(7, OPEN, 0));\n    }\n    let mut instruction = None;\n    if index < row.count {"),
    ("            return Err(refusal_at(7, slot, 0));\n        }\n        unlike = store[slot] != event;", "            use_row(program, head, number)?;\n            return Err(refusal_at(7, slot, 0));\n        }\n        unlike = store[slot] != event;"),
    ("    // The rest of 7: a running task", "    if half && instruction.as_ref().map_or(true, |i| i.opcode != SAVE && i.opcode != SAVEX) {\n        return Err(refusal(25));\n    }\n    // The rest of 7: a running task"),
    ("    // The rest of 7: a running task", "    if ending > 0 && instruction.as_ref().map_or(true, |i| i.opcode != GO && i.opcode != DONE) {\n        return Err(refusal(25));\n    }\n    // The rest of 7: a running task"),
    ("    if has_address && address >= look.head.memory {\n        return Err(refusal(23));\n    }\n    let found = if has_address { search(look, node.store, log_count, address) } else { None };", "    let found = if has_address { search(look, node.store, log_count, address) } else { None };\n    if (opcode == SAVE || opcode == SAVEX) && found.is_none() && log_count as usize == look.parts.log_pairs {\n        return Err(refusal(24));\n    }\n    if has_address && address >= look.head.memory {\n        return Err(refusal(23));\n    }"),
    ("    match handler {\n        Some(handler) if handler.work", "    if let (Some(_), Place::Running { body, .. }) = (handler, place) {\n        use_row(program, &look.head, look.head.body_number(body))?;\n    }\n    match handler {\n        Some(handler) if handler.work"),
    ("    let look = look(program, store, device)?;\n    let length", "    let look = look(program, store, device)?;\n    check_store(program, &look.head, &look.parts, store)?;\n    let length"),
    ("            if node.store[PHASE] != 0 {\n", "            if node.store[PHASE] != 0 {\n                check_store(program, &look.head, &look.parts, node.store)?;\n"),
    ("                choose(&look, node)\n", "                if node.store[OPEN] != 0 || look.queue_empty(node.store) { use_row(program, &look.head, node.store[TASK] as usize)?; }\n                choose(&look, node)\n"),
    ("        return Ok(second_half(look, node, stand, &instruction));", "        if node.device.registers[instruction.b] as usize + instruction.k as usize >= head.memory && opcode == SAVEX { return Err(refusal(23)); }\n        return Ok(second_half(look, node, stand, &instruction));"),
    ("    let pair = look.parts.pair(node.device.log_count as usize);\n    node.make", "    let pair = look.parts.pair(node.device.log_count as usize);\n    let pair = if node.device.log_count == 63 { pair - 2 } else { pair };\n    node.make"),
    ("    if device.on {\n        return Err(refusal(26));\n    }\n", "    if device.on {\n        return Err(refusal(26));\n    }\n    if *device != Device::OFF {\n        return Err(refusal(25));\n    }\n"),
    # the word told as stored
    ("        self.store[index] = word;\n        *self.made = Some(index);", "        if self.store[index] != word {\n            *self.made = Some(index);\n        }\n        self.store[index] = word;"),
    ("        *self.made = Some(index);", "        *self.made = Some(index - (index == PENDING_OPEN) as usize);"),
    # meaning
    ("        if row.transaction == next_row.transaction {", "        if true {"),
    ("(TASK, store[PENDING]), (OPEN, store[PENDING_OPEN]), (BEGUN", "(OPEN, store[PENDING_OPEN]), (TASK, store[PENDING]), (BEGUN"),
    ("        if address >= look.head.memory {\n            return Err(refusal_at(7, pair, 0));", "        if address >= look.head.memory {\n            return Err(refusal(23));"),
    ("    if made.0 == PHASE {\n        *node.device = Device::ON;", "    if made.0 == PHASE {\n        node.device.place = Place::NoBody { commit: 0 };"),
    ("        *node.device = Device::ON;\n        return Answer::Committed(body);", "        node.device.place = Place::NoBody { commit: 0 };\n        return Answer::Committed(body);"),
    ("        device.registers[0] = store[parts.slot(store[HEAD] as usize) + 1];\n", ""),
    ("    device.registers = [0; 8];\n", ""),
    ("    device.log_count = 0;\n", ""),
    ("    let event = store[OPEN] == 0 && !look.queue_empty(store);", "    let event = !look.queue_empty(store);"),
    # word 16: choosing, commits, boots
    ("    node.make((BEGUN, begun_word(body)));\n", ""),
    ("    node.make((BEGUN, begun_word(body)));", "    node.store[BEGUN] = begun_word(body);"),
    ("    node.make((BEGUN, begun_word(body)));", "    node.make((BEGUN, TASK_BEGUN));"),
    ("(OPEN, store[PENDING_OPEN]), (BEGUN, NOTHING_BEGUN), (PHASE, 0)]", "(BEGUN, NOTHING_BEGUN), (OPEN, store[PENDING_OPEN]), (PHASE, 0)]"),
    ("(OPEN, store[PENDING_OPEN]), (BEGUN, NOTHING_BEGUN), (PHASE, 0)]", "(OPEN, store[PENDING_OPEN]), (BEGUN, store[BEGUN]), (PHASE, 0)]"),
    ("&[(HEAD, store[PENDING]), (BEGUN, NOTHING_BEGUN), (PHASE, 0)]", "&[(BEGUN, NOTHING_BEGUN), (HEAD, store[PENDING]), (PHASE, 0)]"),
    ("&[(HEAD, store[PENDING]), (BEGUN, NOTHING_BEGUN), (PHASE, 0)]", "&[(HEAD, store[PENDING]), (BEGUN, store[BEGUN]), (PHASE, 0)]"),
    ("    take_up(&parts, store, device);\n", ""),
    ("        _ if store[PHASE] != 0 => {}\n", "        _ if store[PHASE] == 1 => {}\n"),
    ("        _ if store[PHASE] != 0 => {}\n", "        _ if store[PHASE] == 2 => {}\n"),
    ("        TASK_BEGUN => begin(", "        TASK_BEGUN if store[OPEN] == 0 => begin("),
    ("        TASK_BEGUN => begin(", "        TASK_BEGUN if store[HEAD] == store[TAIL] => begin("),
    ("        EVENT_BEGUN => begin(", "        EVENT_BEGUN if store[HEAD] != 0 => begin("),
    ("    if let Body::Event(_) = body {\n        device", "    if store[HEAD] != store[TAIL] {\n        device"),
    ("let head_after = look.parts.after(store[HEAD] as usize) as u16;", "let head_after = look.parts.after(store[if ending == 1 { HEAD } else { PENDING }] as usize) as u16;", "same meaning"),
    ("let stores = [(COUNT, n), (PENDING, head_after), (PHASE, 2)];", "let stores = [(PENDING, head_after), (COUNT, n), (PHASE, 2)];"),
    ("        if store[pair] as usize == address {\n            return Some(pair);\n        }", "        if store[pair] as usize == address && number + 1 < 64 {\n            return Some(pair);\n        }"),
    ("LOADX | SAVEX => k as usize + rb as usize,", "LOADX | SAVEX => k.wrapping_add(rb) as usize,"),
    ("LOADX | SAVEX => k as usize + rb as usize,", "LOADX | SAVEX => k as usize + signed(rb).max(0) as usize,"),
    ("    if has_address && address >= look.head.memory {", "    if has_address && address > look.head.memory {"),
    ("signed(ra).div_euclid(power_of_two(k))", "signed(ra) / power_of_two(k)"),
    ("signed(ra).div_euclid(power_of_two(k))", "(signed(ra) + power_of_two(k) / 2).div_euclid(power_of_two(k))"),
    ("signed(ra).div_euclid(power_of_two(k))", "(ra as i32).div_euclid(power_of_two(k))"),
    ("signed(ra).div_euclid(power_of_two(k))", "signed(ra).div_euclid(power_of_two(k) as i16 as i32)"),
    ("signed(ra).div_euclid(power_of_two(k))", "signed(ra) >> k", "same meaning"),
    ("    let mut power = 1;\n", "    let mut power = 2;\n"),
    ("    for _ in 0..k {\n        power", "    for _ in 0..=k {\n        power"),
    ("    for _ in 0..k {\n        power", "    for _ in 1..k {\n        power"),
    ("    for _ in 0..k {\n        power", "    for _ in 0..k.min(14) {\n        power"),
    ("    for _ in 0..k {\n        power", "    for _ in 0..k.max(1) {\n        power"),
    ("        power *= 2;\n", "        power += 2;\n"),
    ("            if signed(ra) < signed(rb) {", "            if signed(ra) <= signed(rb) {"),
    ("            if signed(ra) < signed(rb) {", "            if ra < rb {"),
    ("            if signed(ra) < signed(rb) {", "            if (ra.wrapping_sub(rb)) >= 0x8000 {"),
    ("    store.fill(0);\n", ""),
    ("    store[TASK] = head.entry;\n", ""),
    ("    let head = check_program(program)?;\n    let parts", "    let head = head(program)?;\n    check_rows(program, &head)?;\n    let parts"),
    ("    if *total < u32::MAX - more {\n        *total += more;\n    } else {\n        *total = u32::MAX;\n    }", "    *total = total.wrapping_add(more);"),
    ("    if *total < u32::MAX - more {\n        *total += more;\n    } else {\n        *total = u32::MAX;\n    }", "    *total = total.checked_add(more).unwrap_or(*total);"),
    ("    if *total < u32::MAX - more {\n", "    if *total <= u32::MAX - more {\n", "same meaning"),
    ("    add(&mut node.totals.accepted, ", "    add(&mut node.totals.committed, "),
    ("        while steps < budget {", "        while steps < budget.min(299) {"),
]

# Of src/lines.rs.
LINES_CHANGES = [
    # 30
    ("number == MAX_ROWS", "number > MAX_ROWS"),
    ("number == MAX_ROWS", "number + 1 == MAX_ROWS"),
    ("row.len() < ROW_WORDS", "row.len() < 3"),
    ("row[0] > MAX_LINE", "row[0] > MAX_LINE + 1"),
    ("row[0] > MAX_LINE", "row[0] >= MAX_LINE"),
    ("row[1] > row[2]", "row[1] >= row[2]"),
    ("row[1] > row[2]", "(row[1] as i16) > row[2] as i16"),
    ("place: (number as u16, 0)", "place: (0, number as u16)"),
    ("place: (number as u16, 0)", "place: (4 * number as u16, 0)"),
    # 31 and 32
    ("row.low as usize..=row.high as usize", "row.low as usize..row.high as usize"),
    ("row.low as usize..=row.high as usize", "row.low as usize + 1..=row.high as usize"),
    ("            *count += 1;", "            *count = 1;"),
    ("            *count += 1;", "            *count ^= 1;"),
    ("(0..=MAX_LINE).filter", "(0..MAX_LINE).filter"),
    ("(0..=MAX_LINE).filter", "(1..=MAX_LINE).filter"),
    (".filter(|line| rows(table).any(|row| row.line == *line))", ".filter(|line| rows(table).any(|row| row.line >= *line))"),
    ("|count| count >= 2", "|count| count > 2"),
    ("|count| count >= 2", "|count| count == 2"),
    ("place: (*line, level) });\n        }\n    }\n    for", "place: (level, *line) });\n        }\n    }\n    for"),
    ("place: (*line, level) });\n        }\n    }\n    Ok", "place: (*line, level - level % 2) });\n        }\n    }\n    Ok"),
    ("    for (line, counts) in &counts {\n        if let Some(level) = lowest(counts, |count| count == 0)", "    for (line, counts) in counts.iter().rev() {\n        if let Some(level) = lowest(counts, |count| count == 0)"),
    ("    for (line, counts) in &counts {\n        if let Some(level) = lowest(counts, |count| count >= 2)", "    for (line, counts) in counts.iter().rev() {\n        if let Some(level) = lowest(counts, |count| count >= 2)"),
    ("if checked.len() == KEPT {", "if checked.len() == KEPT / 2 {", "same"),
    # A raise
    ("self.low <= level && level <= self.high", "self.low < level && level <= self.high"),
    ("self.low <= level && level <= self.high", "self.low <= level && level < self.high"),
    ("check(table).map_err(Answer::Refused)?;", "let _ = check(table);"),
    ("check(table).map_err(Answer::Refused)?;", "check_rows(table).map_err(Answer::Refused)?;"),
    ("row.line == line && row.has(level)", "row.has(level)"),
    ("row.line == line && row.has(level)", "row.line == line"),
    ("row.line == line && row.has(level)", "row.line == line % 16 && row.has(level)"),
    ("if event != NO_EVENT", "if event < NO_EVENT - 1"),
    ("if event != NO_EVENT", "if true"),
]

text = open(os.path.join(HERE, "src", "reference.rs")).read()
lines_text = open(os.path.join(HERE, "src", "lines.rs")).read()
shutil.rmtree(os.path.join(FOLDER, "src"), ignore_errors=True)
shutil.copytree(os.path.join(HERE, "src"), os.path.join(FOLDER, "src"))
shutil.copytree(os.path.join(HERE, "tools"), os.path.join(FOLDER, "tools"), dirs_exist_ok=True)
shutil.copy(os.path.join(HERE, "Cargo.toml"), FOLDER)
modules, rows = [], []
kinds = [("reference", text, CHANGES, "&conformance::m{0}::Reference"),
         ("lines", re.sub(r"pub mod \w+;\n", "", lines_text), LINES_CHANGES, "&Lines {{ check: conformance::m{0}::check, event: conformance::m{0}::event }}")]
for file, whole, changes, copy in kinds:
    for old, new, *same in changes:
        number = len(rows)
        if whole.count(old) != 1:
            sys.exit(f"change {number}, {file}: stands {whole.count(old)} times: {old}")
        with open(os.path.join(FOLDER, "src", f"m{number}.rs"), "w") as out:
            out.write("#![allow(dead_code, unused_variables, unused_mut, unused_assignments)]\n" + whole.replace(old, new))
        modules.append(f"pub mod m{number};")
        rows.append(f"        ({number}, {'true' if same else 'false'}, {copy.format(number)}),")
with open(os.path.join(FOLDER, "src", "lib.rs"), "a") as out:
    out.write("\n".join(modules) + "\n")
with open(os.path.join(FOLDER, "src", "main.rs"), "w") as out:
    out.write("""use conformance::compare::{drive, Counts};
use conformance::scenario::{Call, Outcome};
use conformance::{generate::scenario, reference::Reference, runtime::*};
/// The reference with another check of line tables and another choice of the event.
struct Lines {
    check: fn(&[u16]) -> Result<(), Refusal>,
    event: fn(&[u16], u16, u16) -> Result<u16, Answer>,
}
impl Runtime for Lines {
    fn check(&self, program: &[u16]) -> Answer {
        Reference.check(program)
    }
    fn format(&self, program: &[u16], log_pairs: u16, queue_records: u16, store: &mut [u16]) -> Answer {
        Reference.format(program, log_pairs, queue_records, store)
    }
    fn boot(&self, program: &[u16], store: &mut [u16], device: &mut Device) -> Answer {
        Reference.boot(program, store, device)
    }
    fn step(&self, program: &[u16], store: &mut [u16], device: &mut Device, totals: &mut Totals) -> StepAnswer {
        Reference.step(program, store, device, totals)
    }
    fn burst(&self, program: &[u16], store: &mut [u16], device: &mut Device, count: u16, words: &BurstWords) -> Answer {
        Reference.burst(program, store, device, count, words)
    }
    fn cut(&self, device: &mut Device) -> Answer {
        Reference.cut(device)
    }
    fn run(&self, program: &[u16], store: &mut [u16], device: &mut Device, totals: &mut Totals, budget: u32) -> RunAnswer {
        Reference.run(program, store, device, totals, budget)
    }
    fn lines_check(&self, table: &[u16]) -> Answer {
        (self.check)(table).map_or_else(Answer::Refused, |_| Answer::Done)
    }
    fn raise(&self, program: &[u16], store: &mut [u16], device: &mut Device, table: &[u16], line: u16, level: u16) -> Answer {
        match (self.event)(table, line, level) {
            Ok(event) => Reference.post(program, store, device, event, level),
            Err(answer) => answer,
        }
    }
    fn stray(&self, call: &Call, program: &[u16], store: &mut [u16], words: &mut [u16; DEVICE_WORDS], totals: &mut Totals) -> Outcome {
        match call {
            Call::Raise { table, line, level } => Outcome::Answer((self.event)(table, *line, *level).err().unwrap_or(Answer::NoDevice)),
            _ => Reference.stray(call, program, store, words, totals),
        }
    }
}
fn main() {
    let seeds: u64 = std::env::args().nth(1).unwrap().parse().unwrap();
    let mut open: Vec<(usize, bool, &dyn Runtime)> = vec![
%s
    ];
    let mut calls = 0;
    for seed in 1..=seeds {
        for damaged in [false, true] {
            let list = scenario(seed, damaged);
            let before = calls;
            open.retain(|(number, same, mutant)| {
                let mut counts = Counts::default();
                let result = std::panic::catch_unwind(std::panic::AssertUnwindSafe(|| drive(&Reference, *mutant, &list, &mut counts).is_err()));
                calls = before + counts.all_calls();
                let caught = result.unwrap_or(true);
                if caught {
                    println!("{number} {} {}", calls, if *same { "CAUGHT BUT SAME" } else { "caught" });
                }
                !caught
            });
        }
    }
    for (number, same, _) in open {
        println!("{number} {} {}", calls, if same { "same" } else { "NOT CAUGHT" });
    }
}
""" % "\n".join(rows))
# Many copies, each run for a short time: built quickly rather than well.
quick = dict(os.environ, CARGO_PROFILE_RELEASE_LTO="off", CARGO_PROFILE_RELEASE_OPT_LEVEL="1", CARGO_PROFILE_RELEASE_CODEGEN_UNITS="16")
subprocess.run(["cargo", "build", "--release", "--offline", "-j1", "-q"], cwd=FOLDER, check=True, env=quick)
result = subprocess.run([os.path.join(FOLDER, "target/release/conformance"), str(SEEDS)], capture_output=True, text=True)
failed = False
for line in result.stdout.splitlines():
    number, calls, verdict = line.split(" ", 2)
    first = [l for l in (CHANGES + LINES_CHANGES)[int(number)][1].splitlines() if l.strip()][:1]
    print(f"{calls:>9} {verdict:12} {number:>3}  {first[0].strip() if first else '(removed)'}")
    failed = failed or verdict.isupper()
sys.exit(1 if failed or not result.stdout else 0)
