"""The counting program of document 01 on the library, from Python. In the repository's root, after `tools/library.sh`:

    cc -shared -Wl,--whole-archive target/staticlib/libexports.a -Wl,--no-whole-archive -o target/libruntime.so
    python3 examples/python/main.py target/libruntime.so
"""
import ctypes, pathlib, re, sys

# The names of include/runtime.h without RUNTIME_, as numbers: N["CASE_DONE"].
HEADER = pathlib.Path(__file__).parents[2] / "include" / "runtime.h"
N = {name: int(value, 0) for name, value in re.findall(r"#define RUNTIME_(\w+) (\w+)", HEADER.read_text())}
CASES = {value: name[5:].lower().replace("_", " ") for name, value in N.items() if name.startswith("CASE_")}

COUNTING = [
    N["PROGRAM_MARK_VALUE"], 1, 1, 2, 0, 26,  # one task, one event, two memory words, entry 0
    12, 5, 0,  # the task's row
    22, 2, 0,  # the event's row
    0x0800, 0, 0x0010, 1, 0x0201, 0, 0x0900, 0, 0x0F00, 0,  # adds 1 to word 0
    0x0900, 1, 0x1000, 0,  # saves its data in word 1
]
LINES = [
    3, 0, 999, N["LINES_NO_EVENT"],  # line 3: silent below level 1000
    3, 1000, 65535, 0,  # from there on it raises event 0
]
LOG_PAIRS, QUEUE_RECORDS = 1, 1


def words(values):
    return (ctypes.c_uint16 * len(values))(*values)


class Node:
    def __init__(self, library, program, log_pairs, queue_records):
        self.library = ctypes.CDLL(library)
        word, words_at, length = ctypes.c_uint16, ctypes.POINTER(ctypes.c_uint16), ctypes.c_size_t
        number, numbers_at = ctypes.c_uint32, ctypes.POINTER(ctypes.c_uint32)
        parameters = {
            "check": [words_at, length, words_at],
            "format": [words_at, length, word, word, words_at, length, words_at],
            "boot": [words_at, length, words_at, length, words_at, words_at],
            "step": [words_at, length, words_at, length, words_at, numbers_at, words_at],
            "post": [words_at, length, words_at, length, words_at, word, word, words_at],
            "burst": [words_at, length, words_at, length, words_at, word, words_at, words_at],
            "cut": [words_at, words_at],
            "run": [words_at, length, words_at, length, words_at, numbers_at, number, words_at],
            "lines_check": [words_at, length, words_at],
            "raise": [words_at, length, words_at, length, words_at, words_at, length, word, word, words_at],
        }
        for name, types in parameters.items():
            function = getattr(self.library, "runtime_" + name)
            function.argtypes, function.restype = types, number if name == "run" else None
        memory_words = program[N["PROGRAM_MEMORY_WORDS"]]
        self.program = words(program)
        self.store = words([0] * (19 + memory_words + 2 * log_pairs + 2 * queue_records))  # nonvolatile
        self.device = words([0] * N["DEVICE_WORDS"])  # lost at a cut; zeros are the device that is off
        self.totals = (ctypes.c_uint32 * N["TOTALS_NUMBERS"])()
        self.answer = words([0] * N["STEP_ANSWER_WORDS"])  # long enough for a step's answer

    def call(self, name, *arguments):
        """A call of the library. Its answer is left in self.answer."""
        return getattr(self.library, "runtime_" + name)(*arguments, self.answer)

    def on_program(self, name, *arguments):
        return self.call(name, self.program, len(self.program), *arguments)

    def on_device(self, name, *arguments):
        return self.on_program(name, self.store, len(self.store), self.device, *arguments)

    def text(self):
        case, kind, number, place, second = self.answer[: N["ANSWER_WORDS"]]
        if case in (N["CASE_CHOSEN"], N["CASE_COMMITTED"]):
            return f"{CASES[case]} {'task' if kind == N['KIND_TASK'] else 'event'} {number}"
        if case == N["CASE_REFUSED"]:
            return f"{CASES[case]} {number}, place {place} {second}"
        if case == N["CASE_ACCEPTED"] and self.answer[N["ANSWER_DROPPED"]]:
            event, datum = self.answer[N["ANSWER_DROPPED_EVENT"]], self.answer[N["ANSWER_DROPPED_DATA"]]
            return f"{CASES[case]}, dropped {event} {datum}"
        return CASES[case]

    def show(self, call):
        print(f"{call:16} {self.text()}")

    def show_memory(self):
        first = N["STORE_MEMORY"]
        memory = f"memory {self.store[first]} {self.store[first + 1]}"
        phase, begun, head, tail = (self.store[N["STORE_" + name]] for name in ("PHASE", "BEGUN", "HEAD", "TAIL"))
        print(f"{'':16} {memory}, phase {phase}, begun {begun}, head {head}, tail {tail}")

    def boot(self):
        self.on_device("boot")
        self.show("boot")

    def steps(self, count):
        for _ in range(count):
            self.on_device("step", self.totals)
            stored = self.answer[N["ANSWER_STORED"]]
            print(f"{'step':16} {self.text()}" + ("" if stored == N["NO_STORE"] else f", word {stored}"))

    def post(self, event, datum):
        self.on_device("post", event, datum)
        self.show("post")

    def burst(self, count, sample):
        self.on_device("burst", count, sample)
        self.show(f"burst of {count}")

    def check_lines(self, table):
        self.call("lines_check", table, len(table))
        self.show("lines_check")

    def raise_line(self, table, line, level):
        self.on_device("raise", table, len(table), line, level)
        self.show(f"raise {line} {level}")

    def run(self, budget):
        made = self.on_device("run", self.totals, budget)
        self.show(f"run {budget}: {made}")

    def recover(self):
        """A cut, a boot, then steps while a commit is unfinished."""
        self.call("cut", self.device)
        self.show("cut")
        self.boot()
        while self.store[N["STORE_PHASE"]] != N["PHASE_RUNNING"]:
            self.steps(1)
        self.show_memory()


def main():
    node = Node(sys.argv[1], COUNTING, LOG_PAIRS, QUEUE_RECORDS)
    node.on_program("check")
    node.show("check")
    node.on_program("format", LOG_PAIRS, QUEUE_RECORDS, node.store, len(node.store))
    node.show("format")
    if node.answer[N["ANSWER_CASE"]] != N["CASE_DONE"]:
        sys.exit(1)

    node.boot()
    node.steps(9)
    node.recover()  # before the commit store: the task is taken up at its first instruction, nothing else of it is left
    node.steps(9)
    node.recover()  # after it: the commit is finished

    node.post(0, 77)
    node.steps(3)
    node.post(0, 78)  # the queue is full: its one record is dropped
    node.steps(5)
    node.post(0, 79)  # full again, and the event has begun: REFUSAL_QUEUE_FULL
    node.steps(7)
    node.recover()  # between the head store and the last: head moves on by one slot in all

    node.run(1500)
    node.show_memory()

    sample = words([0, 5, 0, 6, 0, 0, 0, 0])  # event 0 with data 5, event 0 with data 6
    node.burst(2, sample)  # it doesn't fit into a queue of one record: REFUSAL_QUEUE_FULL
    sample[2] = 1  # the program has event 0 alone: REFUSAL_NO_EVENT, at position 1
    node.burst(2, sample)
    node.burst(5, sample)  # REFUSAL_BURST_LENGTH, whatever its events are
    node.burst(1, sample)  # as a post: what stands behind its data isn't looked at
    node.steps(2)
    node.recover()  # before its last store: none of it came in

    table = words(LINES)
    node.check_lines(table)
    node.raise_line(table, 3, 999)  # its row has no event
    node.raise_line(table, 4, 1000)  # no row names this line
    node.raise_line(table, 3, 1000)  # the post of event 0 with the level as data
    node.steps(3)
    table[N["LINES_HIGH"]] = 998  # level 999 is in no row now: REFUSAL_LINES_GAP
    node.check_lines(table)
    node.raise_line(table, 3, 1000)

    node.device[N["DEVICE_ON"]] = 2  # no device has this word
    node.steps(1)
    committed, accepted, stores = node.totals
    print(f"committed {committed}, accepted {accepted}, stores {stores}")


main()
