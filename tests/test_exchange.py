"""Steps that may change places: in either order they are accepted and leave the same, whatever comes behind them."""
import glob
import os
import random
import subprocess
import tempfile
from concurrent.futures import ThreadPoolExecutor
from itertools import combinations
from typing import NamedTuple

import program
from program import TOP, ProgramTest, run_program, steps

# Iterations, two at once, of which each passes, waits and calls a service, which throws at first; beside them a branch that fails
# where the input says so. All are retried once.
MIXED = (
    '{"StartAt":"Q","States":{"Q":{"Type":"Parallel","Branches":[{"StartAt":"M","States":{"M":{"Type":"Map","ItemsPath":"$.items",'
    '"MaxConcurrency":2,"Iterator":{"StartAt":"P","States":{"P":{"Type":"Pass","Next":"X"},"X":{"Type":"Wait","Seconds":1,"Next":"T"},'
    '"T":{"Type":"Task","Resource":"r","Retry":[{"ErrorEquals":["E"],"IntervalSeconds":1}],"End":true}}},"End":true}}},{"StartAt":"B",'
    '"States":{"B":{"Type":"Pass","Next":"C"},"C":{"Type":"Choice","Choices":[{"Variable":"$.fails","BooleanEquals":true,"Next":"F"}],'
    '"Default":"D"},"D":{"Type":"Succeed"},"F":{"Type":"Fail","Error":"G"}}}],"Retry":[{"ErrorEquals":["G"],"IntervalSeconds":1,'
    '"MaxAttempts":1}],"End":true}}}'
)
MIXED_MOCKS = '{"StateMachines":{"M":{"TestCases":{"c":{"T":"a"}}}},"MockedResponses":{"a":{"0-1":{"Throw":{"Error":"E"}},"2-99":{"Return":0}}}}'
MIXED_INPUTS = ['{"items":[0,1,2],"fails":false}', '{"items":[0,1,2],"fails":true}']
MIXED_PLACES = ["/", "/0", "/0/0", "/0/1", "/0/2", "/1"]

# Two branches of a Pass and a Succeed each.
TWO_BRANCHES = (
    '{"StartAt":"Q","States":{"Q":{"Type":"Parallel","Branches":[{"StartAt":"A","States":{"A":{"Type":"Pass","Result":"a","Next":"A2"},'
    '"A2":{"Type":"Succeed"}}},{"StartAt":"B","States":{"B":{"Type":"Pass","Result":"b","Next":"B2"},"B2":{"Type":"Succeed"}}}],"End":true}}}'
)
# What is shown of them once both have passed.
PASSED = ['shown ["Forked","Q",{},"2024-01-01T00:00:00.000Z",[],[]]', 'shown ["Ready","A2","a"]', 'shown ["Ready","B2","b"]']


class Told(NamedTuple):
    """What a run prints: the replies to its steps, the events without their ids, and the status."""

    replies: list
    events: list
    status: str

    def at(self, place):
        """The events at a place."""
        return [it for it in self.events if it[1] == place]


class Tried(NamedTuple):
    """A step that is tried: whether it goes on, and the names of the Tasks that it invokes."""

    step: tuple
    goes_on: bool
    invokes: set


class Run(NamedTuple):
    """An execution that can be stepped: the words of the command line for it, and the places at which branches run in it."""

    words: list
    places: list

    def after(self, taken):
        """What is told of it after these steps, each a place and a second of the day."""
        with tempfile.NamedTemporaryFile("w", prefix="asl-test-") as file:
            file.write("".join(f"{place} {stamp(second)}\n" for place, second in taken))
            file.flush()
            lines = run_program("run", *self.words, "--steps", file.name).stdout.splitlines()
        replies = [it.split(" ", 2)[2] for it in lines[: len(taken)]]
        return Told(replies, [it.split(" ", 5)[2:] for it in lines[len(taken) : -1]], lines[-1])

    def debugged(self, taken, commands):
        """What the debugger answers to these lines after these steps."""
        script = "".join(f"{it}\n" for it in [*(f"step {place} {stamp(second)}" for place, second in taken), *commands])
        ran = subprocess.run([program.PROGRAM, "debug", *self.words], input=script, capture_output=True, encoding="utf-8", timeout=60)
        return ran.stdout.splitlines()[len(taken) : len(taken) + len(commands)]

    def walk(self, chance):
        """Steps that are accepted one behind another, at places by chance; now and then time passes."""
        second, picked = 0, []
        for _ in range(60):
            second += chance.choice([0] * 30 + [1, 2, 60])
            picked.append((chance.choice(self.places), second))
        return [step for step, reply in zip(picked, self.after(picked).replies) if reply == "ok"]

    def tried(self, taken, before, step):
        """A step behind others. It goes on where it is accepted and neither ends the execution nor fails its branch: a branch that fails
        is finished, and its last event isn't that it leaves a state or that its iteration succeeds. It invokes the Task of which its events tell."""
        behind = self.after([*taken, step])
        goes_on = behind.replies[-1] == "ok" and behind.status == "status RUNNING"
        if goes_on and self.after([*taken, step, step]).replies[-1] == "S4 Finished":
            goes_on = behind.at(step[0])[-1][2].endswith(("StateExited", "IterationSucceeded"))
        told = behind.events[len(before.events) :]
        return Tried(step, goes_on, {name_of(rest) for _, _, kind, rest in told if kind.startswith("Task")})

    def pairs(self, taken, second):
        """Each two steps at this moment behind others, with whether they may change places, by what the run prints."""
        before = self.after(taken)
        found = [self.tried(taken, before, (place, second)) for place in self.places]
        for one, other in combinations(found, 2):
            are_free = one.goes_on and other.goes_on and not one.invokes & other.invokes
            yield one.step, other.step, are_free and are_apart(one.step[0], other.step[0]) and len(before.events) <= 24_984


def stamp(second):
    return f"2024-01-01T{second // 3600:02}:{second // 60 % 60:02}:{second % 60:02}Z"


def name_of(rest):
    """The name in front of an event's data."""
    return rest[: rest.index('" ') + 1]


def are_apart(one, other):
    """Neither place is the other or is above it."""
    one, other = (it.rstrip("/") + "/" for it in (one, other))
    return not one.startswith(other) and not other.startswith(one)


def examples():
    """The test cases of the examples in which branches run beside each other."""
    for stored in sorted(glob.glob(f"{TOP}/examples/*/*.driven.txt")):
        folder, case = os.path.dirname(stored), os.path.basename(stored)[: -len(".driven.txt")]
        with open(stored, encoding="utf-8") as file:
            places = sorted({it.split(" ")[3] for it in file.read().splitlines()[:-1]})
        given = f"{folder}/{case}.input.json"
        if len(places) > 1:
            yield Run([f"{folder}/definition.json", f"{folder}/mocks.json", f"{os.path.basename(folder)}#{case}", given
                if os.path.exists(given) else f"{folder}/input.json"], places)


class ExchangeTest(ProgramTest):
    def assert_change_places(self, run, front, one, other, behind):
        """Two steps are accepted in either order, and leave the same; what comes behind them is answered alike."""
        told, swapped = run.after([*front, one, other, *behind]), run.after([*front, other, one, *behind])
        self.assertEqual(told.replies[len(front) :][:2], ["ok", "ok"])
        self.assertEqual((told.replies, told.status, len(told.events)), (swapped.replies, swapped.status, len(swapped.events)))
        for place in run.places:
            self.assertEqual(told.at(place), swapped.at(place))
        shows = [f"show {it}" for it in run.places]
        self.assertEqual(run.debugged([*front, one, other], shows), run.debugged([*front, other, one], shows))

    def assert_says(self, run, front, pairs):
        """The debugger says of these pairs of steps whether they may change places."""
        told = run.debugged(front, [f"swap {one[0]} {stamp(one[1])} {other[0]} {stamp(other[1])}" for one, other, _ in pairs])
        self.assertEqual([it == "exchangeable" for it in told], [is_so for _, _, is_so in pairs], told)

    def passed(self, order):
        """What is told of the first of two branches that pass in this order, and what is shown of both then."""
        text = self.told(TWO_BRANCHES, steps=steps(["/", *order]))
        script = "".join(f"step {place} {stamp(0)}\n" for place in ["/", *order]) + "show /\nshow /0\nshow /1\n"
        shown = self.on_texts("debug", TWO_BRANCHES, "{}", "M", "{}", script).stdout.splitlines()[3:6]
        return [line for line in text.splitlines() if " /0 Pass" in line], shown

    def test_a_branch_tells_the_same_under_other_numbers_where_two_steps_change_places(self):
        first = ['4 3 2024-01-01T00:00:00.000Z /0 PassStateEntered "A" {}', '5 4 2024-01-01T00:00:00.000Z /0 PassStateExited "A" "a"']
        self.assertEqual(self.passed(["/0", "/1"]), (first, PASSED))
        second = ['6 3 2024-01-01T00:00:00.000Z /0 PassStateEntered "A" {}', '7 6 2024-01-01T00:00:00.000Z /0 PassStateExited "A" "a"']
        self.assertEqual(self.passed(["/1", "/0"]), (second, PASSED))

    def try_walk(self, run, seed):
        """Tries pairs of steps on a walk, and returns how many could change places, and how many not."""
        chance = random.Random(seed)
        taken, counts = run.walk(chance), [0, 0]
        for number, (_, second) in enumerate(taken):
            front, behind = taken[:number], taken[number:]
            pairs = list(run.pairs(front, second))
            self.assert_says(run, front, pairs)
            free = [(one, other) for one, other, is_so in pairs if is_so]
            for one, other in chance.sample(free, min(2, len(free))):
                self.assert_change_places(run, front, one, other, behind)
            counts[0] += len(free)
            counts[1] += len(pairs) - len(free)
        return counts

    def try_walks(self, runs, seeds):
        """The same of walks through all of these runs."""
        with ThreadPoolExecutor(os.cpu_count()) as pool:
            works = [pool.submit(self.try_walk, run, seed) for run in runs for seed in range(seeds)]
            return [sum(counts) for counts in zip(*(it.result() for it in works))]

    def test_steps_of_the_examples_change_places(self):
        yes, no = self.try_walks(list(examples()), 4)
        self.assertGreater(yes, 50)
        self.assertGreater(no, 50)

    def test_iterations_and_a_branch_beside_them_change_places(self):
        with tempfile.TemporaryDirectory(prefix="asl-test-") as room:

            def file(name, text):
                path = os.path.join(room, name)
                with open(path, "w", encoding="utf-8") as out:
                    out.write(text)
                return path

            front = [file("definition", MIXED), file("mocks", MIXED_MOCKS), "M#c"]
            runs = [Run([*front, file(f"input{number}", text)], MIXED_PLACES) for number, text in enumerate(MIXED_INPUTS)]
            yes, no = self.try_walks(runs, 4)
        self.assertGreater(yes, 50)
        self.assertGreater(no, 50)
