"""Tries the report on a small sample of three crates, whose tables were worked out by hand."""
import json
import os
import tempfile

from crates import crates_of
from kinds import work_of
from runs import Refused, joined, read_run
from tables import about_run, cost_table, forecast_of, lanes_table

CRATES = "# Room: of a test.\nground:\ntower: ground\nshed:\n"
# A crate, its lines, and how many edits it has.
FILES = (("ground", 10, 0), ("tower", 5, 2), ("shed", 1, 0))
RT = "python3 bin/rt ci"
CHECK = "rattle check --crate-name tower src/lib.rt --incremental runs/rt-edits-7-x/"
# Words, folder, the second in which it began and ended, seconds of processor, and what no sample saw of it.
SAMPLED = (
    (RT, "/r", 0, 200, 12, 0),
    ("rattle build --crate-name ground src/lib.rt -o x", "/r/crates/ground", 6, 66, 54, 6),
    ("rattle fmt --check /r/crates/shed/src/lib.rt", "/r", 6, 6, 0, 0),
    ("rattle build --crate-name shed src/lib.rt -o x", "/r/crates/shed", 6, 36, 30, 0),
    ("rattle build --crate-name shed src/lib.rt --test -o out/shed_tests.o", "/r/crates/shed", 36, 66, 30, 0),
    ("rattle-link --target x -o out/shed_tests out/shed_tests.o", "/r/crates/shed", 66, 72, 6, 0),
    ("rattle build --crate-name tower src/lib.rt -o x", "/r/crates/tower", 66, 126, 60, 0),
    (CHECK + "seed", "runs/rt-edit-7-a", 72, 102, 30, 0),
    (CHECK + "0", "runs/rt-edit-7-b", 126, 138, 12, 0),
    (CHECK + "1", "runs/rt-edit-7-c", 126, 144, 18, 0),
    (CHECK + "seed", "runs/rt-edit-7-d", 144, 150, 6, 0),
    ("sh -c x setpriv runner runs/rt-run-7-x/bin/shed_tests", "runs", 150, 156, 6, 0),
)
COST = """\
minutes of processor        proof    tests    edits  linking    other      sum
tower                        1.00              1.10                       2.10
shed                         0.50     0.50              0.10     0.10     1.20
ground                       1.00                                         1.00
(rt itself)                                                      0.20     0.20
all                          2.50     0.50     1.10     0.10     0.30     4.50""".split("\n")
# `rt` alone takes 6 of its 12 seconds, and each of eight tasks 0.75 of the others. On one processor all comes in turn.
# On two, ground and shed begin, and then the tests of shed, which end at 67.5 seconds of them; tower takes from 60.75
# to 121.5, beside the check that its edits begin with; they take till 140.25 and the check after them till 147.
LANES = """\
minutes by the clock, RT_JOBS at the number of processors; slow is 2.00 times
processors    rt ci  scripts      all     slow
         1      4.5      0.0      4.5      9.0
         2      2.6      0.0      2.6      5.3
the longest chain: 2.5 minutes; `rt` alone before it: 0.1""".split("\n")


def write_crates(top):
    """Writes the repository of the test."""
    with open(os.path.join(top, "crates.txt"), "w", encoding="utf-8") as file:
        file.write(CRATES)
    for name, lines, edits in FILES:
        for part in ("src", "must-fail"):
            os.makedirs(os.path.join(top, "crates", name, part))
        with open(os.path.join(top, "crates", name, "src", "lib.rt"), "w", encoding="utf-8") as file:
            file.write("#[test]\n" if name == "shed" else "\n" * lines)
        for number in range(edits):
            with open(os.path.join(top, "crates", name, "must-fail", "%d.edit" % number), "w", encoding="utf-8"):
                pass


def write_sample(file, sampled):
    """Writes a sample: the first process is the parent of the others."""
    processes = {}
    for number, (words, folder, begun, ended, seconds, missed) in enumerate(sampled):
        processes["%d.1" % number] = {
            "first": begun + 1, "age": 1, "last": ended, "megabytes": 100 + number, "seconds": seconds,
            "missed": missed, "unseen": 0, "words": words.split(), "folder": folder,
            "parent": "0.1" if number else None}
    with open(file, "w", encoding="utf-8") as made:
        json.dump({"command": ["rt"], "lanes": 2, "exact": 270, "processes": processes}, made)


def differ(name, said, wanted):
    """Whether what was said differs, and says how."""
    if said != wanted:
        print("%s:" % name, *said, "and not:", *wanted, sep="\n")
    return said != wanted


def refused(file, text):
    """Why a file with this text is no sample."""
    with open(file, "w", encoding="utf-8") as made:
        made.write(text)
    try:
        read_run(file)
    except Refused as error:
        return [str(error).replace(file, "FILE")]
    return ["read"]


def self_test():
    """Returns 0 if all is as it should be, else 1."""
    with tempfile.TemporaryDirectory() as top:
        file = os.path.join(top, "sample")
        write_crates(top)
        write_sample(file, SAMPLED)
        run, crates = read_run(file), crates_of(top)
        seconds = joined([run], crates)[0]
        forecast = forecast_of([run], crates, seconds)
        # the crate ground was proved again, in half the time
        write_sample(file, [SAMPLED[0], (*SAMPLED[1][:4], 27, 3)])
        both = cost_table(joined([run, read_run(file)], crates)[0])
        write_sample(file, [("bash scripts/test.sh", "/r", 0, 100, 25, 0), (RT, "/r", 10, 60, 12, 0)])
        whole = read_run(file)
        # the tests of shed and an edit of tower were taken out
        crates[1].has_tests, crates[2].edits = False, 1
        less, gone = joined([run], crates)
        script = work_of("rt try --test".split(), "/r", None)
        tried = work_of((CHECK + "0").split(), "/r", script)
        fails = [
            differ("cost", cost_table(seconds), COST),
            differ("lanes", lanes_table(forecast, [1, 2], 2), LANES),
            differ("run", about_run("it", run, crates), [
                "it: 3.3 minutes of `rt ci` by the clock, and 0.0 of scripts",
                "  handing out what each took by the clock to 2 lanes gives 2.6",
                "  the most memory of a process: 111 MB, shed other run",
                "  sampled 4.50 minutes of processor, exactly 4.50: 100.0 in 100 were seen"]),
            differ("two samples", [both[3].split()[-1], both[5].split()[-1]], ["0.50", "4.00"]),
            differ("scripts by the clock", whole.took(), [50, 50]),
            differ("scripts on two", ["%.1f" % forecast_of([whole], [], joined([whole], [])[0]).scripts(2)], ["50.0"]),
            differ("gone", [cost_table(less)[-1].split()[-1], "%d" % gone], ["3.60", "54"]),
            differ("scripts", [script.crate, tried.crate], ["(scripts)", "(scripts)"]),
            differ("no JSON", refused(file, "{\n x"), ["FILE:2:2: Expecting property name enclosed in double quotes"]),
            differ("no sample", refused(file, "{}"), ["FILE:1:1: this is no sample: KeyError('lanes')"])]
    print("gate_cost: %d checks passed, %d failed" % (fails.count(False), fails.count(True)))
    return int(any(fails))
