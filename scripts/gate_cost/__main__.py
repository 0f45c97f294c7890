"""What the gate costs, by crate and kind, and what it would take on fewer processors. See gate_cost.sh."""
import argparse
import os
import sys

TOP = os.path.dirname(os.path.dirname(os.path.dirname(os.path.abspath(__file__))))
sys.path.append(os.path.join(TOP, "scripts"))


def parser():
    """The words that the command takes."""
    made = argparse.ArgumentParser(prog="bash scripts/gate_cost.sh", description=__doc__)
    made.add_argument("--self-test", action="store_true", help="try the report on a small sample")
    verbs = made.add_subparsers(dest="verb", metavar="sample | attach | report")
    sample = verbs.add_parser("sample", help="run a command, sample it every half second, and exit with its status")
    sample.add_argument("file", help="where the sample goes")
    sample.add_argument("command", nargs=argparse.REMAINDER, metavar="-- COMMAND ..", help="as rt ci")
    attach = verbs.add_parser("attach", help="sample a process that runs already, and all that descends from it")
    attach.add_argument("pid", type=int)
    attach.add_argument("file", help="where the sample goes")
    report = verbs.add_parser("report", help="print minutes by crate and kind, and what fewer processors would take")
    report.add_argument("files", nargs="+", metavar="FILE", help="samples; of what two did, the later one counts")
    report.add_argument("--slow", type=float, default=1.5, help="how many times slower a slow machine is (1.5)")
    report.add_argument("--processors", type=int, nargs="+", default=[2, 4], help="for how many processors (2 4)")
    report.add_argument("--top", default=TOP, help="the repository whose crates were sampled")
    return made


def report(given):
    """Prints the tables of some samples."""
    from crates import crates_of
    from runs import joined, read_run
    from tables import about_run, cost_table, forecast_of, lanes_table

    runs, crates = [read_run(file) for file in given.files], crates_of(given.top)
    seconds, gone = joined(runs, crates)
    said = [*cost_table(seconds), ""]
    if gone:
        said += ["%.2f minutes are left out: these crates have no such tests or edits, or are none" % (gone / 60), ""]
    for file, run in zip(given.files, runs):
        said += about_run(file, run, crates)
    said += ["", *lanes_table(forecast_of(runs, crates, seconds), given.processors, given.slow)]
    print("\n".join(said))


def main(words):
    from runs import Refused
    from sampling import attach, sample

    made = parser()
    given = made.parse_args(words)
    if given.self_test:
        from self_test import self_test
        return self_test()
    if given.verb == "sample":
        command = given.command[1:] if given.command[:1] == ["--"] else given.command
        if not command:
            made.error("sample takes a file, -- and a command")
        return sample(given.file, command)
    if given.verb == "attach":
        return attach(given.pid, given.file)
    if given.verb == "report":
        try:
            return report(given)
        except Refused as error:
            print(error, file=sys.stderr)
            return 1
    return made.error("sample, attach, report or --self-test")


if __name__ == "__main__":
    sys.exit(main(sys.argv[1:]))
