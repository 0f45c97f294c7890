"""The tables that a report prints."""
from kinds import KINDS, SCRIPTS
from lanes import Forecast

LINE = "%-24s" + "%9s" * (len(KINDS) + 1)


def minutes(seconds):
    return "%.2f" % (seconds / 60) if seconds >= 0.3 else ""


def rows_of(seconds):
    """Seconds by crate, and in it by kind."""
    rows = {}
    for (crate, kind, _), each in seconds.items():
        row = rows.setdefault(crate, dict.fromkeys(KINDS, 0))
        row[kind] += each
    return rows


def line(name, row):
    return LINE % (name, *[minutes(row[kind]) for kind in KINDS], minutes(sum(row.values())))


def cost_table(seconds):
    """Minutes of processor by crate and kind, the dearest crate first."""
    rows = rows_of(seconds)
    sums = {kind: sum(row[kind] for row in rows.values()) for kind in KINDS}
    order = sorted(rows, key=lambda it: (-sum(rows[it].values()), it))
    return [LINE % ("minutes of processor", *KINDS, "sum"), *[line(it, rows[it]) for it in order], line("all", sums)]


def about_run(name, run, crates):
    """What one run says of itself: its time by the clock, its most memory, and how much of it the samples saw."""
    sampled, (megabytes, work), (proofs, scripts) = sum(run.seconds().values()), run.most(), run.took()
    said = ["%s: %.1f minutes of `rt ci` by the clock, and %.1f of scripts" % (name, proofs / 60, scripts / 60)]
    if proofs:
        again = Forecast(crates, run.clock(), run.start(), 1).proofs(run.lanes)
        said.append("  handing out what each took by the clock to %d lanes gives %.1f" % (run.lanes, again / 60))
    what = " ".join(it for it in (work.crate, work.kind, work.part) if it)
    said.append("  the most memory of a process: %d MB, %s" % (megabytes, what))
    if run.exact:
        said.append("  sampled %.2f minutes of processor, exactly %.2f: %.1f in 100 were seen" % (
            sampled / 60, run.exact / 60, 100 * sampled / run.exact))
    return said


def forecast_of(runs, crates, seconds):
    """The forecast by what several runs say: `rt` starts as in the first of them that has it."""
    start = next((it.start() for it in runs if it.start()), 0)
    clock = sum(it.took()[1] for it in runs)
    scripts = sum(each for run in runs for (crate, _, _), each in run.seconds().items() if crate == SCRIPTS)
    return Forecast(crates, seconds, start, scripts / clock if clock else 1)


def lanes_table(forecast, lanes, slow):
    """What all would take on so many processors, on a machine as the sampled one and on a slower one."""
    said = ["minutes by the clock, RT_JOBS at the number of processors; slow is %.2f times" % slow,
            "%10s%9s%9s%9s%9s" % ("processors", "rt ci", "scripts", "all", "slow")]
    for each in lanes:
        proofs, scripts = forecast.proofs(each) / 60, forecast.scripts(each) / 60
        said.append("%10d%9.1f%9.1f%9.1f%9.1f" % (each, proofs, scripts, proofs + scripts, slow * (proofs + scripts)))
    said.append("the longest chain: %.1f minutes; `rt` alone before it: %.1f" % (
        forecast.chain() / 60, forecast.start / 60))
    return said
