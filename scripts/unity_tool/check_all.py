"""Checks every document below a folder.

`unity check` reads each file there whose name ends in `.unity`, JOBS of them side by side, or as many as there are
processors where none is given. Each has a line, in the order of the names: the status, the name and the first line of
the answer. The last line counts those that are accepted. The status is 0 where all are, 1 where one is not, and 64
where there is none. Where the program is not built the page's module answers, or the sources are compiled once.

With --log LOG each answer is written to that file as soon as it is there, and what it has already of the same bytes is
not asked again: so a run that was cut off goes on where it was. The lines come in the order of the answers then.

With --hosts HOSTS the documents are judged on several machines, by GNU parallel. HOSTS has a line for each, as
`ssh` knows it: 8/user@machine takes 8 at once, and : is this machine. There `unity check` has to be a command, or what
--command says, and `rsync`. Each document is sent to the machine that judges it. Where a machine does not answer, the
document goes to another one; what no machine answers has the status 255, and is asked again by the next run.
"""
import concurrent.futures
import hashlib
import os

from unity_tool import hosts
from unity_tool.files import need_readable, read_document, record, write_json
from unity_tool.program import Answer, ask, ask_each, need_answers
from unity_tool.wrong_use import Failure, WrongUse

# the statuses of an answer that stays the same: accepted, rejected, bad
ANSWERED = (0, 1, 2)


def add_options(parser):
    parser.add_argument("folder", metavar="FOLDER", help="where the documents are")
    parser.add_argument("jobs", metavar="JOBS", nargs="?", type=int, help="how many at once")
    parser.add_argument("--json", action="store_true", help="print the answers and their places as JSON")
    parser.add_argument("--log", metavar="LOG", help="keep the answers in this file, and ask for no other ones")
    parser.add_argument("--hosts", metavar="HOSTS", help="ask the machines that this file names")
    parser.add_argument("--command", metavar="COMMAND", default="unity check", help="what judges a document there")


def documents_below(folder):
    """The documents below a folder, in the order of the bytes of their names."""
    found = [os.path.join(here, name) for here, _, names in os.walk(folder) for name in names]
    return sorted((name for name in found if name.endswith(".unity") and os.path.isfile(name)
                   and not os.path.islink(name)), key=os.fsencode)


class Log:
    """The answers that are kept in a file: a line has the status, a sum of the document, its name and the first line of
    the answer, with tabs between them."""

    def __init__(self, path):
        self.path, self.kept = path, {}
        if path and os.path.exists(path):
            for line in read_document(path).split(b"\n")[:-1]:
                status, total, name, said = (line.split(b"\t") + [b""] * 4)[:4]
                if status.isdigit() and said:
                    self.kept[name, total] = Answer(int(status), said + b"\n")
        elif path:
            open(path, "wb").close()

    @staticmethod
    def key(name, text):
        return os.fsencode(name), hashlib.sha256(text).hexdigest()[:16].encode()

    def add(self, name, text, answer):
        """Keeps an answer, at once, where it is one that stays the same."""
        if not self.path or answer.status not in ANSWERED or not answer.first_line():
            return
        encoded, total = self.key(name, text)
        line = b"\t".join([b"%d" % answer.status, total, encoded, answer.text.split(b"\n", 1)[0]]) + b"\n"
        with open(self.path, "rb+") as file:
            # a line that was cut off stays one by itself
            if file.seek(0, os.SEEK_END) and file.seek(-1, os.SEEK_END) >= 0 and file.read(1) != b"\n":
                line = b"\n" + line
            file.seek(0, os.SEEK_END)
            file.write(line)


def asked(chosen, texts):
    """The names of these documents with their answers, as they come."""
    jobs = chosen.jobs or os.cpu_count()
    if chosen.hosts:
        yield from hosts.answers_of(chosen.folder, list(texts), chosen.hosts, chosen.jobs, chosen.command)
    elif chosen.log:
        need_answers()
        with concurrent.futures.ThreadPoolExecutor(jobs) as pool:
            running = {pool.submit(ask, ["check"], text): name for name, text in texts.items()}
            for done in concurrent.futures.as_completed(running):
                yield running[done], done.result()
    else:
        with concurrent.futures.ThreadPoolExecutor(jobs) as pool:
            yield from zip(texts, ask_each("check", texts.values(), pool.map))


def judged(chosen, texts):
    """The names with their answers: what the log has of them, and then what is asked."""
    log = Log(chosen.log)
    kept = {name: log.kept[log.key(name, text)] for name, text in texts.items() if log.key(name, text) in log.kept}
    yield from kept.items()
    for name, answer in asked(chosen, {name: text for name, text in texts.items() if name not in kept}):
        log.add(name, texts[name], answer)
        yield name, answer


def main(chosen):
    if chosen.jobs is not None and chosen.jobs < 1:
        raise WrongUse
    if not os.path.isdir(chosen.folder):
        raise Failure(64, "%s: there is no such folder" % chosen.folder)
    if chosen.hosts:
        need_readable(chosen.hosts)
    names = documents_below(chosen.folder)
    if not names:
        raise Failure(64, "%s has no document" % chosen.folder)
    texts, answers = {name: read_document(name) for name in names}, {}
    for name, answer in judged(chosen, texts):
        answers[name] = answer
        if not chosen.json:
            print("%d %s: %s" % (answer.status, name, answer.first_line()), flush=bool(chosen.log or chosen.hosts))
    accepted = sum(answer.status == 0 for answer in answers.values())
    if chosen.json:
        write_json([record(name, answers[name], texts[name]) for name in names])
    else:
        print("%d of %d accepted" % (accepted, len(names)))
    return 0 if accepted == len(names) else 1
