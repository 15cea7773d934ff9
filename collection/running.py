"""The work on all designs: each has its folder, what is to be done is done so many at once, and what goes wrong with
one of them is told of this one and ends nothing else."""

import os
import shlex
import signal
from concurrent.futures import ThreadPoolExecutor
from contextlib import contextmanager
from queue import Empty, SimpleQueue

from . import cleaning, design, files, networks
from .answers import Answer, Smaller
from .progress import REDRAWN_EACH, Progress
from .words import PROPERTIES
from .work import DESIGN_JSON, FAILED, Folder

STOPS = signal.SIGINT, signal.SIGTERM
"""The signals that stop the work."""


def fault_of(fault):
    """What went wrong, in words."""
    return fault.strerror or str(fault) if isinstance(fault, OSError) else f"{type(fault).__name__}: {fault}"


def place(rows, output):
    """Gives each design its folder; the same design twice has the same one. A folder that is there is used again, where
    its name is one that a design is given."""
    there, taken, first, counts = {}, set(), {}, {}
    folder = output / "designs"
    for path in sorted(folder.iterdir()) if folder.is_dir() else []:
        taken.add(path.name)
        if files.is_slug(path.name) and path.is_dir() and not path.is_symlink():
            there.setdefault(Folder(path).digest(), path)
    for row in rows:
        digest = row.found.digest
        if not digest:
            continue
        if digest in first:
            row.same_as, row.folder = first[digest], first[digest].folder
            continue
        path = there.get(digest) or folder / files.free_name(row.found.name, taken, counts)
        taken.add(path.name)
        row.folder, first[digest] = Folder(path), row


def own_rows(rows):
    return [row for row in rows if row.folder and not row.same_as]


def fill(rows):
    """Takes what the folders' records tell into the rows."""
    for row in rows:
        if row.folder and row.folder.record.get("design") == row.found.digest:
            row.network, row.smaller = row.folder.network(), row.folder.smaller()
            told = {prop: row.folder.decided(prop) for prop in row.asked}
            row.decided = {prop: it for prop, it in told.items() if it}


def share(rows):
    """Gives each design that is there before what became of the first one."""
    for row in rows:
        if row.same_as:
            row.network, row.decided, row.trouble = row.same_as.network, row.same_as.decided, row.same_as.trouble
            row.smaller = row.same_as.smaller


def clean(folder):
    """Takes away what a run that was ended left half written."""
    for left in list(folder.path.iterdir()) if folder.path.is_dir() else []:
        if left.name.endswith(files.UNDONE):
            left.unlink()


def begin(worker, row):
    """Puts a design into its folder; whether that could be done."""
    try:
        clean(row.folder)
        worker.begin(row.folder, row.found.name, row.found.label(), row.found.text, row.found.file())
    except Exception as fault:
        row.trouble = f"its folder can't be written: {fault_of(fault)}"
    return row.trouble is None


def recover(worker, row):
    try:
        told = worker.recover(row.folder)
        row.network, row.trouble = (None, told.line) if told.status == FAILED else (told, None)
    except Exception as fault:
        row.trouble = f"its network can't be written: {fault_of(fault)}"


def decide(worker, row, prop):
    try:
        row.decided[prop] = worker.decide(row.folder, prop)
    except Exception as fault:
        row.decided[prop] = Answer("failed", f"the answer can't be written: {fault_of(fault)}")


def shrink(worker, row, others=()):
    """Looks for a smaller layout of a design, and gives what is found to others with the same network and sides."""
    for it in [row, *others]:
        try:
            it.smaller = worker.shrink(row.folder) if it is row else worker.share(
                it.folder, row.folder, it.cells() or 0
            )
        except Exception as fault:
            it.smaller = Smaller("failed", f"the smaller layout can't be written: {fault_of(fault)}")


def alike(rows, is_facing=False):
    """Groups of designs with the same network, each end at the same side unless that is asked for, and parts of the
    same tiers; the largest first."""
    groups = []
    for row in sorted(rows, key=lambda it: -(it.cells() or 0)):
        group = next((them for them in groups if is_alike(them[0], row, is_facing)), None)
        if group is None:
            groups.append([row])
        else:
            group.append(row)
    return groups


def is_alike(one, other, is_facing=False):
    """Whether one search for a smaller layout serves both designs."""
    try:
        sides, theirs = ({}, {}) if is_facing else (one.sides(), other.sides())
        if None in (sides, theirs) or list(one.tiers()) != list(other.tiers()) or len(one.net.edges) != len(
            other.net.edges
        ):
            return False
        if not (networks.is_plain(one.net_text) and networks.is_plain(other.net_text)):
            return one.net_text == other.net_text and sides == theirs
        if networks.shape(one.net) != networks.shape(other.net):
            return False
        names = networks.renaming(one.net.edges, other.net.edges)
    except Exception:
        return False
    return names is not None and all(sides[end[1]] == theirs[name[1]] for end, name in names.items() if end[1] in sides)


def is_to_shrink(folder, worker):
    """Whether a smaller layout of this design is still to be looked for."""
    told = folder.smaller()
    wanted = worker.smaller and folder.judged_file() == folder.file(DESIGN_JSON) and not folder.choices()
    return wanted and not (told and told.stands(worker.limits))


def undecided(folder, worker):
    """The properties that are still to be decided."""
    told = {prop: folder.decided(prop) for prop in worker.properties}
    return [prop for prop, it in told.items() if not (it and it.stands(worker.limits))]


def tasks_of(rows, worker):
    """What is to be done for each design and property, with its name."""
    for row in rows:
        left = undecided(row.folder, worker)
        row.decided = {prop: row.folder.decided(prop) for prop in row.asked if prop not in left}
        row.smaller = row.folder.smaller()
        yield from ((f"{row.found.name} {prop}", (decide, worker, row, prop)) for prop in left)
    for row, *others in alike([row for row in rows if is_to_shrink(row.folder, worker)], worker.limits.facing):
        yield f"{row.found.name} smaller", (shrink, worker, row, others)


def next_of(ended, progress):
    """What the next task to end leaves; the progress is drawn until then."""
    while True:
        progress.draw()
        try:
            return ended.get(timeout=REDRAWN_EACH)
        except Empty:
            pass


@contextmanager
def stops_into(ended):
    """What stops the work comes through the queue of what tasks leave, as if one had ended by it: raised wherever it
    comes, it could leave a lock taken that a task waits for. What the caller ignores stays ignored."""
    before = {it: signal.getsignal(it) for it in STOPS}
    heeded = [it for it in STOPS if before[it] is not signal.SIG_IGN]
    for it in heeded:
        signal.signal(it, lambda *_: ended.put(KeyboardInterrupt()))
    try:
        yield
    finally:
        for it in heeded:
            signal.signal(it, before[it])


def run_all(tasks, jobs, program, least=None):
    """Does all tasks, so many at once; what was found so far is told as it changes."""
    progress, ended = Progress(len(tasks)), SimpleQueue()
    progress.least = least if least is not None else {}

    def run(name, call, *rest):
        progress.running[id(rest)] = name
        fault = None
        try:
            call(*rest)
        except BaseException as it:
            fault = it
        progress.running.pop(id(rest))
        ended.put(fault)

    with stops_into(ended):
        pool = ThreadPoolExecutor(jobs)
        try:
            for name, task in tasks:
                pool.submit(run, name, *task)
            for _ in tasks:
                fault = next_of(ended, progress)
                progress.done += 1
                if fault:
                    raise fault
        except BaseException:
            program.stop()
            pool.shutdown(cancel_futures=True)
            raise
        finally:
            progress.end()
            pool.shutdown()
    if not ended.empty():
        raise ended.get()


def work(rows, worker, jobs):
    """All the work: networks first, then decisions."""
    own = [row for row in own_rows(rows) if begin(worker, row)]
    run_all([(row.found.name, (recover, worker, row)) for row in own], jobs, worker.program)
    judged = [row for row in own if row.network and row.network.is_judged()]
    run_all(list(tasks_of(judged, worker)), jobs, worker.program, worker.least)


def words_for_one(asked, worker):
    """The words of a command for one design that asks for the same."""
    given = [(f"--{name}", getattr(asked, name)) for name in ("seconds", "learnt", "pivots", "width", "program")]
    words = [word for name, value in given if value is not None for word in (name, str(value))]
    words += ["--smaller"] if asked.smaller else []
    words += ["--side-by-side"] if asked.side_by_side else []
    words += ["--properties", ",".join(worker.properties)] if worker.properties != PROPERTIES else []
    words += ["--bare-ends", asked.bare_ends] if asked.bare_ends != "label" else []
    for name, part in asked.treat_as:
        words += ["--treat-as", f"{name}={design.NAMES[part][1] if part else cleaning.NOTHING}"]
    return words


def plan(rows, worker, asked):
    """A command for each design that has work left."""
    command, words = os.environ.get("COLLECTION_COMMAND", "bin/collection"), words_for_one(asked, worker)
    for row in own_rows(rows):
        if begin(worker, row) and (undecided(row.folder, worker) or is_to_shrink(row.folder, worker)):
            yield shlex.join([command, *words, "--one", str(row.folder.path)])
