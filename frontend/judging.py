"""Judging the builds of a tray with judge_build. The words come from that program alone.

If a run is not whole, the bundle that ended it is looked for, gets an empty name, and the build is judged again: so the
program counts that bundle as one that it could not read. If that fails too, the word is `refused`, with the reason.
"""

import queue
from concurrent.futures import ThreadPoolExecutor

from frontend.announced import hold_to_manifest
from frontend.bundles import MOST_BYTES, cut_chunks
from frontend.failures import reason_of
from frontend.tray import open_file, why_not_opened

MOST_BROKEN = 8  # bundles of one build that may end a worker; the rest of such a build is not tried
LAST_RUNS = 2  # runs over the build once these bundles are known


def judge(programs, build):
    """Sets the word of a build and the line of each of its bundles."""
    if build.manifest:
        hold_to_manifest(build)
    folder = build.path if any(b.reason is None for b in build.bundles) else None
    if build.path is None:
        names = []
    else:
        names = [b.given_name() for b in build.bundles]
    run = programs.judge_build(names, folder)
    if run.failure:
        broken = find_broken(programs, names, folder, run)
        for k, reason in broken.items():
            build.bundles[k].reason = reason
        run = judge_again(programs, [b"" if k in broken else n for k, n in enumerate(names)], folder)
    for bundle, line in zip(build.bundles, run.lines):
        bundle.line = line
        if line.word == "refused" and line.refusal is None and bundle.reason is None:
            bundle.reason = why_not_opened(bundle.path)
        if line.counts:
            bundle.cut = cut_of(bundle)
    if run.failure:
        build.word, build.reason = "refused", f"the build could not be judged: {run.failure}"
    else:
        build.word = run.word


def cut_of(bundle):
    """(cut chunks, chunks) of an accepted bundle; None if no chunk is cut, or if the file is another one by now."""
    try:
        with open_file(bundle.path) as file:
            cut, chunks = cut_chunks(file.read(MOST_BYTES))
    except OSError:
        return None
    return (cut, chunks) if cut and chunks == bundle.line.counts.chunks else None


def find_broken(programs, names, folder, run):
    """The bundles that end a worker, each with the reason. The first bundle without a line is run alone, then the rest."""
    broken = {}
    k = len(run.lines)
    while k < len(names):
        if len(broken) == MOST_BROKEN:
            reason = f"not judged, since {MOST_BROKEN} bundles of this build had ended the program before"
            broken.update((rest, reason) for rest in range(k, len(names)) if names[rest])
            break
        alone = programs.judge_build(names[k : k + 1], folder)
        if alone.failure:
            broken[k] = alone.failure
        k += 1
        rest = programs.judge_build(names[k:], folder)
        if not rest.failure:
            break
        k += len(rest.lines)
    return broken


def judge_again(programs, names, folder):
    for _ in range(LAST_RUNS):
        run = programs.judge_build(names, folder)
        if not run.failure:
            break
    return run


# ------------------------------------------------------------------ all builds


def in_parallel(programs, jobs, tasks, done, tick=lambda: None):
    """Runs each of the tasks, some at a time, and calls done(task's item) in this thread, and tick() now and then. A task is
    (function, item)."""
    ended = queue.SimpleQueue()

    def work(function, item):
        try:
            function(programs, item)
            ended.put((item, None))
        except BaseException as error:
            ended.put((item, error))

    pool = ThreadPoolExecutor(jobs)
    try:
        for function, item in tasks:
            pool.submit(work, function, item)
        for _ in tasks:
            item, error = next_of(ended, tick)
            if error:
                raise error
            done(item)
    except BaseException:
        programs.stop.set()
        pool.shutdown(wait=True, cancel_futures=True)
        raise
    pool.shutdown()


def next_of(ended, tick):
    while True:
        tick()
        try:
            return ended.get(timeout=0.2)
        except queue.Empty:
            pass


def judge_all(programs, jobs, builds, progress):
    """Judges all builds; those with most bundles first, so that none is left over at the end."""
    order = sorted(builds, key=lambda b: -len(b.bundles))
    in_parallel(programs, jobs, [(judge, b) for b in order], progress.judged, lambda: progress.tick(programs.judged))


def list_races(programs, jobs, bundles, most):
    """The first races of each of these bundles, for the page."""

    def ask(programs, bundle):
        try:
            with open_file(bundle.path) as file:
                counts, races, failure = programs.races(file, most)
        except OSError as error:
            counts, races, failure = None, [], reason_of(error)
        if failure is None and (counts != bundle.line.counts or races[:1] != [bundle.line.least]):
            failure = "the file was changed after it was judged"
        if failure:
            bundle.races, bundle.races_failure = [bundle.line.least], failure
        else:
            bundle.races = races

    in_parallel(programs, jobs, [(ask, b) for b in bundles], lambda bundle: None)
