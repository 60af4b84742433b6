"""What is asked for on the command line, done with one path after the other, and the exit status."""

import os
import stat
import sys

from front import outputs
from front.arguments import arguments_of
from front.building import ROOT, Builder
from front.jobs import SETTLED, TROUBLE, Jobs, Outcome
from front.kinds import ELECTRICITY, kind_of_example
from front.programs import Programs
from front.sources import INPUT
from front.trouble import Trouble


def main(words):
    """Does what the words of the command line ask; answers the exit status."""
    try:
        arguments = arguments_of(words)
        return _answered(Builder(ROOT, outputs.tell), arguments)
    except outputs.Closed as closed:
        if str(closed):
            outputs.tell(f"standard output: {closed}; nothing more is printed")
    except KeyboardInterrupt:
        pass
    except Exception as error:  # pylint: disable=broad-except
        # Staff can do nothing with a traceback.
        outputs.tell(f"settle: this should not happen, so tell whoever keeps it: {type(error).__name__}: {error}")
    outputs.give_up()
    return TROUBLE


def _answered(builder, arguments):
    """The exit status of what is asked for."""
    jobs = Jobs(Programs(builder, arguments.book_kind), arguments)
    if arguments.compare:
        return _attempt(lambda _: jobs.compare(*arguments.paths), " and ".join(arguments.paths)).status
    if arguments.show:
        return _each(jobs.show, arguments.paths)
    if arguments.sheet is not None:
        return _each(jobs.sheet, arguments.paths)
    if arguments.encode is not None:
        return _each(jobs.encode, arguments.paths)
    if arguments.write is not None:
        return _each(jobs.write, arguments.paths)
    if arguments.paths or _input_given():
        return _each(jobs.settle, arguments.paths or [INPUT], told=outputs.tell if arguments.table else None)
    return _examples(builder, arguments)


def _each(job, paths, told=None):
    """Does the job with every path, whatever became of those before it; `told` takes the headings, if not standard output."""
    if len(paths) == 1:
        return _attempt(job, paths[0]).status
    told = told or (lambda line: outputs.put(os.fsencode(line) + b"\n"))
    outcomes = []
    for path in paths:
        told(f"# {path}")
        outcomes.append(_attempt(job, path))
    for path, outcome in zip(paths, outcomes):
        told(f"# {path}: {outcome.words}")
    return max(outcome.status for outcome in outcomes)


def _input_given():
    """Whether something is piped or sent into the command: neither a terminal nor /dev/null."""
    if sys.stdin is None:
        return False
    try:
        mode = os.fstat(sys.stdin.fileno()).st_mode
    except (OSError, ValueError):
        return False
    return not stat.S_ISCHR(mode)


def _examples(builder, arguments):
    """Settles the examples, each after what it shows. Two are there to be refused, so that only trouble counts."""
    trouble = False
    for calls in sorted(ROOT.glob("examples/*/calls.txt")):
        book_kind = kind_of_example(calls.parent.name)
        # Where a kind is asked for, those of that kind alone.
        if arguments.book_kind not in (ELECTRICITY, book_kind):
            continue
        jobs = Jobs(Programs(builder, book_kind), arguments)
        outputs.put(b"".join(line for line in calls.read_bytes().splitlines(True) if line.startswith(b"#")))
        trouble |= _attempt(jobs.settle, os.path.relpath(calls.parent)).status == TROUBLE
    return TROUBLE if trouble else SETTLED


def _attempt(job, path):
    try:
        return job(path)
    except Trouble as trouble:
        outputs.tell(str(trouble))
        return Outcome(TROUBLE, f"trouble: {trouble.short}")
    except OSError as error:
        why = error.strerror or str(error)
        file = "" if error.filename in (None, path) else f"{error.filename}: "
        outputs.tell(f"{path}: {file}{why}")
        return Outcome(TROUBLE, f"trouble: {why}")
