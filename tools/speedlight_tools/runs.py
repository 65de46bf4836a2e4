"""A run: its input, its report, and the world after the turns of its trace."""

from pathlib import Path

from . import command, program
from .inputs import read_input
from .replay import Misfit, replay
from .reports import NoReport, read_report


def add_options(parser):
    parser.add_argument("input", metavar="INPUT", help="the input of the run")
    parser.add_argument("run", metavar="RUN", nargs="?", help="what step --trace printed; - for standard input")
    parser.add_argument("--threads", action="store_true", help="runs the program with a thread for each actor")
    parser.add_argument("--program", metavar="PATH", help="the program that is run where RUN is not given")


def read_run(options):
    """The input, the report and the world of the run that the options name. What the turns show must be what the report
    says."""
    source = read_input(options.input)
    report = report_of(options, Path(options.input).read_bytes())
    try:
        world = replay(source, report.trace)
    except Misfit as misfit:
        raise command.Trouble(misfit) from None
    check(world, report)
    return source, report, world


def report_of(options, text):
    """The report and the trace of the run."""
    if options.run is None:
        found = program.find(options.program)
        words = ["run" if options.threads else "step", "--trace"]
        status, out, errors = program.run(found, words, text)
        if status != 0:
            raise command.Trouble(program.fault(found, status, errors))
        told, name = out.decode("utf-8"), "the program"
    else:
        told, name = command.read_text(options.run), options.run
    try:
        report = read_report(told)
    except NoReport as fault:
        raise command.Trouble(f"{name}: no report with its trace: {fault}") from None
    if report.trace is None:
        raise command.Trouble(f"{name}: a report without a trace: run `{program.called()} step --trace`")
    return report


def check(world, report):
    """What the turns show is what the report says."""
    for told in report.snapshots:
        if (told.verdict == "not issued") != (told.number > world.issued):
            raise command.Trouble(f"the report says `{told.line}`, where the turns issue {world.issued}: is it of this input?")
        if told.verdict == "not issued":
            continue
        found = world.verdict(told.number)
        if told.line != found.line:
            raise command.Trouble(f"the report says `{told.line}`, where the turns show `{found.line}`: is it of this input?")
    if set(report.host_counts) != set(world.net.hosts) or report.units != len(world.net.units):
        raise command.Trouble("the report is of another net than the input")
