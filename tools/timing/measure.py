"""The processor's time of a run."""
import resource
import subprocess

RUNS = 9


def processor_seconds():
    """What the programs run so far had of the processor: unlike the clock's time it has no part of other programs."""
    used = resource.getrusage(resource.RUSAGE_CHILDREN)
    return used.ru_utime + used.ru_stime


def seconds(program, asked, answered=subprocess.DEVNULL):
    """One run's, from a file to another."""
    before = processor_seconds()
    with open(asked, "rb") as given:
        subprocess.run([program], env={}, stdin=given, stdout=answered, check=True)
    return processor_seconds() - before


def shortest(runs, times=RUNS):
    """The shortest of some runs of each. All is run before anything is run again, so that other load for some seconds,
    which only makes a run longer, does not meet all runs of one thing."""
    best = {}
    for _ in range(times):
        for key, run in runs.items():
            spent = run()
            best[key] = min(spent, best.get(key, spent))
    return best
