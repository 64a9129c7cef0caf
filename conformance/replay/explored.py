"""Random scripts of `postmig explore`, each finished and with a sweep, for a handler under test."""

from program import PROFILES as KNOWN  # noqa: F401

from .comparison import Job, run
from .programs import cpus_of_seed, settings_of

# In which a destination meets faults.
PROFILES = ("postcopy", "moves", "urgent", "all")


def explored_jobs(arguments, program, tested):
    """Scripts that are yet to be made: a worker makes each."""
    for profile in arguments.profiles or PROFILES:
        for seed in arguments.seeds:
            settings = settings_of(arguments, cpus_of_seed(seed))
            name = f"{profile}/{seed}.cpus{settings.cpus}.script"
            yield Job(name, None, settings, None, None, program, tested, (seed, profile, arguments.lines))


def written(job):
    """The job with its script."""
    if job.data is None:
        seed, profile, lines = job.recipe
        words = ["--seed", str(seed), "--profile", profile, "--lines", str(lines), "--cpus", str(job.settings.cpus)]
        job.data = run([*job.program, "explore", *words, "--finish", "--sweep"], b"")[0].encode()
    return job
