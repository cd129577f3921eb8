"""What the scripts of bench/ share: what a run takes. A script ends where a run ends with a status that no search has."""
import sys
import time
from pathlib import Path

ROOT = Path(__file__).resolve().parent.parent
sys.path.insert(0, str(ROOT / "tests"))
from program import run  # noqa: E402  (the path has to be set first)

# Runs a command from a small process: the most memory of a process counts that of the one that started it.
SMALL = "import os, sys; _, status, used = os.wait4(os.posix_spawn(sys.argv[1], sys.argv[1:], os.environ), 0); " \
    "print(used.ru_utime, used.ru_stime, used.ru_maxrss, file=sys.stderr); sys.exit(status >> 8 or status)"


def searched(words, seconds=None, **more):
    """The answer of a command."""
    answer = run(words, seconds=seconds, **more)
    if answer.status not in (0, 1, 3):
        sys.exit("%s ended with status %d\n%s" % (" ".join(map(str, words)), answer.status, answer.err))
    return answer


def timed(*words, **more):
    """What a command writes on standard output, and its seconds by the clock."""
    began = time.perf_counter()
    answer = searched(words, **more)
    return answer.out, time.perf_counter() - began


def least(runs, *words):
    """What a command writes, and its least seconds of so many runs."""
    tried = [timed(*words) for _ in range(runs)]
    return tried[0][0], min(seconds for _, seconds in tried)


def used(*words):
    """What a command writes, its seconds of a processor, its own and those of the system, and the most kilobytes that it had."""
    answer = searched([sys.executable, "-S", "-c", SMALL, *words])
    own, system, most = answer.err.split()[-3:]
    return answer.out, float(own), float(system), int(most)


def cases(words, default):
    """Each guest with its search: of the words by twos, or those where there are none."""
    return list(zip(words[::2], words[1::2])) or default
