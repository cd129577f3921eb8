#!/usr/bin/env python3
"""Tries the scripts of share/machines, and the pipeline at the head of docs/MACHINES.md: each has to print what one search does.

Usage: tests/machines.py BINARY

In each the first search of a part is killed, and the same command again takes it up and does nothing twice. Slurm's daemons are
started here, for this machine alone, in a folder of their own. What isn't on this machine is left out and named: `parallel`,
`make`, Slurm.
"""
import os
import re
import shutil
import signal
import socket
import time

from program import EXAMPLES, ROOT, Tester, run

SCRIPTS = ROOT / "share" / "machines"
GUESTS = {"my guest": ("lost_update.guest", "2"), "fixed.guest": ("lost_update_fixed.guest", "3")}
SLURM = ("munged", "slurmctld", "slurmd", "sinfo", "sbatch")

# What stands before the program: the first search under a prefix, which makes the folder, is killed, and others are noted.
KILLED = """#!/bin/sh
case "$*" in *--under*)
    mkdir "$KILLED" 2> "$KILLED.err" && kill -9 $$
    echo "$*" >> "$KILLED.searches";;
esac
exec "%s" "$@"
"""

CONF = """ClusterName=here
SlurmctldHost=%(host)s(127.0.0.1)
SlurmctldPort=%(ports)d
SlurmdPort=%(node_port)d
AuthType=auth/munge
AuthInfo=socket=%(there)s/munge.socket
CredType=cred/munge
SlurmUser=root
StateSaveLocation=%(there)s/state
SlurmdSpoolDir=%(there)s/spool
SlurmctldPidFile=%(there)s/slurmctld.pid
SlurmdPidFile=%(there)s/slurmd.pid
SlurmctldLogFile=%(there)s/slurmctld.log
SlurmdLogFile=%(there)s/slurmd.log
ProctrackType=proctrack/linuxproc
TaskPlugin=task/none
SelectType=select/cons_res
SelectTypeParameters=CR_CPU
JobAcctGatherType=jobacct_gather/none
SchedulerParameters=sched_interval=1,sched_min_interval=0,batch_sched_delay=0
NodeName=%(host)s NodeAddr=127.0.0.1 CPUs=4 State=UNKNOWN
PartitionName=here Nodes=ALL Default=YES MaxTime=INFINITE State=UP
"""


def free_port():
    with socket.socket() as one:
        one.bind(("127.0.0.1", 0))
        return one.getsockname()[1]


class Machines(Tester):
    seconds = 120

    def __init__(self, given, folder):
        super().__init__(given, folder)
        self.write("bin/ctxbound", KILLED % self.binary).chmod(0o755)
        self.environment = dict(os.environ, PATH="%s:%s" % (folder / "bin", os.environ["PATH"]), HOME=str(folder),
                                LC_ALL="C", PARTS="20")
        for name, (example, _) in GUESTS.items():
            shutil.copy(EXAMPLES / example, folder / name)

    def run(self, *words, kills=None, **more):
        """A command, in which the first search under a prefix is killed where it is said which folder tells so."""
        killed = str(self.folder / (kills or "bin"))
        return run(words, seconds=self.seconds, cwd=self.folder, env=dict(self.environment, KILLED=killed, **more))

    def is_whole(self, what, done, name, bound):
        """Compares what a script printed and its status with those of one search."""
        self.expect(what, (done.out, done.status) == self.wanted(name, bound), *done)

    def wanted(self, name, bound):
        done = self.run(self.binary, "explore", name, "--bound", bound)
        return done.out, done.status

    def taken_up(self, what, name, bound, *words, **more):
        """A script says that a part which was killed is missing, and the same command again takes it up. What is kept is beside
        the guest, or where FOLDER says."""
        done = self.run(*words, kills=what, **more)
        self.expect(what + ": a part was killed", done.status not in (0, 1) and not done.out, *done)
        self.expect(what + ": it was", (self.folder / what).is_dir())
        done = self.run(*words, kills=what, **more)
        self.is_whole(what, done, name, bound)
        self.nothing_twice(what, name)
        kept = self.folder / more.get("FOLDER", ".") / ("%s.%s.20" % (name, bound))
        self.expect(what + ": the folder", kept.is_dir() and (not more or not (self.folder / kept.name).exists()), kept)

    def nothing_twice(self, what, name):
        """Under each prefix that is listed one search wasn't killed."""
        listed = self.run(self.binary, "prefixes", name, "--at-least", "20").out.split()
        searched = [line.split()[-1] for line in (self.folder / (what + ".searches")).read_text().splitlines()]
        self.expect(what + ": each part is searched once", sorted(searched) == sorted(listed), searched)

    def without_parallel(self):
        """A program that is missing is named, also where another one has its name."""
        for there in (None, "#!/bin/sh\necho other\n"):
            tools = self.folder / ("with" if there else "without")
            self.write("with/parallel" if there else "without/other", there or "").chmod(0o755)
            for tool in ("sh", "dirname", "basename", "grep", "mkdir", "cat"):
                (tools / tool).symlink_to(shutil.which(tool))
            done = self.run("sh", SCRIPTS / "search_by_parallel.sh", "my guest", "2", PATH="%s:%s" % (tools, self.folder / "bin"))
            self.expect("without GNU parallel, %s another" % tools.name, done.status == 127 and done.err.endswith(
                ": GNU parallel isn't on the PATH\n") and not list(self.folder.glob("*.20")), *done)

    def by_parallel(self):
        if not self.has("parallel"):
            return
        shown = re.search(r"^```sh\n(.*?)^```$", (ROOT / "docs" / "MACHINES.md").read_text(), re.M | re.S)[1]
        shutil.copy(self.folder / "my guest", self.folder / "my.guest")
        done = self.run("sh", "-c", shown)
        self.is_whole("the pipeline that is shown", done, "my.guest", "4")
        for (name, (_, bound)), more in zip(GUESTS.items(), ({}, {"FOLDER": "kept here"})):
            self.taken_up("parallel of " + name, name, bound, "sh", SCRIPTS / "search_by_parallel.sh", name, bound, "4/:", **more)

    def by_make(self):
        if not self.has("make"):
            return
        words = ["make", "-s", "-j", "4", "-f", SCRIPTS / "Makefile", "GUEST=fixed.guest", "BOUND=3"]
        self.taken_up("make, where it is said", "fixed.guest", "3", *words, FOLDER="elsewhere")
        self.taken_up("make", "fixed.guest", "3", *words)
        shutil.copy(self.folder / "fixed.guest", self.folder / "kept")
        (self.folder / "fixed.guest").write_text((self.folder / "kept").read_text() + "# other\n")
        done = self.run(*words)
        self.is_whole("make, where the guest is newer", done, "fixed.guest", "3")
        shutil.copy(self.folder / "kept", self.folder / "fixed.guest")

    def by_jobs(self):
        """The script of Slurm's jobs by itself, where FOLDER says."""
        for job in range(1, 5):
            done = self.run("bash", SCRIPTS / "search.sbatch", "fixed.guest", "3", SLURM_ARRAY_TASK_ID=str(job),
                            SLURM_ARRAY_TASK_MIN="1", SLURM_ARRAY_TASK_COUNT="4", FOLDER="by jobs")
            self.expect("job %d" % job, done.status == 0, done.err)
        self.is_whole("jobs", self.joined("fixed.guest", "3", "by jobs/"), "fixed.guest", "3")

    def by_slurm(self):
        if not self.has(*SLURM) or os.geteuid():
            return
        there = self.folder / "slurm"
        for part in ("", "state", "spool"):
            (there / part).mkdir(mode=0o700)
        (there / "key").write_bytes(os.urandom(64))
        (there / "key").chmod(0o600)
        host = socket.gethostname().split(".")[0]
        (there / "slurm.conf").write_text(CONF % {"host": host, "there": there, "ports": free_port(), "node_port": free_port()})
        self.environment["SLURM_CONF"] = str(there / "slurm.conf")
        try:
            if self.starts(there):
                self.array()
        finally:
            for daemon in ("slurmd", "slurmctld", "munged"):
                if (there / (daemon + ".pid")).exists():
                    os.kill(int((there / (daemon + ".pid")).read_text()), signal.SIGTERM)

    def starts(self, there):
        """Starts the daemons. Where they don't come up, as where a machine forbids it, Slurm is left out."""
        of_munge = {"key-file": "key", "socket": "munge.socket", "pid-file": "munged.pid", "log-file": "munged.log",
                    "seed-file": "seed"}
        self.run("munged", "--force", *("--%s=%s" % (word, there / file) for word, file in of_munge.items()))
        self.run("slurmctld", "-c", "-i")
        self.run("slurmd")
        for _ in range(40):
            if "idle" in self.run("sinfo", "-h", "-o", "%T").out:
                return True
            time.sleep(0.25)
        self.left_out.append("Slurm, which doesn't come up")
        return False

    def array(self):
        words = ["sbatch", "--wait", "--output=/dev/null", "--array=1-4", SCRIPTS / "search.sbatch", "my guest", "2"]
        done = self.run(*words, kills="slurm's")
        self.expect("Slurm: a part was killed", done.status != 0, done.err)
        self.expect("Slurm: it is missing", self.joined("my guest", "2").status == 3)
        done = self.run(*words, kills="slurm's")
        self.expect("Slurm: all jobs end well", done.status == 0, *done)
        self.is_whole("Slurm", self.joined("my guest", "2"), "my guest", "2")
        self.nothing_twice("slurm's", "my guest")

    def joined(self, name, bound, folder=""):
        return self.run("sh", "-c", 'cat "$2$0.$1.20"/*.part | ctxbound join "$0" --bound "$1"', name, bound, folder)

    def test(self):
        self.without_parallel()
        self.by_make()
        self.by_jobs()
        self.by_slurm()
        # It keeps its parts in folders of the same names.
        for kept in self.folder.glob("*.20"):
            shutil.rmtree(kept)
        self.by_parallel()


if __name__ == "__main__":
    Machines.main()
