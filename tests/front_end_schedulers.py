"""The parts of a tray as jobs of real schedulers, by the very lines of docs/TRAY.md: Slurm and GNU parallel, also with jobs that are
requeued, cancelled and killed.

Slurm runs as a controller and a node on this machine, with its own folder, key and ports; one that the machine has is left alone. A
test is skipped, with the reason, if its scheduler is not installed or does not start.
"""

import contextlib
import os
import pwd
import re
import shutil
import signal
import socket
import subprocess
import sys
import textwrap
import time
from pathlib import Path

import front_end_setting as setting
from front_end_setting import EXAMPLE, LATE, ROOT, SCRIPT, TORN, Case

MOST_SECONDS = 180  # until something has happened; much more than it takes on a busy machine
SLURM = ("munged", "slurmctld", "slurmd", "sbatch", "scancel", "scontrol", "sinfo", "squeue")
OTHERS = ("SLURM", "SBATCH", "SQUEUE", "SINFO", "PARALLEL", "MUNGE")  # variables that would lead to another scheduler

# Of a part: writes down which process judges it, and waits until the file 'go' is there.
WAITING = """
here = os.path.dirname(os.path.dirname(os.path.abspath(sys.argv[0])))
with open(f"/proc/{os.getppid()}/cmdline") as file:
    arguments = file.read().split("\\0")
if "--part" in arguments:
    part = arguments[arguments.index("--part") + 1].split("/")[0]
    with open(os.path.join(here, "started", part), "a") as file:
        file.write(f"{os.getppid()}\\n")
    while not os.path.exists(os.path.join(here, "go")):
        time.sleep(0.05)
for line in real(names):
    say(line)
"""


def recipes():
    """The indented blocks of the section: Slurm's, then GNU parallel's, each as its commands."""
    text = (ROOT / "docs" / "TRAY.md").read_text(encoding="utf-8")
    section = text.split("\n## A tray in parts\n")[1].split("\n## ")[0]
    blocks = re.findall(r"(?:^    .*\n)+", section, re.MULTILINE)
    return [textwrap.dedent(block).replace("\\\n", "").splitlines() for block in blocks[:2]]


def path_of(program):
    """Where a program is; daemons are in folders that not everybody searches."""
    return shutil.which(program, path=os.pathsep.join([os.environ.get("PATH", ""), "/usr/sbin", "/sbin"]))


def free_ports(number):
    """Ports that nobody listens on."""
    sockets = [socket.socket() for _ in range(number)]
    try:
        for s in sockets:
            s.bind(("", 0))
        return [s.getsockname()[1] for s in sockets]
    finally:
        for s in sockets:
            s.close()


def processes_of(folder):
    """The daemons and jobs of the test with this folder, whoever started them: a path in it is in their environment (Slurm's own ones
    keep that of the configuration)."""
    found, path = [], os.fsencode(folder)
    for entry in Path("/proc").iterdir():
        if entry.name.isdigit() and int(entry.name) != os.getpid():
            with contextlib.suppress(OSError):  # it has ended, or is somebody else's
                values = [variable.partition(b"=")[2] for variable in (entry / "environ").read_bytes().split(b"\0")]
                if any(value == path or value.startswith(path + b"/") for value in values):
                    found.append(int(entry.name))
    return found


def end_processes_of(folder):
    """Answers whether all have ended."""
    deadline = time.monotonic() + 30
    while (left := processes_of(folder)) and time.monotonic() < deadline:
        for number in left:
            with contextlib.suppress(OSError):
                os.kill(number, signal.SIGKILL)
        time.sleep(0.05)
    return not left


class Scheduled(Case):
    """A tray of builds for all parts, and the lines of a recipe."""

    recipe_number = None

    def setUp(self):
        super().setUp()
        self.started = []
        self.watch()
        self.tray = self.folder / "TRAY"
        self.tray.mkdir()
        (self.folder / "dezhakom").symlink_to(SCRIPT)
        kept = {k: v for k, v in os.environ.items() if not k.startswith(OTHERS)}
        self.environment = {
            **kept, "DEZHAKOM_PROGRAMS": str(setting.programs), "SOURCE_DATE_EPOCH": "1790000000", "TEST_FOLDER": str(self.folder),
            "PATH": os.pathsep.join([os.path.dirname(sys.executable), os.environ.get("PATH", os.defpath)]),
        }
        self.read_recipe()
        self.fill_tray()

    def read_recipe(self):
        """The command for all parts, the one that joins them, and N."""
        self.recipe = recipes()[self.recipe_number]
        (self.array,) = [line for line in self.recipe if " tray " in line]
        (self.join,) = [line for line in self.recipe if " join " in line]
        self.parts = int(re.search(r"--part \S+/([0-9]+) ", self.array)[1])
        self.assertGreaterEqual(self.parts, 4)

    def fill_tray(self):
        """Builds of every word for every part, one that has no folder, and folders that have no row."""
        names = [f"build {k:02}" for k in range(2 * self.parts)]
        for k, name in enumerate(names[1:]):
            self.put(name, **[{"a": LATE}, {"a": LATE, "b": EXAMPLE}, {"a": TORN, "b": LATE}, {}][k % 4])
        self.put("without a row", a=EXAMPLE)
        self.put("another without", a=LATE)
        self.sheet.write_text("build,x\n" + "".join(f"{name},1\n" for name in names))

    def watch(self):
        """Starts a process that ends all daemons and jobs of this test when the test has ended, even if it was killed."""
        watcher = subprocess.Popen([sys.executable, "-B", __file__, self.folder], stdin=subprocess.PIPE, start_new_session=True)

        def end():
            watcher.stdin.close()
            self.assertEqual(watcher.wait(60), 0, "there are processes that do not end")
            for process in self.started:
                process.wait(20)

        self.addCleanup(end)

    def waiting_programs(self):
        """From now on the jobs wait for the file 'go'."""
        (self.folder / "started").mkdir()
        self.environment["DEZHAKOM_PROGRAMS"] = str(self.faulty_programs(WAITING))

    def let_go(self):
        (self.folder / "go").touch()

    def runs_of(self, part):
        """The processes that have judged a part so far."""
        try:
            lines = (self.folder / "started" / str(part)).read_text().splitlines(keepends=True)
        except FileNotFoundError:
            return []
        return sorted({int(line) for line in lines if line.endswith("\n")})

    def parts_there(self):
        return sorted(int(p.name) for p in (self.folder / "parts").iterdir() if not p.name.startswith("."))

    def start(self, command, **more):
        process = subprocess.Popen(
            command, cwd=self.folder, env=self.environment, stdin=subprocess.DEVNULL, start_new_session=True, **more
        )
        self.started.append(process)
        return process

    def run_line(self, line):
        """A line of a shell, as the documentation has it."""
        ended = subprocess.run(
            ["sh", "-c", line], cwd=self.folder, env=self.environment, capture_output=True, stdin=subprocess.DEVNULL,
            timeout=MOST_SECONDS,
        )
        return setting.Ended(ended.returncode, ended.stdout.decode(errors="replace"), ended.stderr.decode(errors="replace"))

    def wait_until(self, what, condition):
        deadline = time.monotonic() + MOST_SECONDS
        while not condition():
            if time.monotonic() > deadline:
                self.fail(f"not within {MOST_SECONDS} s: {what}")
            time.sleep(0.1)

    def of_one_run(self):
        """The sheet and the page of one run over the whole tray, by the programs themselves."""
        one = self.folder / "one.csv", self.folder / "one.html"
        ended = self.run_command("tray", "TRAY", "--sheet", "builds.csv", "--out", one[0], "--page", one[1], env=self.environment)
        self.assertEqual(ended.status, 1, ended)
        return [path.read_bytes() for path in one]

    def assert_joined(self, ended):
        """The files of join are those of one run, and so is its status."""
        self.assertEqual((ended.status, self.out.exists(), self.page.exists()), (1, True, True), ended)
        self.assertNotIn("judged again", ended.out)
        found = [self.out.read_bytes(), self.page.read_bytes()]
        self.environment["DEZHAKOM_PROGRAMS"] = str(setting.programs)
        for have, wanted in zip(found, self.of_one_run()):
            self.assertEqual(have.decode(), wanted.decode())
        self.assertEqual(set(self.words().values()), {"race", "refused", "missing", "race-free"})

    def assert_lacking(self, parts):
        """These parts are missing: join says so and writes nothing."""
        self.assertEqual(self.parts_there(), [k for k in range(1, self.parts + 1) if k not in parts])
        ended = self.run_line(self.join)
        self.assertEqual(ended.status, 2, ended)
        many = "part" if len(parts) == 1 else "parts"
        self.assertIn(f"{len(parts)} {many} of {self.parts} missing: {', '.join(map(str, parts))}\n", ended.err)
        self.assertFalse(self.out.exists() or self.page.exists())

    def check_recipe(self):
        """All its lines, each only if the one before has done well."""
        self.assert_joined(self.run_line("set -e\n" + "\n".join(self.recipe)))
        self.assertEqual(self.parts_there(), list(range(1, self.parts + 1)))


# -------------------------------------------------------------------- Slurm


CONFIGURATION = """\
ClusterName=dezhakom
SlurmctldHost={host}(127.0.0.1)
SlurmctldPort={controller_port}
SlurmdPort={node_port}
SlurmUser={user}
SlurmdUser={user}
AuthType=auth/munge
AuthInfo=socket={folder}/socket
CredType=cred/munge
ProctrackType=proctrack/linuxproc
StateSaveLocation={folder}/state
SlurmdSpoolDir={folder}/spool
SlurmctldPidFile={folder}/slurmctld.pid
SlurmdPidFile={folder}/slurmd.pid
SelectType=select/cons_tres
SelectTypeParameters=CR_CPU
SlurmdParameters=config_overrides
NodeName=here NodeHostname={host} NodeAddr=127.0.0.1 CPUs=16
PartitionName=all Nodes=here Default=YES
"""


class Slurm(Scheduled):
    recipe_number = 0

    def setUp(self):
        lacking = [program for program in SLURM if not path_of(program)]
        if lacking:
            self.skipTest(f"slurm-wlm is not installed: no {', '.join(lacking)}")
        super().setUp()
        self.start_slurm()

    def start_slurm(self):
        place = self.folder / "slurm"
        for name in (".", "state", "spool"):
            (place / name).mkdir()
        (place / "key").write_bytes(os.urandom(128))
        (place / "key").chmod(0o600)
        controller_port, node_port = free_ports(2)
        (place / "slurm.conf").write_text(
            CONFIGURATION.format(
                host=socket.gethostname().split(".")[0], controller_port=controller_port, node_port=node_port, folder=place,
                user=pwd.getpwuid(os.geteuid()).pw_name,
            )
        )
        self.environment["SLURM_CONF"] = str(place / "slurm.conf")
        files = {"socket": "socket", "key-file": "key", "pid-file": "munged.pid", "log-file": "munged.log", "seed-file": "seed"}
        self.start_daemon(
            "munged", ["--force", "--foreground", *(f"--{k}={place / v}" for k, v in files.items())], (place / "socket").exists
        )
        self.start_daemon("slurmctld", ["-D"], lambda: self.ask("sinfo").status == 0)
        for cgroups in ("", "CgroupPlugin=disabled\n"):  # the second where there are none, which older versions do not know
            (place / "cgroup.conf").write_text(cgroups)
            if self.start_daemon("slurmd", ["-D"], lambda: self.ask("sinfo", "-h", "-o", "%T").out.strip() == "idle", last=bool(cgroups)):
                return

    def start_daemon(self, name, arguments, is_ready, last=True):
        """Answers whether it is ready. The last time, the test is skipped if it is not, with what it says."""
        said = self.folder / "slurm" / f"{name}.out"
        with open(said, "ab") as out:
            process = self.start([path_of(name), *arguments], stdout=out, stderr=out)
        deadline = time.monotonic() + 40
        while not is_ready():
            if process.poll() is not None or time.monotonic() > deadline:
                process.kill()
                process.wait()
                lines = said.read_text(errors="replace").splitlines()
                faults = [line for line in lines if re.search("error|fatal", line, re.IGNORECASE)] or lines
                if last:
                    self.skipTest(f"Slurm does not start here: {'; '.join(faults[-6:]) or name + ' says nothing'}")
                return False
            time.sleep(0.1)
        return True

    def ask(self, program, *arguments):
        ended = subprocess.run(
            [path_of(program), *arguments], capture_output=True, text=True, env=self.environment, stdin=subprocess.DEVNULL,
            timeout=MOST_SECONDS, cwd=self.folder,
        )
        return setting.Ended(ended.returncode, ended.stdout, ended.stderr)

    def order(self, *arguments):
        """Asks for something that has to be done."""
        ended = self.ask(*arguments)
        self.assertEqual(ended.status, 0, ended)
        return ended.out

    def submit(self, array=None):
        """The line of the recipe without waiting, for all jobs or those of an array; the number of the array."""
        line = self.array.replace(" --wait", "")
        if array:
            line = line.replace(f"--array=1-{self.parts} ", f"--array={array} ")
            self.assertIn(array, line)
        ended = self.run_line(line)
        self.assertEqual(ended.status, 0, ended)
        return re.fullmatch(r"Submitted batch job ([0-9]+)\n", ended.out)[1]

    def states(self, job):
        """{task: state} of an array, with those that have ended."""
        lines = self.order("squeue", "-h", "-r", "-t", "all", "-j", job, "-o", "%K %T").splitlines()
        return {int(task): state for task, state in map(str.split, lines)}

    def wait_for_end(self, job):
        self.wait_until(f"the jobs of array {job} end", lambda: not self.order("squeue", "-h", "-j", job).strip())

    def test_the_lines_of_the_documentation(self):
        self.check_recipe()

    def test_jobs_that_are_requeued_cancelled_and_killed(self):
        self.waiting_programs()
        (self.folder / "parts").mkdir()
        job = self.submit()
        everything = range(1, self.parts + 1)
        self.wait_until("all jobs judge", lambda: all(self.runs_of(k) for k in everything))
        self.assertEqual(self.parts_there(), [])
        self.order("scontrol", "requeue", f"{job}_2")
        self.order("scancel", f"{job}_3")
        for number in self.runs_of(4):
            os.kill(number, signal.SIGKILL)
        self.wait_until("the second job is requeued", lambda: self.states(job)[2] == "PENDING")
        time.sleep(2)  # a node refuses a job that starts again in the second in which it was ended: "Job credential revoked"
        self.order("scontrol", "update", f"JobId={job}_2", "StartTime=now")  # else in two minutes
        self.wait_until("the second job judges again", lambda: len(self.runs_of(2)) == 2)
        self.let_go()
        self.wait_for_end(job)
        wanted = {k: "COMPLETED" for k in everything} | {3: "CANCELLED", 4: "FAILED"}
        self.assertEqual(self.states(job), wanted)
        self.assert_lacking([3, 4])
        again = self.submit("3,4")
        self.wait_for_end(again)
        self.assertEqual(self.states(again), {3: "COMPLETED", 4: "COMPLETED"})
        self.assert_joined(self.run_line(self.join))


# ------------------------------------------------------------- GNU parallel


class Parallel(Scheduled):
    recipe_number = 1

    def setUp(self):
        program = path_of("parallel")
        said = program and subprocess.run([program, "--version"], capture_output=True, text=True, stdin=subprocess.DEVNULL).stdout
        if not said or "GNU parallel" not in said:
            self.skipTest("GNU parallel is not installed")
        super().setUp()
        self.environment["PARALLEL_HOME"] = str(self.folder / "home")

    def kill_the_first(self, line):
        """Runs a line, and kills the job that judges the first part while it does. Answers parallel's status, the number of jobs that
        failed."""
        process = self.start(["sh", "-c", "exec " + line], stdout=subprocess.DEVNULL, stderr=subprocess.DEVNULL)
        self.wait_until("the first part is judged", lambda: self.runs_of(1))
        for number in self.runs_of(1):
            os.kill(number, signal.SIGKILL)
        self.let_go()
        return process.wait(MOST_SECONDS)

    def test_the_lines_of_the_documentation(self):
        self.check_recipe()

    def test_a_job_that_is_killed(self):
        self.waiting_programs()
        (self.folder / "parts").mkdir()
        self.assertEqual(self.kill_the_first(self.array), 1)
        self.assert_lacking([1])
        again = re.sub(r" ::: .*", " ::: 1", self.array)
        self.assertNotEqual(again, self.array)
        self.assertEqual(self.run_line(again).status, 0)
        self.assert_joined(self.run_line(self.join))

    def test_a_job_that_is_killed_and_tried_again(self):
        self.waiting_programs()
        (self.folder / "parts").mkdir()
        self.assertEqual(self.kill_the_first(self.array.replace("parallel ", "parallel --retries 3 ", 1)), 0)
        self.assertEqual(len(self.runs_of(1)), 2)
        self.assert_joined(self.run_line(self.join))


if __name__ == "__main__":  # see Scheduled.watch
    sys.stdin.read()
    sys.exit(0 if end_processes_of(sys.argv[1]) else 1)
