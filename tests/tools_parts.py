"""Runs the recipes of docs/parts.md, as they stand there, on the tools that they are for.

In each a part is killed at its first try, and another one hands over a forged file at its first try: records of the right queries with an answer
that no log backs. The gvis on PATH is a script that does so and else calls the program. The report has to be that of a scan at the end.
"""
import os
import re
import shutil
import socket
import subprocess
import time

from common import TOP, Untested, bytes_of, content, entry, needs, put, put_files, run

PARTS, KILLED, FORGED = 4, 2, 3
WRAPPER = """#!/bin/sh
# Ends the part {killed} by a signal and forges the file of part {forged}, once each.
if [ "$1" = scan ]; then
    case "$*" in
    *"--part {killed}/{parts}") mkdir "{folder}/killed" 2>/dev/null && kill -9 $$ ;;
    *"--part {forged}/{parts}") if mkdir "{folder}/forged" 2>/dev/null; then cp "{folder}/forgery" "$4"; exit 0; fi ;;
    esac
fi
echo "$*" >>"{folder}/calls"
exec "{binary}" "$@"
"""


def repository():
    """Four packages, no two of whose queries have the same gates, so that each part is wanted."""
    files = {"profiles/profiles.desc": "amd64 base stable\n", "profiles/categories": "app\n", "profiles/base/eapi": "8\n"}
    for n in range(1, 5):
        flags = [f"f{k}" for k in range(n)]
        files[f"app/p{n}/p{n}-1.ebuild"] = ""
        files[f"metadata/md5-cache/app/p{n}-1"] = entry(IUSE=" ".join(flags), REQUIRED_USE=f"|| ( {' '.join(flags)} )", RDEPEND=" ".join(f"{f}? ( x/none )" for f in flags))
    return files


def blocks(kind):
    return re.findall(rf"^```{kind}\n(.*?)^```", content(TOP, "docs/parts.md"), re.M | re.S)


class Setting:
    """A repository, the script that stands for gvis, and what a scan says."""

    def __init__(self, binary, folder):
        self.folder, self.root, self.kept = folder, os.path.join(folder, "repo"), os.path.join(folder, "kept")
        put_files(self.root, repository())
        self.report = run([binary, "scan", self.root, "--certs", os.path.join(folder, "whole")])
        # The queries of the part that is forged, each with an empty answer.
        import backing
        run([binary, "scan", self.root, "--certs", os.path.join(folder, "own"), "--part", f"{FORGED}/{PARTS}"])
        put(folder, "forgery", backing.file_of([(query, b"\0") for query, _ in backing.records(bytes_of(folder, "own"))]))
        put(folder, "bin/gvis", WRAPPER.format(folder=folder, binary=binary, parts=PARTS, killed=KILLED, forged=FORGED), 0o755)
        # (a login has HOME and SHELL, here and on a host, and a job of an automatic run may have neither)
        env = {"PATH": os.path.join(folder, "bin") + ":" + os.environ["PATH"], "LC_ALL": "C", "HOME": folder, "SHELL": "/bin/sh"}
        self.how = {"env": {**os.environ, **env}, "cwd": folder}

    def script(self, number):
        return put(self.folder, f"script{number}", blocks("sh")[number], 0o755)

    def scanned(self):
        """How often each part was scanned by the program."""
        lines = [line for line in content(self.folder, "calls").splitlines() if line.startswith("scan")]
        return sorted(line.split("--part ")[1] for line in lines)


def each(*more):
    return sorted([f"{part}/{PARTS}" for part in range(1, PARTS + 1)] + [f"{part}/{PARTS}" for part in more])


LACKS = re.compile(rf"gvis: part {FORGED}/{PARTS} lacks query (\d+)\n")


@needs("parallel")
def gnu_parallel(binary, folder):
    """The killed part fails the first call, and the second makes it alone; the merge then names the forged one."""
    it = Setting(binary, folder)
    call = [it.script(0), it.root, it.kept, str(PARTS)]
    first, second = run(call, **it.how), run(call, **it.how)
    lacking = bool(LACKS.search(second[2]))
    run(["sed", "-i", rf"/--part {FORGED}\/{PARTS}$/d", os.path.join(it.kept, "jobs")])
    third = run(call, **it.how)
    return (first[:2], second[:2], lacking, third[:2], it.scanned()), ((1, ""), (10, ""), True, it.report[:2], each())


@needs("parallel")
def gnu_parallel_over_hosts(binary, folder):
    """Hosts are this machine, reached by a script that stands for ssh."""
    it = Setting(binary, folder)
    for name in ("killed", "forged"):
        os.mkdir(os.path.join(folder, name))
    put(folder, "ssh", "#!/bin/sh\nwhile [ \"$1\" != -- ] && [ $# -gt 1 ]; do shift; done; shift\nexec sh -c \"$*\"\n", 0o755)
    line = re.search(r"^    (seq 8 \| parallel -S .*)$", content(TOP, "docs/parts.md"), re.M)[1]
    line = line.replace("/tmp/", folder + "/there-").replace("one,two", "2/one,2/two").replace("ROOT", it.root).replace("KEPT", it.kept)
    line = line.replace("seq 8", f"seq {PARTS}").replace("/8 ", f"/{PARTS} ")
    os.makedirs(it.kept)
    it.how["env"]["PARALLEL_SSH"] = os.path.join(folder, "ssh")
    done = run(["sh", "-c", line], **it.how)
    files = ",".join(os.path.join(it.kept, f"part{part}") for part in range(1, PARTS + 1))
    merged = run([binary, "merge", it.root, "--certs", os.path.join(folder, "M"), "--from", files, "--of", str(PARTS)])
    return (done[0], done[2], merged), (0, "", it.report)


@needs("make")
def a_file_a_part(binary, folder):
    """Two calls of make, one after a killed part, and one after the forged part was removed; each part is scanned once."""
    it = Setting(binary, folder)
    put(folder, "parts.mk", blocks("make")[0])
    call = ["make", "-s", "-f", "parts.mk", "-j", "2", f"ROOT={it.root}", f"KEPT={it.kept}", f"PARTS={PARTS}"]
    first, second = run([*call, "-k"], **it.how), run(call, **it.how)
    lacking = bool(LACKS.search(second[2]))
    is_there = os.path.exists(os.path.join(it.kept, "report"))
    os.remove(os.path.join(it.kept, f"part{FORGED}"))
    third, fourth = run(call, **it.how), run(call, **it.how)
    report = content(it.kept, "report")
    clean = run([*call, "clean"], **it.how)[0], sorted(os.listdir(it.kept))
    return (first[0] != 0, second[0] != 0, lacking, is_there, third[0], fourth, report, it.scanned(), clean), (
        True, True, True, False, 0, (0, "", ""), it.report[1], each(), (0, ["certificates", "report.new"][:1]))


SLURM = """ClusterName=one
SlurmctldHost={host}(127.0.0.1)
AuthType=auth/none
CredType=cred/none
SlurmUser={user}
SlurmdUser={user}
SlurmctldPort={ports[0]}
SlurmdPort={ports[1]}
StateSaveLocation={folder}/state
SlurmdSpoolDir={folder}/spool
SlurmctldPidFile={folder}/controller.pid
SlurmdPidFile={folder}/node.pid
SlurmctldLogFile={folder}/controller.log
SlurmdLogFile={folder}/node.log
ProctrackType=proctrack/pgid
TaskPlugin=task/none
SwitchType=switch/none
MpiDefault=none
JobAcctGatherType=jobacct_gather/none
ReturnToService=2
NodeName={host} NodeAddr=127.0.0.1 CPUs=2 State=UNKNOWN
PartitionName=all Nodes=ALL Default=YES MaxTime=INFINITE State=UP
"""


def free_ports(count):
    sockets = [socket.socket() for _ in range(count)]
    for one in sockets:
        one.bind(("127.0.0.1", 0))
    ports = [one.getsockname()[1] for one in sockets]
    for one in sockets:
        one.close()
    return ports


class Cluster:
    """One node on this machine, with a controller of its own; both end with the case."""

    def __init__(self, folder):
        import getpass
        for name in ("state", "spool"):
            os.makedirs(os.path.join(folder, name))
        self.config = put(folder, "slurm.conf", SLURM.format(folder=folder, host=socket.gethostname().split(".")[0], user=getpass.getuser(), ports=free_ports(2)))
        self.folder, self.begun = folder, []

    def __enter__(self):
        for name in ("slurmctld", "slurmd"):
            self.begun.append(subprocess.Popen([shutil.which(name) or f"/usr/sbin/{name}", "-D", "-f", self.config], stdin=subprocess.DEVNULL, stdout=subprocess.DEVNULL, stderr=subprocess.DEVNULL))
            time.sleep(1)
        env = dict(os.environ, SLURM_CONF=self.config)
        for _ in range(30):
            if "idle" in subprocess.run(["sinfo", "-h", "-o", "%t"], env=env, capture_output=True, text=True, timeout=20).stdout:
                return self
            time.sleep(1)
        self.__exit__()
        raise Untested("a node of Slurm doesn't start here")

    def __exit__(self, *_):
        for process in reversed(self.begun):
            process.terminate()
        for process in self.begun:
            process.wait(timeout=30)


@needs("sbatch", "/usr/sbin/slurmctld", "/usr/sbin/slurmd")
def slurm_array(binary, folder):
    """The first run names the forged part, whose queries come first, the second the one that was killed, the third prints the report."""
    it = Setting(binary, folder)
    with Cluster(os.path.join(folder, "cluster")) as cluster:
        it.how["env"]["SLURM_CONF"] = cluster.config
        call = [it.script(1), it.root, it.kept, str(PARTS)]
        got = []
        for tasks in ([], [str(FORGED)], [str(KILLED)]):
            status = run([*call, *tasks], timeout=240, **it.how)[0]
            got.append((status, re.sub("query .*", "query", content(it.kept, "why")), content(it.kept, "report")))
    return (got, it.scanned()), (
        [(10, f"gvis: part {part}/{PARTS} lacks query\n", "") for part in (FORGED, KILLED)] + [(it.report[0], "", it.report[1])], each())


CASES = [gnu_parallel, gnu_parallel_over_hosts, a_file_a_part, slurm_array]
