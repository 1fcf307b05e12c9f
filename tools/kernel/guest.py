"""Boots a kernel under qemu with guest.c as its only program, and reads what that wrote."""
import gzip
import os
import shutil
import subprocess
from pathlib import Path

HERE = Path(__file__).resolve().parent
SCXSIM = os.environ.get("SCXSIM") or HERE.parents[1] / "scxsim"
QEMU = "qemu-system-x86_64"
PACKAGES = {QEMU: "qemu-system-x86", "gcc": "gcc libc6-dev", "zstd": "zstd"}
# The guest's clock goes by instructions and its random numbers by a seed, so that nothing depends on how busy this
# machine is. Without cx16, as with it qemu 7.2 corrupts lists of the guest's memory.
MODEL = "max"
MACHINE = ["-accel", "tcg,thread=single", "-cpu", f"{MODEL},-cx16,-la57", "-icount", "shift=2,sleep=off", "-m", "512"]
MACHINE += ["-nodefaults", "-display", "none", "-no-reboot", "-serial", "stdio"]
# The guest programs this clock to 4096 interrupts a second. Without them qemu lets each CPU run up to the next timer of
# any, which may be many milliseconds.
MACHINE += ["-rtc", "base=2026-01-01,clock=vm"]
WORDS = "console=ttyS0 quiet panic=-1 mitigations=off rdinit=/init nokaslr tsc=reliable no_timer_check audit=0"
# Without these a kernel has work of its own to do beside the workload, and tests its ciphers meanwhile.
WORDS += " nowatchdog psi=0 deferred_probe_timeout=0 workqueue.power_efficient=1 cryptomgr.notests=1"


class Failed(Exception):
    pass


def look_for_tools():
    for tool, package in PACKAGES.items():
        if not shutil.which(tool):
            raise Failed(f"{tool} is missing; on Debian, apt-get install {package}")


def kernel_folder(version):
    """The folder with that kernel, fetched where it isn't there yet."""
    cache = Path(os.environ.get("XDG_CACHE_HOME") or Path.home() / ".cache")
    folder = Path(os.environ.get("KERNELS", cache / "scxsim-kernels")) / version
    done = subprocess.run([HERE / "fetch", version, folder], stdout=subprocess.PIPE, stderr=subprocess.PIPE, text=True)
    if done.returncode != 0:
        raise Failed(done.stderr.strip() or f"no kernel {version} could be fetched")
    return folder


def entry(number, name, mode, data=b"", major=0, minor=0):
    """A file of an archive that a kernel unpacks at its start."""
    text = name.encode() + b"\0"
    numbers = (number, mode, 0, 0, 1, 0, len(data), 0, 0, major, minor, len(text), 0)
    head = ("070701" + "".join(f"{one:08X}" for one in numbers)).encode() + text
    head += bytes(-len(head) % 4)
    return head + data + bytes(-len(data) % 4)


def archive(program, cases):
    folders = b"".join(entry(number, name, 0o40755) for number, name in enumerate(("dev", "proc", "sys"), 1))
    console = entry(5, "dev/console", 0o20600, b"", 5, 1)
    files = entry(6, "init", 0o100755, program) + entry(7, "cases", 0o100644, cases.encode())
    return gzip.compress(folders + console + files + entry(0, "TRAILER!!!", 0), 1)


def cpus_of(count):
    """The words for qemu that give the guest this number of CPUs, in one socket.

    As a CPU has run up to the next timer, qemu before 8.1 leaves no instruction for the CPU after it, time and again:
    seconds passed until that one ran. So a CPU of another socket, which Linux doesn't use, comes before each but the first.
    """
    words = ["-smp", f"cpus=1,maxcpus={2 * count},sockets=2,cores={count},threads=1"]
    for cpu in range(1, count):
        for socket in (1, 0):
            words += ["-device", f"{MODEL}-x86_64-cpu,socket-id={socket},core-id={cpu},thread-id=0"]
    return words


def boot(kernel, cases, cpus, work, seed=1):
    """The lines that the guest wrote. There is one CPU more, for its own program."""
    made = subprocess.run(["gcc", "-O2", "-static", "-o", work / "init", HERE / "guest.c"], stderr=subprocess.PIPE, text=True)
    if made.returncode != 0:
        raise Failed(f"gcc can't make the guest's program: {made.stderr.strip()}")
    (work / "archive").write_bytes(archive((work / "init").read_bytes(), cases))
    # Without cx16 a timer gets its memory only where the kernel looks after its lists.
    more = f" nr_cpus={cpus + 1}" + (" slab_debug=F" if "\ntimers " in cases else "")
    words = [QEMU, *MACHINE, *cpus_of(cpus + 1), "-seed", str(seed), "-kernel", kernel / "vmlinuz", "-initrd", work / "archive"]
    words += ["-append", WORDS + more, "-serial", f"file:{work / 'out'}"]
    try:
        console = subprocess.run(words, stdin=subprocess.DEVNULL, stdout=subprocess.PIPE, stderr=subprocess.STDOUT, timeout=1800)
    except subprocess.TimeoutExpired:
        raise Failed("the guest didn't end in half an hour")
    lines = (work / "out").read_text(errors="replace").splitlines() if (work / "out").exists() else []
    if lines[-1:] != ["end"]:
        raise Failed("the guest ended too early: " + console.stdout.decode(errors="replace").strip()[-400:])
    return lines


def results_of(lines):
    """Of each case what the guest wrote: tasks with what they ran in microseconds and their turns, and how the policy ended."""
    results, result, kernel = [], {}, ""
    for line in lines:
        word, _, rest = line.partition(" ")
        if word == "kernel":
            kernel = rest.strip()
        elif word == "case":
            result = {"tasks": {}, "verdicts": [], "log": [], "wrong": [], "state": "", "kind": 0, "at": 0, "kernel": kernel}
            results.append(result)
        elif word == "task":
            name, run, turns = rest.split()
            result["tasks"][name] = int(run), int(turns)
        elif word == "exit":
            result["kind"], result["at"] = (int(number) for number in rest.split())
        elif word == "log":
            result["log"].append(rest)
        elif word in ("error", "refused"):
            result["wrong"].append(line)
        elif word == "accepted":
            result["verdicts"].append(rest)
        elif word == "state":
            result["state"] = rest.strip()
    return results
