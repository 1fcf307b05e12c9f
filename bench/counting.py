"""How many instructions of the processor a program takes, and how much processor time."""
import os
import re
import resource
import subprocess

TOP = os.path.dirname(os.path.dirname(os.path.abspath(__file__)))
OPTIMIZED = ["-O", "-C", "lto=fat", "-C", "codegen-units=1", "--edition", "2021"]


def spent():
    """The processor time of all processes that ended so far."""
    usage = resource.getrusage(resource.RUSAGE_CHILDREN)
    return usage.ru_utime + usage.ru_stime


def seconds(words, out=subprocess.PIPE, status=0):
    """The processor time of a program that ends with that status, and what it wrote."""
    start = spent()
    run = subprocess.run(words, stdout=out, stderr=subprocess.DEVNULL)
    assert run.returncode == status, (words, run.returncode)
    return spent() - start, run.stdout


def counted(words, status=0, inside=None):
    """The instructions of a program that ends with that status, or of one of its functions and all that it calls."""
    tool = ["valgrind", "--tool=callgrind", "--callgrind-out-file=/dev/null"]
    if inside:
        tool.append("--toggle-collect=" + inside)
    run = subprocess.run([*tool, *words], stdout=subprocess.DEVNULL, stderr=subprocess.PIPE, text=True)
    assert run.returncode == status, (words, run.returncode)
    return int(re.search(r"Collected : (\d+)", run.stderr)[1])


def compiled_plain(folder):
    """The program of bench/plain.rs."""
    plain = os.path.join(folder, "plain")
    subprocess.run(["rustc", *OPTIMIZED, "-o", plain, os.path.join(TOP, "bench", "plain.rs")], check=True)
    return plain


def write(folder, name, text):
    """The path of a new file with that text, or with those bytes."""
    path = os.path.join(folder, name)
    with open(path, "wb") as file:
        file.write(text if isinstance(text, bytes) else text.encode())
    return path
