"""What the benchmarks share: where the program is, how long a command takes, and how much memory it takes at most."""
import shutil
import subprocess
import sys
import tempfile
import time
from pathlib import Path

TOP = Path(__file__).resolve().parent.parent


def program_path(arguments):
    """The program that the first word names, else the one that the repository builds."""
    return str(Path(arguments[0] if arguments else TOP / "crates/joinplan/out/joinplan").resolve())


def built(name, needs, files):
    """A program of the crate's name over the libraries that it needs, proved and built in a copy of the repository; its files
    are texts by their paths in the crate."""
    copy = Path(tempfile.mkdtemp(prefix=f"{name}-")) / "copy"
    shutil.copytree(TOP, copy, ignore=shutil.ignore_patterns("out", ".git", "__pycache__"))
    (copy / ".git").mkdir()
    crate = copy / "crates" / name
    for path, text in files.items():
        (crate / path).parent.mkdir(parents=True, exist_ok=True)
        (crate / path).write_text(text, encoding="utf-8")
    with open(copy / "crates.txt", "a", encoding="utf-8") as lines:
        lines.write(f"{name}: {needs}\n")
    done = subprocess.run(["rt", "run"], cwd=crate, capture_output=True, check=False)
    program = crate / "out" / name
    if not program.exists():
        sys.exit(done.stdout.decode()[-2000:])
    print(f"program: {program}")
    return program


def timed(command, folder, given=None):
    """The seconds of a run, and what it prints."""
    start = time.monotonic()
    with subprocess.Popen(command, cwd=folder, stdin=subprocess.PIPE, stdout=subprocess.PIPE) as running:
        out, _ = running.communicate(given)
    seconds = time.monotonic() - start
    if running.returncode != 0:
        sys.exit(f"{command[0]} ended with {running.returncode}")
    return seconds, out


def least(command, folder, given=None):
    """The seconds of the fastest of three runs."""
    return min(timed(command, folder, given)[0] for _ in range(3))


def peak_memory(command, folder):
    """The peak of one child, in MiB: a child of its own process, so that no other run counts."""
    code = (
        "import resource, subprocess, sys\n"
        "subprocess.run(sys.argv[1:], stdout=subprocess.DEVNULL, check=True)\n"
        "print(resource.getrusage(resource.RUSAGE_CHILDREN).ru_maxrss)\n"
    )
    done = subprocess.run([sys.executable, "-c", code, *command], cwd=folder, capture_output=True, check=True)
    return int(done.stdout) / 1024
