"""What the scripts of this folder share: running a program on a file, and the lines that they print."""
import os
import subprocess
import sys
import tempfile
import time

TOP = os.path.dirname(os.path.dirname(os.path.abspath(__file__)))


def program(name):
    """The built program of a crate; it is built by the gate or by bin/webdriverd."""
    path = os.path.join(TOP, "crates", name, "out", name)
    if not os.path.exists(path):
        sys.exit(f"{path} isn't built: run bin/webdriverd once, or rt ci")
    return path


def native(folder):
    """A yardstick of bench/native, built by rustc into a temporary folder."""
    source = os.path.join(TOP, "bench", "native", folder + ".rs")
    built = os.path.join(tempfile.mkdtemp(), folder)
    subprocess.run(["rustc", "-O", "-o", built, source], check=True)
    return built


def run(words, given, times=3):
    """The least wall time of some runs in seconds. Standard output goes through a pipe, which is read on."""
    best = None
    for _ in range(times):
        with open(given, "rb") as source:
            started = time.perf_counter()
            child = subprocess.Popen(words, stdin=source, stdout=subprocess.PIPE)
            while child.stdout.read(1 << 16):
                pass
            status = child.wait()
            spent = time.perf_counter() - started
        if status != 0:
            sys.exit(f"{words} ended with status {status}")
        best = spent if best is None else min(best, spent)
    return best


def peak(words, given):
    """The peak memory of a run in KiB, as the kernel last showed it before the end."""
    most = 0
    with open(given, "rb") as source, open(os.devnull, "wb") as sink:
        child = subprocess.Popen(words, stdin=source, stdout=sink)
        while child.poll() is None:
            try:
                with open(f"/proc/{child.pid}/status") as status:
                    lines = [line for line in status if line.startswith("VmHWM")]
                if lines:
                    most = int(lines[0].split()[1])
            except OSError:
                pass
            time.sleep(0.001)
    return most


def held(words, data):
    """The memory that a program holds in KiB once it has answered these bytes and waits for more."""
    child = subprocess.Popen(words, stdin=subprocess.PIPE, stdout=subprocess.DEVNULL)
    child.stdin.write(data)
    child.stdin.flush()
    time.sleep(0.5)
    with open(f"/proc/{child.pid}/status") as status:
        lines = [line for line in status if line.startswith("VmRSS")]
    child.stdin.close()
    child.wait()
    return int(lines[0].split()[1])


def file_of(data):
    """A temporary file with these bytes."""
    handle, path = tempfile.mkstemp()
    with os.fdopen(handle, "wb") as file:
        file.write(data)
    return path
