"""Processes that a test starts and ends."""
import os
import signal
import subprocess
import time


def call(words, **more):
    return subprocess.run([str(word) for word in words], capture_output=True, text=True, errors='replace',
                          check=False, stdin=subprocess.DEVNULL, **more)


def is_alive(pid, word):
    """Whether a process of this number has the word in its command line, which a zombie has not."""
    try:
        with open(f'/proc/{pid}/cmdline', 'rb') as file:
            return word.encode() in file.read()
    except OSError:
        return False


def number_in(path):
    """The number in a file of a process, if there is one."""
    try:
        return int(path.read_text())
    except (OSError, ValueError):
        return None


def end(pid, word):
    """Ends a process, by force if it does not end soon."""
    if pid is None or not is_alive(pid, word):
        return
    os.kill(pid, signal.SIGTERM)
    for _ in range(100):
        if not is_alive(pid, word):
            return
        time.sleep(0.05)
    os.kill(pid, signal.SIGKILL)


def wait_until(holds, seconds):
    """Whether it holds within so many seconds."""
    ends = time.monotonic() + seconds
    while time.monotonic() < ends:
        if holds():
            return True
        time.sleep(0.2)
    return False
