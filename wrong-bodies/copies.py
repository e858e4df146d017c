"""Copies of crates, in which rt checks wrong bodies."""

import contextlib
import fcntl
import os
import re
import shutil
import subprocess

# The memory of a run of rt with one job, in kilobytes: `of_run` and `of_job` of tools/build.
OF_RUN = 2_500_000


def at_once():
    """Returns how many crates are tried side by side, by cores and free memory."""
    with open("/proc/meminfo", encoding="utf-8") as it:
        free = int(re.search(r"MemAvailable: +(\d+)", it.read())[1])
    return max(1, min(len(os.sched_getaffinity(0)), free // OF_RUN))


@contextlib.contextmanager
def unchanged(crate):
    """Keeps runs of rt out of the crate's folder. Each run locks the folders of its crate and below."""
    folder = os.open(crate, os.O_RDONLY)
    try:
        fcntl.flock(folder, fcntl.LOCK_SH)
        yield
    finally:
        os.close(folder)


def link_or_copy(one, other):
    """Links proofs, which rt replaces and never changes in place. Copies other files."""
    try:
        if one.endswith(".oantt") or "/out/rlib/" in one:
            return os.link(one, other)
    except OSError:
        pass
    return shutil.copy2(one, other)


def copied(root, crate, to):
    """Copies what a check of a crate reads, and the crate's earlier proofs."""
    os.makedirs(f"{to}/crates")
    for name in ("crates.txt", "HANDLES"):
        shutil.copy2(f"{root}/{name}", to)
    for name in os.listdir(f"{root}/crates"):
        parts = ["src", "specs", "proofs", "out/rlib"] + ["out/incremental"] * (name == crate)
        own = f"{root}/crates/{name}"
        with unchanged(own):
            for part in parts:
                if os.path.isdir(f"{own}/{part}"):
                    shutil.copytree(f"{own}/{part}", f"{to}/crates/{name}/{part}", symlinks=True,
                                    copy_function=link_or_copy)


def check(folder, texts, *options):
    """Checks a copied crate with texts in place of its own, and puts those back. Returns rt's output."""
    own = {}
    for file, text in texts.items():
        with open(f"{folder}/{file}", encoding="utf-8") as it:
            own[file] = it.read()
        write(f"{folder}/{file}", text)
    said = run(["rt", "check", "--jobs", "1", *options], folder)
    for file, text in own.items():
        write(f"{folder}/{file}", text)
    return said


def run(words, folder):
    """Returns what a command prints in a folder, and the signal that ended it, if one did."""
    ran = subprocess.run(words, cwd=folder, stdin=subprocess.DEVNULL, stdout=subprocess.PIPE,
                         stderr=subprocess.STDOUT, text=True, errors="replace")
    return ran.stdout + (f"\nended by signal {-ran.returncode}" if ran.returncode < 0 else "")


def write(path, text):
    with open(path, "w", encoding="utf-8") as it:
        it.write(text)
