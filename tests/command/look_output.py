"""What the command reads from and writes to: pipes, standard input, a full disk, a terminal."""
import os
import pty
import subprocess

from look_check import SAMPLE


def look_closed_pipe(tell, folder):
    """Who reads has seen enough: no message, no crash, and not status 0, since not all was said. Each output here is longer than a pipe holds."""
    many = f"{folder}/many.boundary"
    for words in (("list", many), ("draw", f"{folder}/grid_ny8bna_dm.boundary"), ("check", *[SAMPLE] * 9000)):
        with subprocess.Popen([tell.command, *words], stdout=subprocess.PIPE, stderr=subprocess.PIPE, env=tell.surroundings) as running:
            first = running.stdout.readline()
            running.stdout.close()
            aside = running.stderr.read()
        tell.same((running.returncode, bool(first), aside), (2, True, b""), f"{words[:2]} into a closed pipe")
    shell = f"'{tell.command}' list '{many}' | head -1"
    done = subprocess.run(["sh", "-c", shell], capture_output=True, env=tell.surroundings, check=False)
    tell.same((done.returncode, done.stdout.split()[:1], done.stderr), (0, [b"place"], b""), "head -1")


def look_output_that_cannot_be_written(tell, folder):
    for words in (("check", SAMPLE), ("list", SAMPLE), ("show", SAMPLE, 0), ("draw", f"{folder}/grid_ny8bna_dm.boundary"), ("stats", SAMPLE), ("--help",), ("--version",)):
        with open("/dev/full", "wb") as full:
            status, _, aside = tell.run(*words, out=full)
        tell.same((status, aside.startswith("boundary: the output could not be written in full"), aside.count("\n")), (2, True, 1), f"{words[0]} to a full disk")
    done = subprocess.run(["sh", "-c", f"'{tell.command}' check {SAMPLE} >&-"], capture_output=True, env=tell.surroundings, check=False)
    tell.same((done.returncode, b"could not be written" in done.stderr), (2, True), "standard output closed")


def look_standard_input(tell, folder):
    """- and a pipe are read as the file would be; only the name differs."""
    for path in (SAMPLE, f"{folder}/grid_ny8bna_dm.boundary"):
        with open(path, "rb") as f:
            data = f.read()
        for name, *more in (("list",), ("list", "--spot", "0", "0"), ("show", "0"), ("show", "0", "--wkt"), ("stats",)):
            wanted = tell.good(name, path, *more)
            tell.same(tell.good(name, "-", *more, given=data), wanted, f"{name} of standard input")
            tell.same(tell.good(name, "/dev/stdin", *more, given=data), wanted, f"{name} of a pipe")
        tell.check(tell.good("check", "-", given=data).startswith("standard input: sound, "), "check of standard input")
        tell.check("<title>standard input: hits " in tell.good("draw", "-", given=data), "draw of standard input")
    status, said, _ = tell.run("check", SAMPLE, "-", given=b"\2")
    tell.same((status, "standard input: refused (4), after 0 pages: " in said, len(said.splitlines())), (1, True, 2), "a file and standard input")


def seen_on_a_terminal(tell, files):
    """What a terminal at standard error is shown while files are checked."""
    ours, theirs = pty.openpty()
    with open(os.devnull, "wb") as nowhere:
        subprocess.run([tell.command, "check", *files], stdout=nowhere, stderr=theirs, env=tell.surroundings, check=False)
    os.close(theirs)
    seen = b""
    try:
        while part := os.read(ours, 65536):
            seen += part
    except OSError:
        pass
    os.close(ours)
    return seen


def look_progress(tell, _):
    """Only on a terminal, only for many files, and taken away at the end."""
    seen = seen_on_a_terminal(tell, [SAMPLE] * 20)
    tell.check(b"checking 20 of 20: crates/sample/stdout" in seen and seen.endswith(b"\r\x1b[K"), f"20 files on a terminal: {seen[-80:]}")
    tell.same(seen_on_a_terminal(tell, [SAMPLE] * 3), b"", "3 files on a terminal")
    tell.same(tell.run("check", *[SAMPLE] * 20)[2], "", "20 files with no terminal")
