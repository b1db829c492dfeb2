"""Runs the examples of the manual pages, and compares what each prints with the page: standard output, and then standard error.

`manual.py FOLDER`: a folder for temporary files. The programs are $ICE2, or bin/ice2, and bin/ice2-suite. Prints nothing where all is well.
"""
import os
import pathlib
import re
import socket
import subprocess
import sys

ROOT = pathlib.Path(__file__).resolve().parent.parent


def examples(page):
    """The commands of a page, each with what stands below it."""
    for block in re.findall(r"^\.Bd -literal -offset indent\n(.*?)^\.Ed$", page.read_text(), re.M | re.S):
        for example in re.split(r"^\$ ", block, flags=re.M)[1:]:
            command, _, printed = example.partition("\n")
            yield command, printed


def reaches_itself():
    """Whether a socket of this machine can be reached."""
    try:
        with socket.create_server(("127.0.0.1", 0)) as some, socket.create_connection(some.getsockname()):
            return True
    except OSError:
        return False


def patient(command):
    """A command that waits for its server as long as it takes to listen, a minute at most, in place of a second."""
    port = re.search(r" serve (\d+) .*& sleep 1;", command)
    if port is None:
        return command
    heard = f"grep -q ':{int(port[1]):04X} 00000000:0000 0A' /proc/net/tcp"
    return command.replace("sleep 1;", f"for _ in $(seq 600); do {heard} && break; sleep 0.1; done;")


def programs(work):
    """The environment in which `ice2` and `ice2-suite` are the programs under test."""
    program = os.path.abspath(os.environ.get("ICE2") or ROOT / "bin" / "ice2")
    folder = pathlib.Path(work) / "programs"
    folder.mkdir()
    (folder / "ice2").symlink_to(program)
    (folder / "ice2-suite").symlink_to(ROOT / "bin" / "ice2-suite")
    return {**os.environ, "ICE2": program, "PATH": f"{folder}:{os.environ['PATH']}"}


def fault(command, printed, environment):
    """What a command prints that the page does not."""
    ran = subprocess.run(["sh", "-c", patient(command)], cwd=ROOT / "examples", env=environment, capture_output=True, text=True, check=False)
    return None if ran.stdout + ran.stderr == printed else f"{command}: {ran.stdout + ran.stderr!r} for {printed!r}"


def main():
    environment = programs(sys.argv[1])
    shown = [example for page in sorted((ROOT / "man").glob("*.1")) for example in examples(page)]
    if not reaches_itself():
        shown = [(command, printed) for command, printed in shown if " serve " not in command]
    faults = [told for told in (fault(*example, environment) for example in shown) if told]
    print("\n".join(faults or ["no examples"] * (not shown)), end="\n" if faults or not shown else "", file=sys.stderr)
    return 1 if faults or not shown else 0


if __name__ == "__main__":
    sys.exit(main())
