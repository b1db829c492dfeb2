"""Follows docs/CLIENTS.md: `clients.py CLIENT FOLDER` runs the blocks in which this client is called, in a copy of examples/ in the folder.

What the page shows below a command must be what comes, where the client's version is the page's; with another version the session must
still end well. The server is $ICE2, or bin/ice2, at a port that is free. How far the target runs between a client's GO and its SIGN_OFF is
not determined, so the server's line of totals is compared in form alone. Prints nothing where all is well.
"""
import os
import pathlib
import re
import shutil
import socket
import subprocess
import sys
import time

ROOT = pathlib.Path(__file__).resolve().parent.parent
PAGE = (ROOT / "docs" / "CLIENTS.md").read_text()
PORT = "4242"  # of the page
SECONDS = 60
# On a machine with other work avrdude may ask again, and says so.
AGAIN = "avrdude warning: timeout/error communicating with programmer (status -1)\n"
TOTALS = r"cycles \d+ steps \d+ writes \d+ dropped 0\n"
VERSIONS = {"avrdude": ["avrdude", "-?"], "avarice": ["avarice", "-V"]}


class Fault(Exception):
    """What is not as the page says."""


def free_port():
    with socket.socket() as some:
        some.bind(("127.0.0.1", 0))
        return str(some.getsockname()[1])


def until(holds, what):
    """Waits until something holds."""
    end = time.monotonic() + SECONDS
    while not holds():
        if time.monotonic() > end:
            raise Fault(f"{what}: not within {SECONDS} seconds")
        time.sleep(0.02)


def is_page_version(client):
    """Whether the version of the client that is installed is the one that the page names."""
    said = subprocess.run(VERSIONS[client], capture_output=True, text=True, check=False)
    version = re.search(r"[Vv]ersion ([^\s,]+)", said.stdout + said.stderr)
    return version is not None and f"{client} {version[1]}" in PAGE


def sessions(client):
    """The blocks with the client: each is its commands, with what stands below them."""
    for block in re.findall(r"^```console\n(.*?)^```$", PAGE, re.M | re.S):
        commands = [tuple(part.split("\n", 1)) for part in re.split(r"^\$ ", block, flags=re.M)[1:]]
        if any(command.startswith(client) for command, _ in commands):
            yield commands


class Session:
    """One block: a server, at times a terminal that leads to it, and the client."""

    def __init__(self, folder):
        self.folder = folder
        self.port = free_port()
        self.behind = []
        self.server = None
        self.status = None

    def listens(self):
        if self.server.poll() is not None:
            raise Fault(f"the server ended with {self.server.returncode}: {self.server.communicate()[0]}")
        rows = [row.split() for row in pathlib.Path("/proc/net/tcp").read_text().splitlines()[1:]]
        return any(row[3] == "0A" and row[1].endswith(f":{int(self.port):04X}") for row in rows)

    def start(self, words):
        """Starts what a command that ends in `&` starts, and waits until it is ready."""
        process = subprocess.Popen(words, cwd=self.folder, stdin=subprocess.DEVNULL, stdout=subprocess.PIPE, stderr=subprocess.STDOUT, text=True)
        self.behind.append(process)
        if words[0] == "socat":
            until((self.folder / "tty").exists, "a terminal")
        else:
            self.server = process
            until(self.listens, "the server listens")

    def run(self, command):
        """What a command prints."""
        words = [self.port if word == PORT else word for word in command.replace(f":{PORT}", f":{self.port}").split()]
        if words == ["echo", "$?"]:
            return f"{self.status}\n"
        if words == ["wait"]:
            return self.server.communicate(timeout=SECONDS)[0]
        if words[0] == "kill":
            self.behind[int(words[1].lstrip("%")) - 1].terminate()
            return ""
        if words[0] == "ice2":
            words[0] = os.path.abspath(os.environ.get("ICE2") or ROOT / "bin" / "ice2")
        if words[-1] == "&":
            self.start(words[:-1])
            return ""
        ran = subprocess.run(
            " ".join(words), shell=True, cwd=self.folder, stdin=subprocess.DEVNULL, stdout=subprocess.PIPE, stderr=subprocess.STDOUT,
            text=True, timeout=SECONDS, check=False)  # fmt: skip
        self.status = ran.returncode
        return ran.stdout

    def end(self):
        for process in self.behind:
            if process.poll() is None:
                process.kill()
            process.communicate()


def is_shown(command, printed, shown, exact):
    """Whether what a command printed is what the page shows."""
    if command == "wait":
        return re.fullmatch(TOTALS, printed) and re.fullmatch(TOTALS, shown)
    return printed.replace(AGAIN, "").strip("\n") == shown.strip("\n") or not exact


def follow(commands, folder, exact):
    session = Session(folder)
    try:
        for command, shown in commands:
            printed = session.run(command)
            if not is_shown(command, printed, shown, exact):
                raise Fault(f"{command}: {printed!r} for {shown!r}")
        if session.server.wait(SECONDS) != 0:
            raise Fault(f"{commands[0][0]}: ended with {session.server.returncode}")
    finally:
        session.end()


def main():
    client, folder = sys.argv[1], pathlib.Path(sys.argv[2])
    exact = is_page_version(client)
    try:
        blocks = list(sessions(client))
        if not blocks:
            raise Fault("no session")
        for number, commands in enumerate(blocks):
            copy = folder / f"{client}.{number}"
            shutil.copytree(ROOT / "examples", copy)
            follow(commands, copy, exact)
    except (Fault, OSError, subprocess.TimeoutExpired) as fault:
        print(fault, file=sys.stderr)
        return 1
    return 0


if __name__ == "__main__":
    sys.exit(main())
