"""Checks bin/ice2-suite: `suite.py CHECK FOLDER`, with a folder for temporary files. Prints nothing where all is well.

It shares no code with ice2-suite. The program is $ICE2, or bin/ice2.
"""
import os
import pathlib
import shutil
import subprocess
import sys
import xml.etree.ElementTree as xml

ROOT = pathlib.Path(__file__).resolve().parent.parent
SUITE = ROOT / "bin" / "ice2-suite"
EXAMPLES = ROOT / "examples" / "suite"
NAMES = sorted(script.stem for script in EXAMPLES.glob("*.script"))
COPIES = 200


def run(work, *words):
    """A call of ice2-suite, in a folder."""
    return subprocess.run([SUITE, *words], cwd=work, capture_output=True, text=True, check=False)


def wants(seen, wanted, what):
    if seen != wanted:
        raise AssertionError(f"{what}: {seen!r} for {wanted!r}")


def copy(name, to, as_name=None):
    """The files of a case, by the same name or another."""
    to.mkdir(exist_ok=True)
    for ending in (".hex", ".script", ".transcript", ".words"):
        if (EXAMPLES / (name + ending)).is_file():
            shutil.copy(EXAMPLES / (name + ending), to / ((as_name or name) + ending))


def results(work):
    """Each case with whether it passed, by the TAP and by the JUnit XML of a call, which must agree."""
    ran = run(work, "--junit", "junit.xml", "--keep", "kept", "cases")
    plan, *lines = [line for line in ran.stdout.splitlines() if not line.startswith("#")]
    wants(plan, f"1..{len(lines)}", "the plan")
    told = {}
    for number, line in enumerate(lines, 1):
        result, name = line.split(f" {number} - cases/")
        told[name] = {"ok": True, "not ok": False}[result]
    suite = xml.parse(work / "junit.xml").getroot().find("testsuite")
    wants({case.get("name"): case.find("failure") is None for case in suite}, told, "JUnit against TAP")
    counts = (suite.get("tests"), suite.get("failures"))
    wants(counts, (str(len(told)), str(list(told.values()).count(False))), "the counts of JUnit")
    wants(ran.returncode, 0 if all(told.values()) else 1, "the status")
    return told, ran.stdout


def examples(work):
    """The examples pass, as TAP that `prove` takes."""
    ran = run(ROOT, "examples/suite")
    wants(ran.stdout, "".join([f"1..{len(NAMES)}\n", *(f"ok {n} - examples/suite/{name}\n" for n, name in enumerate(NAMES, 1))]), "TAP")
    wants((ran.returncode, ran.stderr), (0, ""), "the end")
    if shutil.which("prove"):
        proved = subprocess.run(["prove", SUITE, "::", EXAMPLES], cwd=work, capture_output=True, text=True, check=False)
        wants(proved.returncode, 0, proved.stdout + proved.stderr)


def failures(work):
    """Each way in which a case fails is told, and so are words that are wrong; an accepted case passes, and no other is touched."""
    cases = work / "cases"
    for name in NAMES:
        copy(name, cases)
    (cases / "bug.hex").write_text(":00\n")
    (cases / "ports.hex").unlink()
    (cases / "patch.words").write_text("0\n")
    (cases / "stack.script").write_text("wait\n")
    (cases / "table.transcript").write_bytes(b"ok\n\x01\xff")
    (cases / "timers.transcript").unlink()
    told, printed = results(work)
    wants(told, {name: name == "stack32" for name in NAMES}, "what passed")
    shown = ("3: image: record 1", "no ports.hex", "2: usage", "+! closed", "+0054 00070e09", "no timers.transcript", "kept: kept/")
    wants([text for text in shown if text not in printed], [], "what is not shown")
    run(work, "--accept", "cases/table", "--accept", "cases/stack", "cases")
    wants((cases / "table.transcript").read_bytes(), (EXAMPLES / "table.transcript").read_bytes(), "what is accepted")
    wants((cases / "stack.transcript").read_bytes(), (EXAMPLES / "stack.transcript").read_bytes(), "a case that ended badly")
    wants((cases / "timers.transcript").exists(), False, "a case that is not accepted")
    for words in ((), ("none",), ("--accept", "cases/none", "cases"), ("--none", "cases")):
        wants(run(work, *words).returncode, 2, f"the status of {words}")


def cut_off(work):
    """A case that wants a script with no event passes, and is accepted; one that wants it and ends well fails, and so does the reverse."""
    cases = work / "cases"
    for name, script, transcript in [
        ("closed", "sync\nwait\n", "ok\n! closed\n"),
        ("full", "step\n" * 66, "ok\n" * 65 + "! events full\n"),
        ("other", "wait\n", "ok\n! closed\n"),
        ("well", "sync\nquit\n", "ok\n! closed\n"),
        ("cut", "sync\nwait\n", "ok\nok\n"),
    ]:
        copy("ports", cases, name)
        (cases / f"{name}.script").write_text(script)
        (cases / f"{name}.transcript").write_text(transcript)
    told, printed = results(work)
    wants(told, {name: name in ("closed", "full") for name in sorted(told)}, "what passed")
    wants([text for text in ("ended with 0: ", "ended with 11: ", "-! closed", "+! closed") if text not in printed], [], "what is not shown")
    run(work, *(word for name in told for word in ("--accept", f"cases/{name}")), "cases")
    seen = {name: (cases / f"{name}.transcript").read_text() for name in ("other", "well", "cut")}
    wants(seen, {"other": "! closed\n", "well": "ok\n! closed\n", "cut": "ok\nok\n"}, "what is accepted")


def workers(work):
    """Many cases give the same bytes on one and on four workers. Nothing is wanted of them, so all that they print is kept and compared."""
    for number in range(COPIES):
        name = f"{number:03}"
        copy(NAMES[number % len(NAMES)], work / "cases", name)
        (work / "cases" / f"{name}.transcript").write_bytes(b"")
    seen = []
    for jobs in ("1", "4"):
        ran = run(work, "--jobs", jobs, "--junit", "junit.xml", "--keep", "kept", "cases")
        kept = {str(file): file.read_bytes() for file in sorted((work / "kept").rglob("*.*")) if file.is_file()}
        wants(len(kept), 2 * COPIES, "files kept")
        seen.append((ran.stdout, (work / "junit.xml").read_bytes(), kept))
        shutil.rmtree(work / "kept")
    if seen[0] != seen[1]:
        raise AssertionError("one and four workers differ")


def main():
    work = pathlib.Path(sys.argv[2])
    os.environ["ICE2"] = os.path.abspath(os.environ.get("ICE2") or ROOT / "bin" / "ice2")
    try:
        {"examples": examples, "failures": failures, "cut_off": cut_off, "workers": workers}[sys.argv[1]](work)
    except AssertionError as error:
        print(error, file=sys.stderr)
        return 1
    return 0


if __name__ == "__main__":
    sys.exit(main())
