"""`python3 -m compare.programs`: the reference's programs as a user meets them: document 01's pick example and its refusals, and the bad
scripts that the oracle is tried with, too."""
import io
import subprocess
import sys

from compare.bad_scripts import TOP, Ended, bad_scripts, program, tried
from compare.pick_programs import PICKS
from reference.run import run as run_script


def run(module, data):
    return subprocess.run([sys.executable, "-m", module], input=data, capture_output=True, cwd=TOP)


def wrong_picks():
    for name, (data, due) in PICKS.items():
        out = run("reference.pick", data)
        if (out.returncode, out.stdout.decode()) != (0, due):
            yield f"pick, {name}: {out.stdout.decode()!r}"


def reference_ended(script):
    """How the reference ends on a script, without a process of its own."""
    out, err = io.StringIO(), io.StringIO()
    return Ended(run_script(script, out, err), out.getvalue(), err.getvalue())


def wrong_scripts(scripts):
    """Every one without a process of its own, some as a user runs them."""
    yield from tried(reference_ended, scripts)
    yield from tried(program([sys.executable, "-m", "reference.run"]), scripts[::20])


def main():
    scripts = list(bad_scripts())
    wrong = list(wrong_picks()) + list(wrong_scripts(scripts))
    for line in wrong:
        print(f"programs: {line}", file=sys.stderr)
    if not wrong:
        print(f"{len(PICKS)} picks and {len(scripts)} bad scripts as they should be")
    return 1 if wrong else 0


if __name__ == "__main__":
    sys.exit(main())
