"""Runs of `check` on certificates of almost orthogonal systems, of `prove`, and of `selftest`, timed."""
import os
import subprocess
import tempfile

HOME = os.path.dirname(os.path.dirname(os.path.abspath(__file__)))
PROGRAM = os.path.join(HOME, "crates", "concon", "out", "concon")


def measured(what, words, texts):
    """Runs the program where the texts lie, prints the first line of its answer, seconds, and peak memory, and returns the seconds."""
    with tempfile.TemporaryDirectory() as folder:
        for name, text in texts.items():
            with open(os.path.join(folder, name), "w") as out:
                out.write(text)
        told = subprocess.run(["/usr/bin/time", "-f", "%e %M", PROGRAM, *words], cwd=folder, capture_output=True, text=True)
        seconds, memory = told.stderr.split()[-2:]
        answer = told.stdout.partition("\n")[0]
        print("%s: %s, %s s, %d MB" % (what, answer, seconds, int(memory) // 1024), flush=True)
        return float(seconds)


def run(what, rules, words, texts):
    """The same with a system among the texts."""
    return measured(what, words, {"x.trs": "(CONDITIONTYPE ORIENTED)\n(VAR x y)\n(RULES\n%s\n)\n" % "\n".join(rules), **texts})


def timed(what, rules, entries):
    """Checks a certificate of an almost orthogonal system."""
    run(what, rules, ["check", "x.trs", "c.crt"], {"c.crt": "\n".join(["concon 1", "ortho", *entries, "end", ""])})


def searched(what, rules, budget):
    """Searches for a certificate."""
    return run(what, rules, ["prove", "x.trs", "--budget", str(budget)], {})
