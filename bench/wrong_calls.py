#!/usr/bin/env python3
"""Calls as they go wrong at a desk, and what `explain` says of each.

    wrong_calls.py --tool PROGRAM [--show]    in the folder of the repository

Each call is run as it stands, and with `explain` before its words. It must end with the status that stands here and write nothing, and what `explain`
writes must begin with the call's own line on the error stream and have each of the lines that stand here. A call that does not so is
printed with `WRONG`, and the exit status is 1. `--show` prints what `explain` writes of all.
"""

import argparse
import subprocess
import sys

MODEL = "examples/attitude_control.aadl"
NEWER = "examples/attitude_control_2.aadl"
REQUIREMENTS = "examples/attitude_control.requirements"
ROOT, TARGET = "Acs::Control.dual", "root/out:torque{errors::serviceomission}"
COMPARE = "usage aadl_fta compare ROOT TARGET FILE.. to FILE.. [--max-order N] [--profile 1|2]"
TREE = "usage aadl_fta tree ROOT TARGET FILE.. [--format galileo|mef|dot] [--gates written|merged] [--unrated 1|refuse] [--profile 1|2]"

# the words of a call, its exit status, and lines that must be among those of `explain`
CALLS = [
    (["cut", ROOT, TARGET, MODEL], 1, ["no command cut", "near cuts"]),
    (["Cuts", ROOT, TARGET, MODEL], 1, ["no command Cuts", "near cuts"]),
    (["reviews", ROOT, MODEL], 1, ["no command reviews", "near review"]),
    (["cutsets", ROOT, TARGET, MODEL], 1, ["no command cutsets"]),
    ([MODEL], 1, ["no command " + MODEL]),
    (["cuts", TARGET, ROOT, MODEL], 1, ["usage aadl_fta cuts ROOT TARGET FILE.. [--limit N] [--after TOKEN] [--max-order N] [--tokens] [--profile 1|2]"]),
    (["cuts", ROOT, MODEL], 1, ["usage aadl_fta cuts ROOT TARGET FILE.. [--limit N] [--after TOKEN] [--max-order N] [--tokens] [--profile 1|2]"]),
    (["check", MODEL], 1, ["usage aadl_fta check ROOT FILE.. [--profile 1|2]"]),
    (["cuts", ROOT, TARGET, MODEL, "--maxorder", "1"], 1, ["no option --maxorder", "near --max-order"]),
    (["cuts", ROOT, TARGET, MODEL, "--max-order"], 1, ["usage aadl_fta cuts ROOT TARGET FILE.. [--limit N] [--after TOKEN] [--max-order N] [--tokens] [--profile 1|2]"]),
    (["cuts", ROOT, TARGET, MODEL, "--limit=ten"], 1, ["usage aadl_fta cuts ROOT TARGET FILE.. [--limit N] [--after TOKEN] [--max-order N] [--tokens] [--profile 1|2]"]),
    (["cuts", "--limit", "1", ROOT, TARGET, MODEL], 1, ["usage aadl_fta cuts ROOT TARGET FILE.. [--limit N] [--after TOKEN] [--max-order N] [--tokens] [--profile 1|2]"]),
    (["tree", ROOT, TARGET, MODEL, "--limit", "1"], 1, ["no option --limit", TREE]),
    (["tree", ROOT, TARGET, MODEL, "--format", "svg"], 1, [TREE]),
    (["tree", ROOT, TARGET, MODEL, "--unrated", "refuse"], 2, ["aadl_fta: R1 UnratedEvent root.v/failure"]),
    (["fmea", ROOT, MODEL, "-all"], 1, ["usage aadl_fta fmea ROOT FILE.. [--all] [--profile 1|2]"]),
    (["why", ROOT, TARGET, MODEL], 1, ["usage aadl_fta why ROOT TARGET FILE.. --set TOKEN [--profile 1|2]"]),
    (["report", ROOT, TARGET, MODEL, "--report=orders"], 1, ["no option --report=orders", "near --reports"]),
    (["explain", "T99"], 0, []),
    (["check", "Asc::Control.dual", MODEL], 2, ["aadl_fta: N2 UnknownPackage", "ROOT Asc::Control.dual", "near acs::control.dual"]),
    (["check", "Acs::Contrl.dual", MODEL], 2, ["aadl_fta: N3 UnknownClassifier", "ROOT Acs::Contrl.dual", "near acs::control.dual"]),
    (["check", "Acs::Control.dula", MODEL], 2, ["aadl_fta: N3 UnknownClassifier", "near acs::control.dual"]),
    (["cuts", ROOT, "root/out:torqe{errors::serviceomission}", MODEL], 2, ["aadl_fta: T1 UnknownTarget", "near " + TARGET]),
    (["cuts", ROOT, "root/out:torque{errors::serviceomision}", MODEL], 2, ["near " + TARGET]),
    (["cuts", ROOT, "root/in:torque{errors::serviceomission}", MODEL], 2, ["near " + TARGET]),
    (["tree", ROOT, "root/out:torque", MODEL], 2, ["aadl_fta: T1 UnknownTarget", "TARGET root/out:torque"]),
    (["why", ROOT, TARGET, MODEL, "--set", "root.cpu/fail"], 2, ["aadl_fta: K1 BadToken", "near root.cpu/failure"]),
    (["why", ROOT, TARGET, MODEL, "--set", "root.g1/failure"], 2, ["aadl_fta: K3 NotCutSet", "TOKEN root.g1/failure"]),
    (["check", "p::s", "examples/wrong.aadl"], 2, ["aadl_fta: S1 Syntax examples/wrong.aadl:152", "examples/wrong.aadl:7:25"]),
    (["check", ROOT, MODEL, MODEL], 2, ["N1 DuplicateUnit"]),
    (["check", "Lib::Main.i", "examples/with_library.aadl"], 2, ["ROOT Lib::Main.i"]),
    (["galileo", MODEL], 2, ["G1 BadLine"]),
    (["confirm", ROOT, TARGET, MODEL, MODEL, "--set", "root.cpu/failure"], 2, ["V1 BadStepLine"]),
    (["require", ROOT, REQUIREMENTS], 1, ["usage aadl_fta require ROOT REQUIREMENTS FILE.. [--tap] [--profile 1|2]"]),
    (["require", ROOT, MODEL, MODEL], 2, ["Q1 BadRequirement"]),
    (["require", "Small::Sensor", REQUIREMENTS, "examples/small.aadl"], 2, ["Q6 EmptyGroup", REQUIREMENTS + ":3:13"]),
    (["require", "Acs::Contrl.dual", REQUIREMENTS, MODEL], 2, ["aadl_fta: N3 UnknownClassifier", "near acs::control.dual"]),
    (["compare", ROOT, TARGET, MODEL, NEWER], 1, [COMPARE]),
    (["compare", ROOT, TARGET, MODEL, "to"], 1, [COMPARE]),
    (["compare", ROOT, "root/out:torqe{errors::serviceomission}", MODEL, "to", NEWER], 2, ["aadl_fta: T1 UnknownTarget", "near " + TARGET]),
    (["compare", "Acs::Contrl.dual", TARGET, MODEL, "to", NEWER], 2, ["aadl_fta: N3 UnknownClassifier", "near acs::control.dual"]),
    (["compare", ROOT, TARGET, MODEL, "to", "examples/wrong.aadl"], 2, ["aadl_fta: S1 Syntax examples/wrong.aadl:152", "examples/wrong.aadl:7:25"]),
]


def run(tool, words):
    """The exit status and both streams of a run, as texts."""
    done = subprocess.run([tool, *words], capture_output=True, text=True, timeout=60)
    return done.returncode, done.stdout, done.stderr


def faults(tool, words, status, lines):
    """What is wrong with a call and with what `explain` says of it, and that text."""
    ended, out, err = run(tool, words)
    told, text, other = run(tool, ["explain", *words])
    wrong = []
    if ended != status:
        wrong.append(f"it ends with {ended}")
    if out and status != 0:
        wrong.append("it writes something")
    if told != 0 or other:
        wrong.append(f"`explain` ends with {told}: {other.strip()}")
    if status != 0 and not text.startswith(err):
        wrong.append("the text does not begin with the line of the call")
    wrong += [f"no line `{line}`" for line in lines if line not in text.split("\n")]
    return wrong, text


def main():
    parser = argparse.ArgumentParser(description=__doc__.split("\n")[0])
    parser.add_argument("--tool", required=True)
    parser.add_argument("--show", action="store_true")
    given = parser.parse_args()
    bad = 0
    for words, status, lines in CALLS:
        wrong, text = faults(given.tool, words, status, lines)
        bad += bool(wrong)
        if wrong or given.show:
            print("$", " ".join(words))
            print(text)
        for fault in wrong:
            print("WRONG:", fault)
    print(f"{len(CALLS)} calls, {bad} wrong")
    return 1 if bad else 0


if __name__ == "__main__":
    sys.exit(main())
