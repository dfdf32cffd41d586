#!/usr/bin/env python3
"""readings.py LEF: asks the command about every text of tools/readings, whose answers the original or the model gave: the numbers of a refusal
have to be those stored, and the token at fault has to stand at or before the place. Ends with 0 if nothing was wrong."""
import json, os, subprocess, sys

sys.dont_write_bytecode = True
root = os.path.join(os.path.dirname(os.path.abspath(__file__)), "..")
sys.path.insert(0, os.path.join(root, "tools"))
import form


def is_shown(text, said):
    """Whether the token held ahead ends at the place, and the one at fault is it or stands before it."""
    before, held, token = text[: said["place"]], said["held"].encode(), said["fault"].encode()
    return before.endswith(held) and (token == held or token in before[: len(before) - len(held)])


def main(lef):
    wrong = 0
    for text, answer in form.readings():
        run = subprocess.run([lef, "list", "--json", "-"], input=text, capture_output=True)
        if not answer.startswith("refusal"):
            wrong += run.returncode != 0
            continue
        said = json.loads(run.stderr)
        same = [said["refusal"], said["place"], said["line"]] == [int(n) for n in answer.split()[1:]]
        if not same or said["refusal"] > 3 and not is_shown(text, said):
            wrong += 1
            print("%r, %s: %s" % (text, answer, run.stderr.decode()))
    return wrong


if __name__ == "__main__":
    sys.exit(main(sys.argv[1]) != 0)
