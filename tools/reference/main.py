"""The reference: makes cases and says what comes out of them, or tries itself.

    python3 main.py --cases SEED --out FOLDER
    python3 main.py --self-check
    python3 main.py --compare FOLDER ANSWERS
"""

import argparse
import itertools
import pathlib
import sys

from answers import Answers
from cases import Cases


def write_cases(seed, folder):
    cases = Cases(seed)
    text = cases.text()
    folder = pathlib.Path(folder)
    folder.mkdir(parents=True, exist_ok=True)
    (folder / "stdin").write_text(text)
    (folder / "stdout").write_text(Answers(text).run())
    for kind, number in cases.counts.items():
        print(f"{number:5} {kind}")


def compare(folder, given):
    """Shows the first line of a file of answers that is not what the cases of a folder ask for."""
    folder = pathlib.Path(folder)
    text = pathlib.Path(given).read_text(errors="replace")
    if text == (folder / "stdout").read_text():
        print("all agree")
        return 0
    answers = Answers((folder / "stdin").read_text())
    wanted = answers.run().splitlines()
    given = text.splitlines()
    for i, (one, other) in enumerate(itertools.zip_longest(wanted, given, fillvalue="nothing")):
        if one != other:
            place = answers.places[min(i, len(wanted) - 1)]
            case = answers.text[place - 1]
            print(f"first difference: line {place} of the cases, answer {i + 1}")
            print(f"  case      {case[:200]}{'..' if len(case) > 200 else ''}")
            print(f"  reference {one}\n  program   {other}")
            break
    return 1


def main():
    parser = argparse.ArgumentParser()
    parser.add_argument("--cases", type=int, metavar="SEED")
    parser.add_argument("--out", metavar="FOLDER")
    parser.add_argument("--self-check", action="store_true")
    parser.add_argument("--compare", nargs=2, metavar=("FOLDER", "ANSWERS"))
    given = parser.parse_args()
    if not __debug__:
        sys.exit("run it without -O: it tries itself as it goes")
    if given.self_check:
        import selfcheck

        selfcheck.run()
    if given.cases is not None:
        if given.out is None:
            sys.exit("--cases wants --out FOLDER")
        write_cases(given.cases, given.out)
    if given.compare is not None:
        sys.exit(compare(*given.compare))


if __name__ == "__main__":
    main()
