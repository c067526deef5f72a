"""Sees that each transcript of the documents is a script of examples/ with its expected answers.

A transcript is a fenced block whose first line is "```text examples/NAME": a command a line, two or more spaces, its answer.
"""
import pathlib
import re
import sys


def commands(script):
    return [line for line in script.read_text().splitlines() if line and not line.startswith("#")]


def transcripts(document):
    return re.findall(r"^```text (examples/\S+)\n(.*?)^```$", document.read_text(), re.M | re.S)


def differs(top, name, block):
    script = top / name
    answers = (top / (name + ".stdout")).read_text().splitlines()
    wanted = list(zip(commands(script), answers, strict=True))
    shown = [tuple(re.split(r" {2,}", line, maxsplit=1)) for line in block.splitlines()]
    return wanted != shown


def main(top):
    documents = [top / "README.md", *sorted((top / "docs").glob("*.md"))]
    found = [(document, name, block) for document in documents for name, block in transcripts(document)]
    wrong = [f"{document.name}: the transcript of {name} is not what the script answers"
             for document, name, block in found if differs(top, name, block)]
    print("\n".join(wrong) if wrong else f"transcripts: {len(found)} as expected")
    return 1 if wrong or not found else 0


sys.exit(main(pathlib.Path(sys.argv[1])))
