#!/usr/bin/env bash
# Counts the sentences above 30 words in README, CONTRIBUTING, docs/ and the comments of src/ and specs/, and the phrases that
# these texts do not use. Prints each with its place. Ends with 1 if there are more than 20 such sentences, or one of the phrases.
# By hand, and not by the gate; needs python3.
set -u
cd "$(dirname "$0")/.." || exit 1
exec python3 - <<'PYTHON'
import glob
import re
import sys

LONGEST = 30
PHRASES = re.compile(r"\b(but for|so many|want of memory)\b", re.I)
SENTENCE = re.compile(r"(?<=[.:;!?])\s+")


def comments(path):
    """The blocks of comments of a file, each with the line of its end."""
    block = []
    with open(path, encoding="utf-8") as file:
        for number, line in enumerate(file, 1):
            found = re.match(r"\s*(?://[/!]?|--)\s?(.*)$", line)
            text = found.group(1) if found else ""
            if text and not re.match(r"\s*[-|]|\s*\d+\.", text):
                block.append(text)
                continue
            if block:
                yield number - 1, " ".join(block)
            block = [text] if text else []
    if block:
        yield number, " ".join(block)


def paragraphs(path):
    """The paragraphs, items and cells of a document, each with its line."""
    with open(path, encoding="utf-8") as file:
        text = re.sub(r"```.*?```", lambda it: "\n" * it.group(0).count("\n"), file.read(), flags=re.S)
    block = []
    for number, line in enumerate(text.split("\n"), 1):
        starts = re.match(r"\s*(\||[-*] |\d+\. |#|$)", line) or line.startswith("    ")
        if starts and block:
            yield number - 1, " ".join(block)
            block = []
        if line.strip().startswith("|"):
            yield from ((number, cell) for cell in line.split("|"))
        elif line.strip() and not line.startswith("    "):
            block.append(line.strip())
    if block:
        yield number, " ".join(block)


long, phrases = 0, 0
documents = sorted([*glob.glob("*.md"), *glob.glob("docs/*.md")])
sources = sorted([*glob.glob("crates/*/src/**/*.rt", recursive=True), *glob.glob("crates/*/specs/**/*.antt", recursive=True)])
for path in [*documents, *sources]:
    for line, text in (paragraphs if path.endswith(".md") else comments)(path):
        for sentence in SENTENCE.split(text):
            count = len(sentence.split())
            if count > LONGEST:
                long += 1
                print(f"{path}:{line}: {count} words: {sentence[:100]}")
            for phrase in PHRASES.findall(sentence):
                phrases += 1
                print(f"{path}:{line}: '{phrase}' in: {sentence[:100]}")
print(f"{long} sentences above {LONGEST} words, {phrases} phrases")
sys.exit(long > 20 or phrases > 0)
PYTHON
