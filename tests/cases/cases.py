"""The cases of a topic: TOPIC.cases has each behind a line `=== NAME`, and the folder TOPIC the files that their words name."""
from collections import namedtuple
from pathlib import Path
import re

# The program's words, the script, and the status, output and error text that are wanted, bytes as characters.
Case = namedtuple("Case", "name words script wanted")


def texts_in(topic):
    """The text of each case of a topic, by its name."""
    file = Path(f"{topic}.cases")
    parts = re.split(r"^=== (.*)\n", file.read_bytes().decode("latin-1") if file.exists() else "", flags=re.MULTILINE)
    assert parts[0] == "" and len(set(parts[1::2])) == len(parts[1::2]), f"{file}: a line before the first case, or one name twice"
    return dict(zip(parts[1::2], parts[2::2]))


def write_texts(topic, texts):
    """Writes cases of a topic in place of those of these names, beside the others."""
    texts = {**texts_in(topic), **texts}
    whole = "".join(f"=== {name}\n{texts[name]}" for name in sorted(texts))
    Path(f"{topic}.cases").write_bytes(whole.encode("latin-1"))


def wanted_of(text):
    """The status, the output and the error text that a case wants."""
    status, rest = text.split(">>> status ", 1)[1].split("\n", 1)
    output, _, errors = rest.partition(">>> err\n")
    return int(status), output, errors


def cases_in(topic):
    """The cases of a topic. A word that is the name of a file in the topic's folder is that file's path."""
    for name, text in texts_in(topic).items():
        words, rest = text.split("\n<<<\n", 1)
        files = [Path(topic) / word for word in words.split()]
        paths = [str(file) if file.is_file() else word for file, word in zip(files, words.split())]
        yield Case(name, paths, rest.split(">>> status ", 1)[0], wanted_of(text))
