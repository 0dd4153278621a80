"""The files of tests/cases: runs of the program with the files that they read and what they must give.

docs/TESTING.md says how such a file is written. `read` makes a case of its bytes, `text` makes these bytes of a case."""
import dataclasses
import os
import re

MARK = b";==="
NO_NEWLINE = "no newline at end"
ESCAPED = " with escapes"
# the files that the words of a run can name, by the letter behind `%`; `%1` to `%9` are what runs of the case wrote
FILES = {"s": "input", "t": "target", "a": "allocated"}
PLACE = re.compile(r"%([sta1-9])")


class Fault(Exception):
    """What is wrong with the text of a case."""


@dataclasses.dataclass
class Run:
    """One run of the program, and what it must give."""
    words: str
    status: int = 0
    lines: list = dataclasses.field(default_factory=list)  # on standard error
    output: bytes = b""


@dataclasses.dataclass
class Case:
    head: list  # in order: a text for each line that says what the case shows, and the runs
    parts: dict  # the files, by their names

    def runs(self):
        return [item for item in self.head if isinstance(item, Run)]


def path_of(letter, folder):
    """Where the file that stands for `%letter` lies while a case is run in a folder."""
    return os.path.join(folder, FILES.get(letter, "output-" + letter))


def expand(text, folder):
    return PLACE.sub(lambda found: path_of(found[1], folder), text)


def contract(text, folder):
    """The text with `%s` and the like in place of the paths of files: what `expand` takes back."""
    for letter in "sta123456789":
        text = text.replace(path_of(letter, folder), "%" + letter)
    return text


# -- reading

def lines_of(data):
    lines = re.findall(rb"[^\n]*\n", data)
    if data != b"".join(lines):
        raise Fault("the last line has no newline")
    return lines


def split(data):
    """The lines of the head, and label and bytes of each part."""
    head, parts, is_open = [], [], True
    for line in lines_of(data):
        if line.startswith(MARK):
            label = line[len(MARK):].decode().strip()
            is_open = label != NO_NEWLINE
            if is_open:
                parts.append([label, b""])
            elif not parts or not parts[-1][1]:
                raise Fault(f"`{NO_NEWLINE}` stands behind no line")
            else:
                parts[-1][1] = parts[-1][1][:-1]
        elif not is_open:
            raise Fault(f"a line stands behind `{NO_NEWLINE}`")
        elif parts:
            parts[-1][1] += line
        else:
            head.append(line)
    return head, parts


def without_escapes(data):
    if re.search(rb"\\(?!\\|x[0-9a-f]{2})", data.replace(rb"\\", b"")):
        raise Fault(r"a `\` that is neither `\\` nor `\x` with two digits")
    return re.sub(rb"\\(\\|x[0-9a-f]{2})", lambda m: b"\\" if m[1] == b"\\" else bytes([int(m[1][1:], 16)]), data)


def head_of(lines):
    """The sentences and the runs of a head."""
    head, run = [], None
    for line in lines:
        text = line.decode("utf-8", "surrogateescape").rstrip("\n")
        if text and not text.startswith(";"):
            raise Fault(f"a line of the head without `;`: {text}")
        said = re.match(r"; ([A-Z]+):(?: (.*))?$", text)
        if not said:
            head.append(text)
        elif said[1] == "RUN":
            run = Run(said[2] or "")
            head.append(run)
        elif run is None:
            raise Fault(f"{said[1]} stands before every RUN")
        elif said[1] == "STATUS":
            run.status = int(said[2])
        elif said[1] == "STDERR":
            run.lines.append(said[2] or "")
        else:
            raise Fault(f"no line of a head: {text}")
    return head


def output_label(case, run):
    return "output" if len(case.runs()) == 1 else "output of " + run.words


def read(data):
    """The case that a file spells."""
    head, parts = split(data)
    case = Case(head_of(head), {})
    runs = {output_label(case, run): run for run in case.runs()}
    if not runs or len(runs) != len(case.runs()):
        raise Fault("no RUN, or two RUNs of the same words")
    seen = set()
    for label, held in parts:
        if label.endswith(ESCAPED):
            label, held = label[:-len(ESCAPED)], without_escapes(held)
        if label in seen:
            raise Fault(f"two parts `{label}`")
        seen.add(label)
        if label in runs:
            runs[label].output = held
        elif label in FILES.values():
            case.parts[label] = held
        else:
            raise Fault(f"no part of this case: `{label}`")
    return case


# -- writing

def part_text(label, held):
    """A part as it stands in a file: plain, or where bytes ask for it with escapes."""
    if re.search(rb"[^\t\n -~]", held) or held.startswith(MARK) or b"\n" + MARK in held:
        held = re.sub(rb"[^\t\n -~]", lambda m: b"\\x%02x" % m[0][0], held.replace(b"\\", rb"\\"))
        held = re.sub(rb"^;", rb"\\x3b", held, flags=re.M)
        label += ESCAPED
    end = b"" if not held or held.endswith(b"\n") else b"\n" + MARK + b" " + NO_NEWLINE.encode() + b"\n"
    return MARK + b" " + label.encode() + b"\n" + held + end


def text(case):
    """The bytes of the file of a case."""
    out = []
    for item in case.head:
        if isinstance(item, Run):
            out.append(f"; RUN: {item.words}".rstrip())
            out += [f"; STATUS: {item.status}"] if item.status else []
            out += [f"; STDERR: {line}" for line in item.lines]
        else:
            out.append(item)
    parts = [part_text(name, held) for name, held in case.parts.items()]
    parts += [part_text(output_label(case, run), run.output) for run in case.runs() if run.output]
    return "".join(line + "\n" for line in out).encode("utf-8", "surrogateescape") + b"".join(parts)
