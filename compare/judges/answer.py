"""The model's answer to one sheet on standard input: `answer [--names] [--display] [--enter FILE] [--try FILE] [--acts FILE [--bytes N]]`."""
import argparse
import sys

import acts
import build
import model
import questions


def calls_of(path):
    """The entry calls of a file, one line `axis TAB line TAB name` each."""
    rows = build.read_bytes(path).split(b"\n")[:-1] if path else []
    fields = (row.split(b"\t", 2) for row in rows)
    return [(letter.decode(), int(line), name) for letter, line, name in fields]


def trials_of(path):
    """The trials of a file, one line `axis TAB line TAB name TAB packing` each."""
    rows = build.read_bytes(path).decode().split("\n")[:-1] if path else []
    return [questions.trial(*row.split("\t")) for row in rows]


def acts_of(path):
    """The acts of a file, one line each: `recall TAB step`, or an edit."""
    return [acts.written(row) for row in build.read_bytes(path).split(b"\n")[:-1]]


def acted_lines(sheet, options):
    """The answers to the acts, and the whole answer of the panel after them."""
    made = acts_of(options.acts)
    return acts.answer_lines(sheet, options.bytes, made + [("show",)])


def main():
    parser = argparse.ArgumentParser(prog="compare/answer", description="The model's answer to a sheet.")
    parser.add_argument("--names", action="store_true", help="with the line names")
    parser.add_argument("--display", action="store_true", help="the display call's answer")
    parser.add_argument("--enter", help="file of entry calls, made before the answer; their answers come first")
    parser.add_argument("--try", dest="trials", help="file of names that are tried; their answers come last")
    parser.add_argument("--acts", help="file of edits and recalls; their answers, and the panel after them, are the answer to an accepted sheet")
    parser.add_argument("--bytes", type=int, default=acts.LONGEST, help="bytes of the history")
    options = parser.parse_args()
    sheet = sys.stdin.buffer.read()
    answer = model.Answer(sheet, calls_of(options.enter), options.display)
    if options.acts and not answer.refused:
        return print("\n".join(acted_lines(sheet, options)))
    tried = [] if answer.refused or options.display else questions.answer_lines(answer.state, trials_of(options.trials))
    sys.stdout.write(model.text_of(answer.full_answer(options.names) + tried))


if __name__ == "__main__":
    main()
