"""Holds the model's histories to the panels of plain sheets: the same lines written into the sheet, the same entry calls after it."""
import acts
import history
import model
import reader
import rules
from compare import asked_of_the_rust, first_difference
from reader import Refused

# Refusals that a sheet has no like of: a short store, no room in the history, no such step.
OWN = (reader.SHORT, reader.HISTORY_FULL, reader.NO_STEP)


def place_of_areas(lines):
    """Where an area stands as the last of the areas: after the last `area` line, else after the last `axis` line."""
    words = [line.split(b"\t")[0] for line in lines]
    kinds = [place for place, word in enumerate(words) if word == b"area"] or [place for place, word in enumerate(words) if word == b"axis"]
    return kinds[-1] + 1 if kinds else 0


def as_sheet(sheet, texts):
    """The sheet with the lines of edits in it."""
    lines = sheet.split(b"\n")[:-1]
    for text in texts:
        lines.insert(place_of_areas(lines) if text.startswith(b"area") else len(lines), text)
    return b"".join(line + b"\n" for line in lines)


def plain(sheet, texts):
    """The answer of the sheet with these edits, their entries as calls; none where no sheet says the same: an area beside a picture is
    late there, and a sheet may be too long."""
    lines = [text for text in texts if not history.is_entry(text)]
    written = as_sheet(sheet, lines)
    drawn = b"\nrow\t" in b"\n" + sheet and any(text.startswith(b"area") for text in lines)
    if drawn or len(written) > reader.LONGEST_SHEET:
        return None
    calls = [history.call_of(text.split(b"\t")) for text in texts if history.is_entry(text)]
    return None if None in calls else (written, model.Answer(written, calls))


def without_place(lines):
    """A refusal by 15 without its line, which is another one in a sheet with more areas."""
    return [line.rpartition("\t")[0] if line.startswith("refused") else line for line in lines]


def shown_difference(session, rust):
    """The panel of a step beside that of the sheet with its edits, and beside the Rust's answer to that."""
    found = plain(session.sheet, session.texts)
    if found is None:
        return None
    written, answer = found
    if answer.refused or any(answer.numbers):
        return f"history: the sheet with its edits is refused: {answer.full_answer()[:3]}"
    difference = first_difference("history", without_place(acts.shown(session.state)), without_place(acts.shown(answer.state)))
    state = session.state
    own = list(map(rules.bare, model.sheet_lines(state, state.panel.placements))) + model.name_lines(state) + model.count_lines(state)
    return difference or first_difference("Rust: history", own, rust.ask(asked_of_the_rust(written, state.panel), state.accepted))


def refusal_difference(session, text, number, pair):
    """An edit's refusal beside that of the sheet with it."""
    is_line = history.is_sheet_line(text) or history.is_entry(text) and b"\n" not in text
    found = plain(session.sheet, session.texts + [text]) if is_line and number not in OWN else None
    if found is None:
        return None
    answer = found[1]
    other = (answer.refused.number, answer.refused.pair) if answer.refused else ((answer.numbers or [0])[-1], reader.NO_PAIR)
    return None if other == (number, pair) else f"history: {text!r} refused by {number}, {pair}, in the sheet by {other}"


def edit_text(act):
    """The text of an edit, None of another act."""
    if act[0] == "edit":
        return act[1]
    named = act[0] == "enter" and act[1] in model.LETTERS and reader.good_name(act[3])
    return b"enter\t%s\t%d\t%s" % (act[1].encode(), act[2], act[3]) if named else None


def act_difference(session, act, rust):
    """What one act shows, or an edit that it refuses."""
    if act[0] == "show":
        return shown_difference(session, rust)
    text, before = edit_text(act), (session.step, session.last, bytes(session.lines), session.state)
    try:
        acts.call(session, act[0], act[1:]) if act[0] in acts.CALLS else acts.act_lines(session, act)
    except Refused as refused:
        if (session.step, session.last, bytes(session.lines), session.state) != before:
            return f"history: {act!r} is refused and changes the panel"
        return text is not None and refusal_difference(session, text, refused.number, refused.pair) or None
    return None


def difference(sheet, size, made, rust):
    """The first difference of acts on a sheet, none of them after what no call wrote."""
    session = history.Session(sheet, size)
    for act in made:
        if act[0] in ("steps", "put"):
            return None
        found = act_difference(session, act, rust)
        if found:
            return found
    return None
