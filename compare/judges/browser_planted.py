"""Plants wrong readings in the model's answers and in the drawings, one at a time, and shows that each browser finds each."""
import comparable
import model
import questions
import wrong
from asked import Asked
from browser_compare import compare
from browser_wrong import FOUND_BY_ONE, READINGS

# Panels drawn at a time until a reading is found.
FEW = 100


def modelled(number, made):
    """A panel with the model's answer."""
    answer = model.Answer(*made[:2])
    more = [] if answer.refused else model.count_lines(answer.state) + questions.answer_lines(answer.state, questions.browser_rows(answer.state))
    return Asked(number, made, answer.full_answer() + more)


def first_found(reading, made, drawn_by, finders):
    """For each browser the number of panels until it shows the reading, and how, until all finders have; as far as the panels go."""
    found = {}
    for first in range(0, len(made), FEW):
        with wrong.put_in_place(reading):
            panels = [modelled(number, one) for number, one in enumerate(made[first:first + FEW], start=first + 1)]
            results = compare(panels, drawn_by, True)
        for panel, result in zip(panels, results):
            for difference in result.differences:
                found.setdefault(difference.split(":")[0], (panel.number, difference))
        if all(browser.name in found for browser in finders):
            break
    return found


def cut(text, most=160):
    return text if len(text) <= most else text[:most] + ".."


def plant(options, drawn_by):
    # Made before any reading is put in place: the makers use the model.
    made = [comparable.make(options.seed, number, options.family) for number in range(options.n)]
    missed = 0
    print("panels until found | wrong reading | what the browser shows")
    for name, reading in READINGS.items():
        finders = [browser for browser in drawn_by if FOUND_BY_ONE.get(name, browser.name) == browser.name]
        found = first_found(reading, made, drawn_by, finders)
        for browser in finders:
            if browser.name in found:
                number, difference = found[browser.name]
                print(f"{number:6} | {name} | {cut(difference)}", flush=True)
            else:
                missed += 1
                print(f"NOT FOUND | {name} | {browser.name}", flush=True)
    print(f"{len(READINGS)} wrong readings, {missed} not found")
    return 1 if missed else 0
