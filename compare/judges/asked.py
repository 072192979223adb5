"""A panel that browsers are asked about: its sheet and entry calls, and the answer that is judged."""
import css
import model
from answered import Answered


class Asked:
    def __init__(self, number, made, lines):
        self.number = number
        self.sheet, self.calls, self.family = made
        self.state = model.Answer(self.sheet, self.calls).state
        # None where it is refused, as a broken picture is.
        self.panel = self.state and self.state.panel
        self.answered = Answered(lines)

    def rows(self):
        """The rows of a picture, as the sheet has them."""
        lines = [line.split("\t") for line in self.sheet.decode("latin-1").splitlines()]
        return [fields[1:] for fields in lines if fields[0] == "row"]

    def book(self, letter):
        """The names of an axis with their lines: the sheet's, repeats written out, then the accepted entries."""
        entered = [(line, name) for of, line, name in self.state.accepted if of == letter]
        return css.book(self.panel.axes[letter], self.answered.repetitions[letter], entered)

    def is_invalid(self, letter):
        return not css.template_is_valid(self.panel.axes[letter])

    def has_entries(self, letter):
        return any(of == letter for of, _, _ in self.state.accepted)

    def template_tracks(self, letter):
        """The tracks that the template writes out, by the answer's repetitions."""
        return len(css.template_tracks(self.panel.axes[letter], self.answered.repetitions[letter]))

    def automatic(self, letter):
        """The automatic repeat of an axis, None where it has none."""
        repeats = [component for component in css.counted(self.panel.axes[letter]).components if component.automatic()]
        return repeats[0] if repeats else None
