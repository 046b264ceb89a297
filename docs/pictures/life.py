"""A change's life: its four statuses, a panel each, moved by the four jobs; the arrows have the names that the rules have in
crates/rules/src/lib.rt, and no picture is drawn where a rule there has no arrow here or the other way about."""
import pathlib, re, sys

from svg import CUT, FAINT, SOFT, box, diamond, figures, line, path, picture, text

RULES = pathlib.Path(__file__).resolve().parent.parent.parent / "crates" / "rules" / "src" / "lib.rt"
REFUSALS = {"Wait", "Full", "NoLine", "Rejected"}  # they store nothing, so they have no arrow
WIDE, HIGH, STEP = 92, 32, 180  # a status, and from one column to the next
PANEL_WIDE, PANEL_HIGH, BETWEEN, MARGIN, TOP = 480, 330, 44, 20, 44
ROWS = (84, 190, 286)
FILLS = {"Pending": "#ffffff", "InProgress": "#fff6d6", "Complete": "#e3f4e5"}
ENDED = "#f3e6e6"


class Panel:
    """The statuses of one phase and stage, and the rules of its job."""

    def __init__(self, x, y, job, what, field, holds):
        self.x, self.y, self.job, self.rules = x, y, job, set()
        self.shapes = [
            box(x, y, PANEL_WIDE, PANEL_HIGH, fill="#fbfcfd", stroke=FAINT, round_by=8, thick=1),
            text(x + 14, y + 22, what, 13.5, "start", weight="bold"),
            text(x + PANEL_WIDE - 14, y + 22, field, 13.5, "end", weight="bold"),
            text(x + 14, y + 39, holds, 11, "start", SOFT),
        ]

    def middle(self, column):
        return self.x + 14 + STEP * column + WIDE / 2

    def status(self, column, row, name):
        x, y = self.middle(column), self.y + ROWS[row]
        self.shapes.append(box(x - WIDE / 2, y, WIDE, HIGH, fill=FILLS.get(name, ENDED)))
        self.shapes.append(text(x, y + 20.5, name, 12.5))

    def enters(self, words):
        """What brings the first status."""
        x, y = self.middle(0), self.y + ROWS[0]
        self.shapes.append(text(self.x + 14, y - 24, words, 11, "start", style="italic"))
        self.shapes.append(line(x, y - 19, x, y - 1))

    def head_then_entry(self, column, rule, conditions, closing):
        """A rule to the right: the head is stored first, then the status, which the closing rule stores after a cut."""
        self.rules |= {rule, closing}
        left, right, y = self.middle(column) + WIDE / 2, self.middle(column + 1) - WIDE / 2, self.y + ROWS[0] + HIGH / 2
        x = (left + right) / 2
        self.shapes += [line(left, y, x, y, arrow=False), line(x, y, right - 1, y)]
        arc = f"M {figures(x, y + 6)} C {figures(x, y + 40, right + 12, y + 42, right + 12, y + HIGH / 2 + 2)}"
        self.shapes.append(path(arc, colour=CUT, dashes="4 3"))
        self.shapes.append(diamond(x, y, CUT))
        self.shapes.append(text(x, y - 11, rule, 12, weight="bold"))
        for place, words in enumerate(reversed(conditions)):
            self.shapes.append(text(x, y - 25 - 12 * place, words, 10.5, colour=SOFT))
        self.shapes.append(text(x + 22, y + 51, closing, 11.5, colour=CUT, weight="bold"))

    def target_first(self, column, rule):
        """A push's first store, the target's: after a cut there the same rule pushes again."""
        left, y = self.middle(column) + WIDE / 2, self.y + ROWS[0] + HIGH / 2
        x = left + 16
        arc = f"M {figures(x, y + 6)} C {figures(x, y + 40, left - 12, y + 42, left - 12, y + HIGH / 2 + 2)}"
        self.shapes.append(path(arc, colour=CUT, dashes="4 3"))
        self.shapes.append(diamond(x, y, CUT))
        self.shapes.append(text(left + 22, y + 51, rule, 11.5, colour=CUT, weight="bold"))

    def entry_then_head(self, column, rule, conditions, closing):
        """A rule downwards: the status is stored first, then the head, which the closing rule stores after a cut."""
        self.rules |= {rule, closing}
        x, top, under, low = self.middle(column), self.y + ROWS[0] + HIGH, self.y + ROWS[1], self.y + ROWS[2]
        self.shapes.append(line(x, top, x, under - 1))
        self.shapes.append(text(x + 9, top + 33, rule, 12, "start", weight="bold"))
        for place, words in enumerate(conditions):
            self.shapes.append(text(x + 9, top + 47 + 13 * place, words, 10.5, "start", SOFT))
        y = (under + HIGH + low) / 2
        self.shapes.append(line(x, under + HIGH, x, low - 1))
        arc = f"M {figures(x + 6, y)} C {figures(x + 34, y, x + 38, y + 10, x + 38, low - 2)}"
        self.shapes.append(path(arc, colour=CUT, dashes="4 3"))
        self.shapes.append(diamond(x, y, CUT))
        self.shapes.append(text(x + 45, y + 14, closing, 11.5, "start", CUT, "bold"))

    def head(self, first, last, words, wider=0):
        """What the second store of the rules above it writes into the head."""
        left, right = self.middle(first) - WIDE / 2 - wider, self.middle(last) + WIDE / 2 + wider
        self.shapes.append(box(left, self.y + ROWS[2], right - left, 28, fill="#eef4fb", round_by=14, thick=1))
        self.shapes.append(text((left + right) / 2, self.y + ROWS[2] + 18.5, words, 11.5))

    def lines(self, y, *said):
        """Names, each with what is said of it; one without a name goes on with the line before."""
        for place, (name, words) in enumerate(said):
            self.shapes.append(text(self.x + 22, self.y + y + 17 * place, name, 11.5, "start", weight="bold"))
            self.shapes.append(text(self.x + 68, self.y + y + 17 * place, words, 11.5, "start"))

    def note(self, column, y, words):
        self.shapes.append(text(self.middle(column), self.y + y, words, 10.5, colour=SOFT, style="italic"))


def row(panel, *statuses):
    for column, name in enumerate(("Pending", "InProgress", "Complete")):
        panel.status(column, 0, name)
    for column, name in statuses:
        panel.status(column, 1, name)


def panels():
    left, right = MARGIN, MARGIN + PANEL_WIDE + BETWEEN
    upper, lower = TOP, TOP + PANEL_HIGH + BETWEEN

    holds = "in log order: change = i − 1 (Finish: change = i)"
    one = Panel(left, upper, "CommitChangeRule", "Job 1, commit change", "c.commit", holds)
    row(one, (1, "Failed"))
    one.enters("append")
    one.head_then_entry(0, "Aim", ["at rest"], "Begin")
    one.head_then_entry(1, "Land", ["valid (outcome 0)"], "Finish")
    one.entry_then_head(1, "Reject", ["invalid (outcome 1);", "c.apply Canceled"], "Close")
    one.head(1, 1, "index, change = i", wider=24)

    holds = "c.commit Complete; next: applied ordinal = c.ordinal − 1 (Finish: = c.ordinal)"
    two = Panel(right, upper, "ApplyChangeRule", "Job 2, apply change", "c.apply", holds)
    row(two, (0, "Aborted"), (1, "Failed"), (2, "Canceled"))
    two.enters("append")
    two.head_then_entry(0, "Aim", ["settled, revision = r.index"], "Begin")
    two.head_then_entry(1, "Push", ["line open, accepted"], "Finish")
    two.target_first(1, "Push")
    two.entry_then_head(0, "Abort", ["settled, r.commit Complete", "or revision < r.index"], "Close")
    two.entry_then_head(1, "Fail", ["rejected, or", "r.commit Complete"], "Close")
    two.head(0, 1, "close: target, index = i, ordinal = c.ordinal")
    two.note(2, ROWS[1] + HIGH + 16, "by job 1's Reject")

    holds = "of the newest live change: revision = i (Finish: revision = r.index)"
    three = Panel(left, lower, "CommitRollbackRule", "Job 3, commit rollback", "r.commit", holds)
    row(three)
    three.enters("rollback asked")
    three.head_then_entry(0, "Aim", ["at rest"], "Begin")
    three.head_then_entry(1, "Land", ["any outcome"], "Finish")

    for y, words in (
        (194, "A job leads to i where it is of the change, to r.index where it is of the rollback."),
        (216, "The store before the status, in all four panels; of Push the first two:"),
    ):
        three.shapes.append(text(three.x + 22, three.y + y, words, 11.5, "start", SOFT))
    three.lines(
        238,
        ("Aim", "target = where the job leads"),
        ("Land", "index = i, revision = where the job leads, ordinal + 1, and the"),
        ("", "committed values overlaid; in job 1 also change = i"),
        ("Push", "the target's values overlaid; then the applied values overlaid,"),
        ("", "index = i, revision = where the job leads, ordinal = the job's own"),
    )

    holds = "r.commit Complete; next: applied ordinal = r.ordinal − 1 (Finish: = r.ordinal)"
    four = Panel(right, lower, "ApplyRollbackRule", "Job 4, apply rollback", "r.apply", holds)
    row(four, (0, "Canceled"))
    four.enters("rollback asked")
    four.head_then_entry(0, "Aim", ["settled, c.apply", "Complete or Failed"], "Begin")
    four.head_then_entry(1, "Push", ["line open, accepted"], "Finish")
    four.target_first(1, "Push")
    four.entry_then_head(0, "Cancel", ["settled,", "c.apply Aborted"], "Close")
    four.head(0, 2, "close: target = r.index, index = i, ordinal = r.ordinal", wider=-16)
    four.note(1, ROWS[0] + HIGH + 60, "rejected: 13, nothing stored")
    return one, two, three, four


def told(panel):
    """Ends the script where the panel's arrows are not the rules of its enum."""
    body = re.search(rf"pub enum {panel.job} {{(.*?)}}", RULES.read_text(), re.S).group(1)
    named = set(re.findall(r"\w+", body)) - REFUSALS
    if named != panel.rules:
        sys.exit(f"life: {panel.job}: not the rules of the code: {', '.join(sorted(named ^ panel.rules))}")


def between(one, two, three, four):
    """What leads from a panel to the next."""
    shapes = []
    for a, b in ((one, two), (three, four)):
        y = a.y + ROWS[0] + HIGH / 2
        shapes.append(line(a.middle(2) + WIDE / 2, y, b.middle(0) - WIDE / 2 - 2, y, colour=FAINT, thick=2))
    for a, b, words in (
        (one, three, "c.commit Complete: its rollback may be asked, once"),
        (two, four, "c.apply says whether the rollback is pushed or canceled"),
    ):
        x = a.x + PANEL_WIDE / 2 - 170
        shapes.append(line(x, a.y + PANEL_HIGH, x, b.y - 2, colour=FAINT, thick=2))
        shapes.append(text(x + 14, a.y + PANEL_HIGH + BETWEEN / 2 + 4, words, 11.5, "start", SOFT))
    return shapes


def legend(y):
    x = MARGIN + 6
    shapes = [
        line(x, y - 4, x + 22, y - 4, arrow=False),
        line(x + 22, y - 4, x + 46, y - 4),
        diamond(x + 23, y - 4, CUT),
        line(x, y + 34, x + 46, y + 34, colour=CUT, dashes="4 3"),
    ]
    for down, words in (
        (0, "one call, two stores. The first gives the event, with the status that the arrow leads to. Push has three: the second gives it."),
        (16, "A cut leaves it at the diamond: sideways the head is stored and not the status, downwards the other way round."),
        (38, "a later call of the same job makes the rest good, by the rule named; it gives no event, but Push does: before, only the target was stored."),
    ):
        shapes.append(text(x + 58, y + down, words, 11.5, "start"))
    words = "Refusals store nothing and are not drawn: Wait (11), Full (9), NoLine (12), Rejected (13)."
    words += " r.commit and r.apply are None until the rollback is asked."
    return shapes + [text(x, y + 60, words, 11.5, "start", SOFT)]


def drawn():
    all_four = panels()
    for panel in all_four:
        told(panel)
    low = TOP + 2 * PANEL_HIGH + BETWEEN + 30
    shapes = [text(MARGIN, 28, "The life of change i: four statuses, four jobs", 16, "start", weight="bold")]
    for panel in all_four:
        shapes += panel.shapes
    shapes += between(*all_four) + legend(low)
    width = 2 * MARGIN + 2 * PANEL_WIDE + BETWEEN
    return picture(width, low + 76, "The life of a change: statuses, jobs and cut points", shapes)
