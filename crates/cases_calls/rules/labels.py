"""Labels, whose names are apart from regions' and externs', and conditions: the refusals 20 and 21, and a label's row."""
from .outcome import need
from .tables import BIT, CONDITIONAL, JUMPS, LABEL, named


def labels_of(rows):
    return [row.second for row in rows if row.family == LABEL]


def row_of_label(rows, label):
    return next(number for number, row in enumerate(rows) if row.family == LABEL and row.second == label)


def labels_fit(rows):
    """20: "a label twice or a target absent anywhere in the program"."""
    labels = labels_of(rows)
    need(len(set(labels)) == len(labels), 20)
    need(all(row.second in labels for row in rows if row.family in JUMPS), 20)


def conditions_fit(tables):
    """21: "a condition undeclared or not BIT". Its index is forward's matter."""
    conditions = [named(tables.regions, row.first) for row in tables.instructions if row.family in CONDITIONAL]
    need(all(region is not None and region.kind == BIT for region in conditions), 21)
