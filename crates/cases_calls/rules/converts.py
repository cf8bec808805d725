"""CONVERT's declared kinds: the refusal 22."""
from .outcome import need
from .tables import CONVERT, INTEGER, REAL, named


def converts_fit(tables):
    """22: "another pair of kinds or an undeclared name". Indices and cells are forward's matter."""
    for row in tables.instructions:
        if row.family == CONVERT:
            regions = [named(tables.regions, name) for name in (row.first, row.source)]
            need(None not in regions and {region.kind for region in regions} == {INTEGER, REAL}, 22)
