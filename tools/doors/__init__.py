"""The families of doors that tools/differential compares: each a module with NAME, DOORS, RULES, the requests that are
always made, `always(rng)`, and mostly `expected(line)`, the answer of docs/SPEC.md, `one(rng)`, a request at random, and `every()`, every value of
something."""
from . import exception, fat, forged, ground, links, pe, smallest, symver, unwind

FAMILIES = [ground, fat, pe, exception, unwind, links, symver, forged, smallest]
