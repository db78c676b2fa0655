"""Wrong versions of Salva's error and of the step's end, for wrong_versions.py, in the form of
wrong_rules.py."""

SETTLED = "settled = error <= s.limit and i >= s.least"
FOUND = "error, passed_over = iteration(s)\n"
PASSED_OVER = "any(math.isnan(average) for average in averages)"
ERROR = "return s.criterion.error(averages)"
AVERAGE = "s.summation.of([p.term for p in f.particles]) / len(f.particles)"


def told(passed_over):
    """An iteration's answer in which, by Salva's criterion, this is told."""
    return "return s.criterion.error(averages)[0], s.criterion is SALVA and (%s)" % passed_over


ENDINGS = [
    # the error
    ("not-a-number wins the maximum", "if average > error:", "if not average <= error:"),
    ("negative averages count", "    error = 0.0\n    for average in", "    error = -math.inf\n    for average in"),
    ("an average of -0 is taken", "if average > error:", "if average >= error:"),
    ("averages are added up", "            error = average", "            error += average"),
    ("the last average counts", "if average > error:", "if average > 0.0:"),
    ("each term divided by the count", AVERAGE, "s.summation.of([p.term / len(f.particles) for p in f.particles])"),
    ("the greatest term", AVERAGE, "max(p.term for p in f.particles)"),
    ("a sum for an average", AVERAGE, "s.summation.of([p.term for p in f.particles])"),
    # whether an average was passed over
    ("never passed over", PASSED_OVER, "False"),
    ("always passed over", PASSED_OVER, "True"),
    ("0 for passed over", PASSED_OVER, "not " + PASSED_OVER),
    ("a term that is not a number", ERROR, told("any(math.isnan(p.term) for _, p in s.all)")),
    ("an aii that is not a number", ERROR, told("any(math.isnan(p.aii) for _, p in s.all)")),
    ("an infinite pressure", ERROR, told("any(math.isinf(p.pressure) for _, p in s.all)")),
    ("an infinite average is passed over", PASSED_OVER, "any(not math.isfinite(average) for average in averages)"),
    ("infinite averages of both signs are passed over", PASSED_OVER, "math.isnan(total(averages))"),
    ("an average below 0 is passed over", PASSED_OVER, "any(not average >= 0.0 for average in averages)"),
    ("an average of 0 is passed over", PASSED_OVER, "any(not average > 0.0 for average in averages)"),
    ("a smaller average is passed over", PASSED_OVER, "any(not average >= error for average in averages)"),
    ("an empty fluid is passed over", ERROR, told("any(not f.particles for f in s.fluids) or " + PASSED_OVER)),
    ("all must be passed over", PASSED_OVER, "averages != [] and all(math.isnan(average) for average in averages)"),
    ("passed over with error 0 alone", PASSED_OVER, "error == 0.0 and " + PASSED_OVER),
    ("passed over in the first fluid alone", PASSED_OVER, PASSED_OVER.replace("averages", "averages[:1]")),
    ("passed over in the last fluid alone", PASSED_OVER, PASSED_OVER.replace("averages", "averages[-1:]")),
    ("passed over in the first iteration", "bits(error), passed_over)",
     'bits(error), s.__dict__.setdefault("first", passed_over))'),
    ("passed over in some iteration", FOUND, FOUND + " " * 8 +
     "s.some = passed_over = passed_over or getattr(s, 'some', False)\n"),
    ("passed over in all iterations", FOUND, FOUND + " " * 8 +
     "s.all_of_them = passed_over = passed_over and getattr(s, 'all_of_them', True)\n"),
    ("passed over in the iteration before", FOUND, FOUND + " " * 8 +
     "passed_over, s.before = getattr(s, 'before', False), passed_over\n"),
    ("passed over only where it settled", "bits(error), passed_over)", "bits(error), settled and passed_over)"),
    ("passed over only where it ran out", "bits(error), passed_over)", "bits(error), not settled and passed_over)"),
    ("no end with an average passed over", SETTLED, SETTLED + " and not passed_over"),
    ("an end with any average passed over", SETTLED, SETTLED + " or passed_over"),
    ("unswept, not passed over", '"unswept 0"', '"unswept 0 0"'),
    # the step
    ("stop at i + 1", "i >= s.least", "i + 1 >= s.least"),
    ("stop after least", "i >= s.least", "i > s.least"),
    ("least is not looked at", "error <= s.limit and i >= s.least", "error <= s.limit"),
    ("the limit must be gone below", "error <= s.limit and", "error < s.limit and"),
    ("the limit is not looked at", "error <= s.limit and i >= s.least", "i >= s.least"),
    ("a last iteration never settles", "settled = error <= s.limit and",
     "settled = i + 1 < s.most and error <= s.limit and"),
    ("iterations counted from 0", '"ranout", i + 1, bits', '"ranout", i, bits'),
    ("the first error", "bits(error), passed_over)", 'bits(s.__dict__.setdefault("first", error)), passed_over)'),
    ("inv_dt of a zero step infinite", "0.0 if s.dt == 0.0 else 1.0 / s.dt", "div(1.0, s.dt)"),
    ("the remaining time stays", "s.remaining = s.remaining - s.dt", "s.remaining = s.remaining"),
    ("dt less the remaining time", "s.remaining = s.remaining - s.dt", "s.remaining = s.dt - s.remaining"),
]
