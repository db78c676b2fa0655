"""Wrong versions of Ihmsen's criterion, of what ends iterations under it, and of which criterion is
taken, for wrong_versions.py, in the form of wrong_rules.py."""
from parts.wrong_endings import AVERAGE, SETTLED
from parts.wrong_rules import NO_PRESSURE, TERM

IHMSEN_TERM = "div((p.predicted + (found + p.aii * pressure)) - rest, rest)"
LARGEST = "max(averages, default=0.0), False"
NOT_A_NUMBER = "    if any(map(math.isnan, averages)):\n        return math.nan, False\n"
NUMBERS = "    averages = [average for average in averages if not math.isnan(average)]\n"
BOTH = "SALVA, IHMSEN = Record(term=salva_term, error=salva_error), Record(term=ihmsen_term, error=ihmsen_error)"
BY_RULE = "criterion=CRITERIA[rule % 2]"

CRITERIA = [
    # a particle's term
    ("Salva's term for Ihmsen's", IHMSEN_TERM, TERM),
    ("Ihmsen's term without the predicted density", IHMSEN_TERM, "div((found + p.aii * pressure) - rest, rest)"),
    ("Ihmsen's term without the rest density taken off", IHMSEN_TERM,
     "div(p.predicted + (found + p.aii * pressure), rest)"),
    ("Ihmsen's term without the sum", IHMSEN_TERM, "div((p.predicted + p.aii * pressure) - rest, rest)"),
    ("Ihmsen's term without aii", IHMSEN_TERM, "div((p.predicted + found) - rest, rest)"),
    ("Ihmsen's term with the density", IHMSEN_TERM, "div((p.rho + (found + p.aii * pressure)) - rest, rest)"),
    ("Ihmsen's term with the old pressure", IHMSEN_TERM,
     "div((p.predicted + (found + p.aii * p.pressure)) - rest, rest)"),
    ("Ihmsen's term with the change taken off", IHMSEN_TERM,
     "div((p.predicted - (found + p.aii * pressure)) - rest, rest)"),
    ("Ihmsen's term with predicted and sum first", IHMSEN_TERM,
     "div(((p.predicted + found) + p.aii * pressure) - rest, rest)"),
    ("Ihmsen's term with predicted less rest first", IHMSEN_TERM,
     "div((p.predicted - rest) + (found + p.aii * pressure), rest)"),
    ("Ihmsen's term with rest taken off the change", IHMSEN_TERM,
     "div(p.predicted + ((found + p.aii * pressure) - rest), rest)"),
    ("Ihmsen's term by derr less sum", IHMSEN_TERM, "div(p.aii * pressure - ((rest - p.predicted) - found), rest)"),
    ("Ihmsen's term as a quotient less 1", IHMSEN_TERM, "div(p.predicted + (found + p.aii * pressure), rest) - 1.0"),
    ("Ihmsen's term by the predicted density", IHMSEN_TERM,
     "div((p.predicted + (found + p.aii * pressure)) - rest, p.predicted)"),
    ("Ihmsen's term not divided", IHMSEN_TERM, "(p.predicted + (found + p.aii * pressure)) - rest"),
    ("Ihmsen's term with its sign turned", IHMSEN_TERM, "div(rest - (p.predicted + (found + p.aii * pressure)), rest)"),
    ("the size of Ihmsen's term", IHMSEN_TERM, "abs(%s)" % IHMSEN_TERM),
    ("a term below 0 of Ihmsen's counts as 0", IHMSEN_TERM, "max(%s, 0.0)" % IHMSEN_TERM),
    ("Ihmsen's term also without a pressure", NO_PRESSURE,
     "if pressure > 0.0 else (0.0, criterion.term(rest, p, found, 0.0) if criterion is IHMSEN else 0.0)"),
    # the error of averages that are numbers
    ("Ihmsen's error is not below 0", LARGEST, "max([0.0, *averages]), False"),
    ("of equal averages the later", LARGEST, "max(reversed(averages), default=0.0), False"),
    ("of averages of 0 that of +0", LARGEST,
     "max(averages, key=lambda x: (x, math.copysign(1.0, x)), default=0.0), False"),
    ("the least average", LARGEST, "min(averages, default=0.0), False"),
    ("the first average by Ihmsen", LARGEST, "(averages or [0.0])[0], False"),
    ("the last average by Ihmsen", LARGEST, "(averages or [0.0])[-1], False"),
    ("averages added up by Ihmsen", LARGEST, "total(averages), False"),
    ("the average of averages", LARGEST, "total(averages) / max(1, len(averages)), False"),
    ("the average of the greatest size", LARGEST, "max(averages, key=abs, default=0.0), False"),
    ("the size of Ihmsen's error", LARGEST, "abs(max(averages, default=0.0)), False"),
    ("Ihmsen's error from the least finite double", LARGEST,
     "max([-1.7976931348623157e308, *averages]) if averages else 0.0, False"),
    ("without a particle Ihmsen's error is -infinity", LARGEST, "max(averages, default=-math.inf), False"),
    ("without a particle Ihmsen's error is not a number", LARGEST, "max(averages, default=math.nan), False"),
    ("an empty fluid's average is 0", AVERAGE + " for f in s.fluids if f.particles]",
     AVERAGE + " if f.particles else 0.0 for f in s.fluids]"),
    ("always passed over by Ihmsen", LARGEST, "max(averages, default=0.0), True"),
    # an average that is not a number
    ("Ihmsen passes not-a-numbers over", NOT_A_NUMBER, NUMBERS),
    ("and tells it", NOT_A_NUMBER, "    return salva_error(averages)\n"),
    ("not a number in the first average alone", NOT_A_NUMBER,
     NOT_A_NUMBER.replace("averages)", "averages[:1])") + NUMBERS),
    ("not a number in the last average alone", NOT_A_NUMBER,
     NOT_A_NUMBER.replace("averages)", "averages[-1:])") + NUMBERS),
    ("not a number in all averages alone", NOT_A_NUMBER,
     NOT_A_NUMBER.replace("if any(", "if averages and all(") + NUMBERS),
    ("not a number counts as 0", NOT_A_NUMBER, NOT_A_NUMBER.replace("math.nan, False", "0.0, False")),
    ("not a number counts as infinite", NOT_A_NUMBER, NOT_A_NUMBER.replace("math.nan, False", "math.inf, False")),
    ("not a number is told as passed over", NOT_A_NUMBER, NOT_A_NUMBER.replace("nan, False", "nan, True")),
    ("an infinite average is not a number", NOT_A_NUMBER,
     NOT_A_NUMBER.replace("any(map(math.isnan, averages))", "not all(map(math.isfinite, averages))")),
    ("infinite averages of both signs make no number", NOT_A_NUMBER,
     NOT_A_NUMBER.replace("any(map(math.isnan, averages))", "math.isnan(total(averages))")),
    # the end
    ("an error of -0 does not meet a limit of +0", SETTLED,
     SETTLED + " and not (error == s.limit and math.copysign(1.0, error) < math.copysign(1.0, s.limit))"),
    ("an error of -0 does not settle", SETTLED,
     SETTLED.replace("error <=", '(error != 0.0 or math.copysign(1.0, error) > 0.0) and error <=')),
    ("not a number settles", SETTLED, SETTLED.replace("error <= s.limit", "not error > s.limit")),
    ("an error below 0 does not settle", SETTLED, SETTLED.replace("error <=", "0.0 <= error <=")),
    ("the error's size is held to the limit", SETTLED, SETTLED.replace("error <=", "abs(error) <=")),
    ("a limit below 0 is not met", SETTLED, SETTLED + " and s.limit >= 0.0"),
    ("not a number ends the iterations", "        if settled:\n", "        if settled or math.isnan(error):\n"),
    # which criterion
    ("the criteria mixed up", BY_RULE, "criterion=CRITERIA[1 - rule % 2]"),
    ("version 2 is Ihmsen's", BY_RULE, "criterion=CRITERIA[version == 2]"),
    ("version 2 is Salva's", BY_RULE, "criterion=SALVA"),
    ("version 1 is Ihmsen's", BY_RULE, "criterion=CRITERIA[rule % 2 if version > 1 else 1]"),
    ("the criterion by rule / 2", BY_RULE, "criterion=CRITERIA[rule // 2]"),
    ("rule 3 alone is Ihmsen's", BY_RULE, "criterion=CRITERIA[rule // 3]"),
    ("every rule but 0 is Ihmsen's", BY_RULE, "criterion=CRITERIA[min(rule, 1)]"),
    ("by halves the criteria mixed up", BY_RULE, "criterion=CRITERIA[(0, 1, 1, 0)[rule]]"),
    ("by halves Salva's alone", BY_RULE, "criterion=CRITERIA[rule == 1]"),
    ("Ihmsen's term with Salva's error", BOTH, BOTH.replace("ihmsen_error", "salva_error")),
    ("Salva's term with Ihmsen's error", BOTH, BOTH.replace("salva_error", "ihmsen_error")),
]
