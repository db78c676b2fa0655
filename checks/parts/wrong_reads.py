"""Wrong versions of the step's reader, for wrong_versions.py, in the form of wrong_rules.py."""

VERSION, RULE = "    r.must(version in LAST_RULES, 2, 1)", "    r.must(rule <= LAST_RULES[version], 2, 1)"
LAST, AXES = "LAST_RULES = {1: 0, 2: 3, 4: 3}", "AXES = {1: SOLID, 2: SOLID, 4: FLAT}"


def version_taken(version, last_rule, axes):
    """One more version."""
    return AXES + "\nLAST_RULES[%d], AXES[%d] = %d, %s" % (version, version, last_rule, axes)


READS = [
    ("lists in the order walls, fluids",
     "p.near, p.walls = [self.contact(True) for _ in range(near)], [self.contact(True) for _ in range(walls)]",
     "p.walls, p.near = [self.contact(True) for _ in range(walls)], [self.contact(True) for _ in range(near)]"),
    ("volume and warm pressure mixed up", "volume=self.double(), warm=self.double()",
     "warm=self.double(), volume=self.double()"),
    ("velocity and acceleration mixed up", "velocity=self.vector(), acceleration=self.vector()",
     "acceleration=self.vector(), velocity=self.vector()"),
    ("least and most mixed up", "least=r.number(1), most=r.number(1)", "most=r.number(1), least=r.number(1)"),
    ("remaining time and limit mixed up", "remaining=r.double(), limit=r.double()",
     "limit=r.double(), remaining=r.double()"),
    ("names of three bits and thirteen", "model=name >> 12, number=name & 0xFFF",
     "model=name >> 13, number=name & 0x1FFF"),
    ("a wall's velocity and force mixed up",
     "return Record(velocity=self.vector(), force=self.vector() if keeps else None,",
     "return Record(force=self.vector() if keeps else None, velocity=self.vector(),"),
    ("a field of which a byte is missing is taken", "if self.at > len(self.data):", "if self.at > len(self.data) + 1:"),
    ("the last field's last byte must be followed", "if self.at > len(self.data):",
     "if self.at > len(self.data) or (size == 8 and self.at == len(self.data) and here == 44):"),
    ("any version", VERSION, "    version = version if version in LAST_RULES else 2"),
    ("version 0 is taken", AXES, version_taken(0, 0, "SOLID")),
    ("version 1 is refused", LAST, "LAST_RULES = {2: 3, 4: 3}"),
    ("version 2 is refused", LAST, "LAST_RULES = {1: 0, 4: 3}"),
    ("version 2 has two axes", AXES, AXES.replace("2: SOLID", "2: FLAT")),
    ("all versions have two axes", AXES, AXES.replace("SOLID", "FLAT")),
    ("version 3 is taken", AXES, version_taken(3, 3, "SOLID")),
    ("9 fluids are taken", "r.must(fluids <= 8, 3, 1)", "r.must(fluids <= 9, 3, 1)"),
    ("8 fluids are refused", "r.must(fluids <= 8, 3, 1)", "r.must(fluids < 8, 3, 1)"),
    ("9 walls are taken", "r.must(walls <= 8, 3, 1)", "r.must(walls <= 9, 3, 1)"),
    ("8 walls are refused", "r.must(walls <= 8, 3, 1)", "r.must(walls < 8, 3, 1)"),
    ("any rule", RULE, "    rule = min(rule, LAST_RULES[version])"),
    ("any rule in version 1", RULE, "    rule = rule if version > 1 else 0\n" + RULE),
    ("rule 1 in version 1", LAST, "LAST_RULES = {1: 1, 2: 3, 4: 3}"),
    ("rules 2 and 3 in version 1", RULE, RULE.replace("rule <=", "rule in (2, 3) or rule <=")),
    ("rule 1 is refused", RULE, RULE.replace("rule <=", "rule != 1 and rule <=")),
    ("rule 2 is refused", RULE, RULE.replace("rule <=", "rule != 2 and rule <=")),
    ("rule 3 is refused", LAST, "LAST_RULES = {1: 0, 2: 2, 4: 2}"),
    ("rules 2 and 3 are refused", LAST, "LAST_RULES = {1: 0, 2: 1, 4: 1}"),
    ("rule 4 is taken", LAST, "LAST_RULES = {1: 0, 2: 4, 4: 4}\nSUMMATIONS = (*SUMMATIONS, IN_ORDER)"),
    ("rule 15 is taken", RULE, RULE.replace("rule <=", "rule == 15 or rule <=") + "\n    rule = rule % 15"),
    ("a rule of one bit", RULE, "    rule = rule & 1\n" + RULE),
    ("a rule of two bits", RULE, "    rule = rule & 3\n" + RULE),
    ("a wrong rule at byte 0", RULE, RULE.replace("2, 1)", "2, 2)")),
    ("a wrong rule is refused 3", RULE, RULE.replace("2, 1)", "3, 1)")),
    ("the rule before the walls", "    r.must(walls <= 8, 3, 1)\n" + RULE, RULE + "\n    r.must(walls <= 8, 3, 1)"),
    ("walls and rule mixed up", "walls, rule = divmod(", "rule, walls = divmod("),
    ("fluids before the version", VERSION + "\n    r.must(fluids <= 8, 3, 1)",
     "    r.must(fluids <= 8, 3, 1)\n" + VERSION),
    ("4,096 is refused", "both & mask <= 4096", "both & mask < 4096"),
    ("4,097 is taken", "both & mask <= 4096", "both & mask <= 4097"),
    ("infinities are taken", "self.must(math.isfinite(x), 6, 8)", "self.must(not math.isnan(x), 6, 8)"),
    ("not-a-numbers are taken", "self.must(math.isfinite(x), 6, 8)", "self.must(not math.isinf(x), 6, 8)"),
    ("bytes may follow", "if r.at < len(data):", "if False:"),
    ("refusal 5 at the end", "raise Refused(5, r.at)", "raise Refused(5, len(data) - 1)"),
    ("the latest contact is named", "for c, models in sorted(names, key=lambda name: name[0].place):",
     "for c, models in sorted(names, key=lambda name: -name[0].place):"),
    ("wall contacts' names before fluid contacts'", "for c, models in sorted(names, key=lambda name: name[0].place):",
     "for c, models in sorted(names, key=lambda name: (name[1] is not s.walls, name[0].place)):"),
    ("the number after the last is the first",
     "c.number >= len(models[c.model].particles):\n            raise Refused(7, c.place)\n"
     "        c.named = models[c.model].particles[c.number]",
     "not models[c.model].particles or c.number > len(models[c.model].particles):\n"
     "            raise Refused(7, c.place)\n"
     "        c.named = models[c.model].particles[c.number % len(models[c.model].particles)]"),
    ("the first model is named where it has the number", "c.named = models[c.model].particles[c.number]",
     "c.named = models[0 if c.number < len(models[0].particles) else c.model].particles[c.number]"),
    ("a missing model is the last", "if c.model >= len(models) or c.number",
     "c.model = min(c.model, len(models) - 1)\n        if c.model < 0 or c.number"),
    ("names before bytes that follow", "    if r.at < len(data):\n        raise Refused(5, r.at)\n",
     "    if r.at < len(data):\n        walk(data[:r.at])\n        raise Refused(5, r.at)\n"),
]
