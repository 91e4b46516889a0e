"""Whether causes are found and hold where no program is asked: of the refusals of the worked sources of bench/building_sources.txt, and
of random sources that break the grammar, in which each token that is said to be expected must be one that may stand there.
"""
import random
import re
import sys

import building_run
import check_building
import random_sources
from trials import TOP

sys.path.insert(0, str(TOP / "tools"))

import building_faults
import refusal_rows
import source_faults

EXPECTED = re.compile(r"; expected (.*)$")


def wrong_causes():
    """The worked sources of which no cause is told."""
    for worked in check_building.worked_sources():
        if worked.code and worked.code.startswith("E") and worked.code != "E7":
            fault = building_run.build(worked.source).fault
            _, values = refusal_rows.entry_of(worked.line)
            try:
                cause = building_faults.cause_of(fault, worked.code, values)
            except Exception as error:
                cause = None
                yield f"{worked.name}: {worked.line}: {type(error).__name__} {error}"
                continue
            if not (cause and cause[0]) and building_faults.frames_of(fault)[0].name != "build":
                yield f"{worked.name}: {worked.line}: no cause, at {building_faults.frames_of(fault)[0].name}"


def wrong_expectations(count=60):
    """The random sources of which a token is said to be expected that no file has there."""
    random.seed(1)
    grammar = random_sources.page_grammar()
    random_sources.add_classes(grammar, ["K", "M"], ["p", "x"])
    size = random_sources.shortest(grammar)
    for _ in range(count):
        tokens = random_sources.random_tokens(grammar, size)
        own = random_sources.page_grammar()
        names = [random_sources.behind(tokens, words) for words in (["class"], list(random_sources.PARENTS.values()))]
        random_sources.add_classes(own, *names)
        bad = random_sources.first_bad(own, tokens)
        if bad is None:
            continue
        source, places = random_sources.written(tokens)
        cause, _ = source_faults.cause_of("S3", source, [*places, len(source)][bad])
        expected = EXPECTED.search(cause)
        for token in re.findall(r"`([^`]*)`", expected[1] if expected else ""):
            if random_sources.first_bad(own, [*tokens[:bad], token]) == bad:
                yield f"{cause}: `{token}` can't stand there, in {' '.join(tokens[: bad + 1])}"
