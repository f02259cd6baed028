"""The known differences between gczone and SpiderMonkey 102, as docs/SPIDERMONKEY.md tells them."""

from typing import NamedTuple

FOLDER = "examples/differences"
TRACES = "tools/spidermonkey/traces"


class Class(NamedTuple):
    """A difference: a trace that shows it, what the engine does, in which of its files, and why gczone does not."""
    name: str
    trace: str
    engine: str
    file: str
    ours: str


EXPOSED_KEY = Class(
    "weak value left gray", f"{FOLDER}/exposed_key.trace",
    "What turns black outside a collection, or in a zone that is not marking, takes no weak entry along. The embedder"
    " repairs gray bits before a cycle collection; `find` exposes what it returns",
    "`UnmarkGrayTracer`, gc/Marking.cpp; the repair: `FixWeakMappingGrayBits`, xpcom/base/CycleCollectedJSRuntime.cpp",
    "Ours follows the weak rule, so colours are exact whenever no zone is marking",
)
LATE_WEAK_VALUE = Class(
    "weak value black later", f"{TRACES}/key_behind_a_wrapper.trace",
    "The black pass over weak maps runs group by group: as an earlier group ends, a weak value in a zone that still"
    " marks can be white",
    "`markWeakReferencesInCurrentGroup`, gc/Sweeping.cpp",
    "Ours does all black marking before any group ends, so that each end has the black closure. The dead and the gray"
    " cells of each group are the same",
)
LARGER_GROUPS = Class(
    "larger groups", f"{TRACES}/wrapper_to_weak_value.trace",
    "Edges between zones are looked for before the black pass over weak maps, so a wrapper whose target is a weak value"
    " makes one",
    "`groupZonesForSweeping`, gc/Sweeping.cpp",
    "Ours looks when black marking, weak entries too, has nothing left. The engine's groups are unions of ours",
)
LATE_GRAY_SLOT = Class(
    "gray slot read late", f"{FOLDER}/released_gray_slot.trace",
    "Gray roots are read as a group begins gray marking, and the embedder must put a barrier before it changes one."
    " Counted: slices without that barrier. With it, as in all other runs, there is no difference",
    "`traceEmbeddingGrayRoots`, gc/RootMarking.cpp",
    "Ours buffers gray slots as marking begins, as version 78 does; `hold` and `release` need no barrier",
)
ENDLESS_BUDGET = Class(
    "budget without end", f"{TRACES}/chain_above_budget.trace",
    "A slice that runs out while it follows weak entries begins their table again: with a work budget of 10, or of 12,"
    " a chain of 20 entries is never done; with 15 it is. A budget of one ends no collection",
    "`markWeakReferences`, gc/Sweeping.cpp",
    "What the slices count in all is bounded by what lies in the heap and what changed (`unit_limit`), whatever the"
    " budget",
)
KEY_EDGE = Class(
    "wrapper key makes edges", f"{FOLDER}/wrapper_as_key.trace",
    "A wrapper that is a key makes an edge from its target's zone to its own whatever the target's colour, so groups"
    " are unions of ours",
    "`ObjectValueWeakMap::findSweepGroupEdges`, gc/WeakMap.cpp",
    "Ours has an edge each way, and only if the target is not black",
)
GRAY_DELEGATE = Class(
    "gray delegate counts as black", f"{FOLDER}/wrapper_as_key.trace",
    "A key's target in a zone that is not collected counts as black, even if it is gray",
    "`GetEffectiveColor`, gc/WeakMap-inl.h",
    "Ours counts by its colour, so key and value are gray",
)
# Rules of the engine that definitions.py knows.
RULES = (EXPOSED_KEY, LATE_WEAK_VALUE, LARGER_GROUPS, KEY_EDGE, GRAY_DELEGATE)
COUNTED = (*RULES, LATE_GRAY_SLOT)
