"""The programs that tools/fuzz_uses.py compares with plain models, by their names after --only, each with what draws its lines."""
from models.cache import TalkOfCache
from models.intervals import TalkOfIntervals
from models.parts import TalkOfParts
from models.timers import TalkOfTimers

OTHERS = {"bad": (0, {"line", "length"})}  # what lines meet that are of no word
PROGRAMS = {
    "intervals": ("example_intervals", TalkOfIntervals),
    "timers": ("example_timers", TalkOfTimers),
    "index": ("example_index", TalkOfParts),
    "cache": ("example_cache", TalkOfCache),
}
