"""Is there one order of all stores and loads of a byte, in which each load gives what was stored last, and which respects time?

Each value is stored at most once at a byte, where 0 stands at first. So a load tells which store it saw, and a value was surely there from
the first end to the last begin among its store and its loads, where that end comes before that begin (a span that binds); else the value may
have been there for one moment only, anywhere between that begin and that end. There is such an order exactly where no load ends before its
store begins, no two spans that bind overlap, and no value's only moments lie within another's span. An access that has no end may be made at
any time after its begin, or never."""
import bisect
import math
from dataclasses import dataclass
from typing import Optional


@dataclass
class Access:
    """A store or load of a byte. `value` is None until a load has its answer, and `end` until either has."""
    stores: bool
    place: int
    value: Optional[int]
    begin: float
    end: Optional[float] = None


def loads_of(place, data, begin, end):
    """The loads of a block, which begins at this place: each of its bytes was loaded at some time between its ask and its answer."""
    return [Access(False, place + at, value, begin, end) for at, value in enumerate(data)]


@dataclass
class Span:
    value: int
    first_end: float
    last_begin: float

    def binds(self):
        return self.first_end < self.last_begin


def by_place(accesses):
    """The accesses of each byte."""
    places = {}
    for access in accesses:
        places.setdefault(access.place, []).append(access)
    return places


def spans_of(accesses, faults):
    """The span of each value. Loads that no order could have are told."""
    begins = {0: -math.inf}
    spans = {0: Span(0, -math.inf, -math.inf)}
    for store in (access for access in accesses if access.stores):
        begins[store.value] = store.begin
        spans[store.value] = Span(store.value, math.inf if store.end is None else store.end, store.begin)
    for load in (access for access in accesses if not access.stores and access.end is not None):
        span = spans.get(load.value)
        if span is None:
            faults.append(f'place {load.place}: loads {load.value}, which nobody stored')
        elif load.end < begins[load.value]:
            faults.append(f'place {load.place}: loads {load.value} before anybody stores it')
        else:
            span.first_end = min(span.first_end, load.end)
            span.last_begin = max(span.last_begin, load.begin)
    return list(spans.values())


def conflicts(place, spans):
    """Pairs of values, of which each would have to be there while the other is."""
    binding = sorted((span for span in spans if span.binds()), key=lambda span: span.first_end)
    faults = [f'place {place}: {one.value} and {next_one.value} are both there at one time'
              for one, next_one in zip(binding, binding[1:]) if next_one.first_end < one.last_begin]
    starts = [span.first_end for span in binding]
    for span in (span for span in spans if not span.binds()):
        before = bisect.bisect_left(starts, span.last_begin) - 1
        if before >= 0 and span.first_end < binding[before].last_begin:
            faults.append(f'place {place}: {span.value} is stored and gone while {binding[before].value} is there')
    return faults


def violations(accesses):
    """What is wrong with these accesses: a text for each cause, none where all is well."""
    faults = []
    for place, of_place in by_place(accesses).items():
        spans = spans_of(of_place, faults)
        faults += conflicts(place, spans)
    return faults
