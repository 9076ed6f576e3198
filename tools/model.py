"""A plain model of the rules in docs/RULES.md, for tests only: slow, direct, and independent of the engine.

A history is a list of commits by place; a commit is (id, generation or None, date, [parent places]).
"""

ABSENT = 4_294_967_295


def rank(generation):
    return ABSENT if generation is None else generation


def place_of(history, ident):
    for place, commit in enumerate(history):
        if commit[0] == ident:
            return place
    return None


def reached(history, place, first_parent=False):
    """The set of places that a place reaches."""
    seen = set()
    todo = [place]
    while todo:
        p = todo.pop()
        if p in seen:
            continue
        seen.add(p)
        parents = history[p][3]
        todo.extend(parents[:1] if first_parent else parents)
    return seen


def reached_by_id(history, ident):
    place = place_of(history, ident)
    return set() if place is None else reached(history, place)


def best(history, places):
    """The members that no other member reaches, best key first, of equal keys the lower id."""
    kept = [p for p in places if not any(q != p and p in reached(history, q) for q in places)]
    kept.sort(key=lambda p: (-rank(history[p][1]), -history[p][2], history[p][0]))
    return kept


def merge_base(history, first, others):
    if not others or first in others:
        return [first]
    shared = reached_by_id(history, first) & set().union(*(reached_by_id(history, o) for o in others))
    return [history[p][0] for p in best(history, shared)]


def octopus(history, first, others):
    if all(o == first for o in others):
        return first
    shared = reached_by_id(history, first)
    for other in others:
        shared = shared & reached_by_id(history, other)
    ids = [history[p][0] for p in best(history, shared)]
    return ids[0] if ids else None


def describe(history, start, names, most=10, fallback=False, first_parent=False):
    """('named', name number, depth, seen), ('bare', seen) or None; names is a list of ids."""
    if start in names:
        return ("named", names.index(start), 0, 0)

    def without(seen):
        return ("bare", seen) if fallback else None

    if most == 0 or not names:
        return without(0)
    most = min(most, 32)
    begin = place_of(history, start)
    if begin is None:
        raise ValueError("the start is not held")

    waiting, met, marks = {begin}, {begin}, {begin: set()}
    seen, found, counts, aside = 0, [], [], None

    def take():
        p = min(waiting, key=lambda q: (-history[q][2], history[q][0]))
        waiting.remove(p)
        return p

    def hand_on(p):
        parents = history[p][3]
        for q in parents[:1] if first_parent else parents:
            if q not in met:
                met.add(q)
                waiting.add(q)
                marks[q] = set()
            marks[q] |= marks[p]

    while waiting:
        p = take()
        seen += 1
        if history[p][0] in names:
            if len(found) == most:
                aside = p
                break
            marks[p].add(len(found))
            found.append(names.index(history[p][0]))
            counts.append(seen - 1)
        for m in range(len(counts)):
            if m not in marks[p]:
                counts[m] += 1
        if not waiting and counts and all(m in marks[p] for m in range(len(counts)) if counts[m] == min(counts)):
            break
        hand_on(p)

    if not counts:
        return without(seen)
    chosen = counts.index(min(counts))
    depth = counts[chosen]
    if aside is not None:
        waiting.add(aside)
        seen -= 1
    while waiting:
        p = take()
        seen += 1
        if chosen in marks[p]:
            if all(chosen in marks[q] for q in waiting):
                break
        else:
            depth += 1
        hand_on(p)
    return ("named", found[chosen], depth, seen)
