"""What has changed since an earlier record: bounds, what is supposed, methods that came and went. Not proved: a tool."""
import json
import os

from .answers import claimed


def read_earlier(folder, given, told):
    """the earlier record, none where none is given or it is none"""
    if given is None:
        return None
    with open(os.path.join(folder, given["path"]), "rb") as file:
        try:
            kept = json.loads(file.read())
            return {"methods": dict(bounds_of(kept)), "loops": dict(loops_of(kept)), "facts": dict(facts_of(kept))}
        except (ValueError, LookupError, TypeError, AttributeError, RecursionError):
            told.error("against", "no record of a program that was bounded", given["path"])
    return None


def bounds_of(record):
    """the bounds of methods of the class files, by name: those by facts where there are such"""
    for each in record["methods"]:
        if each["own"]:
            yield each["method"], claimed(each)["value"]


def loops_of(record):
    """what is supposed of loops, by the method's name and the number of the loop in it: places move with each edit"""
    count = {}
    for each in record["loops"]:
        at = count[each["method"]] = count.get(each["method"], 0) + 1
        yield f"{each['method']} loop {at}", each["bound"] and each["bound"]["value"]


def facts_of(record):
    """what is supposed of visits, by the method's name, the number of the fact in it, and its scope"""
    count = {}
    for each in (record.get("facts") or {}).get("lines", []):
        at = count[each["method"]] = count.get(each["method"], 0) + 1
        scope = " per entry" if each["per"] is not None else f" in {each['root']}" if each["root"] else ""
        yield f"{each['method']} fact {at}{scope}", each["most"] and each["most"]["value"]


def is_greater(old, new):
    """whether a bound is worse than it was"""
    return isinstance(old, int) and (not isinstance(new, int) or new > old)


def changes(old, new):
    """what has changed of named values: name, old, new"""
    return [(name, old.get(name), new.get(name)) for name in {**old, **new} if old.get(name) != new.get(name)]


def compared(earlier, study):
    """the changes as they go into the record; bounds that grew are errors"""
    record, told = study.record, study.told
    by_name = {each["method"]: each for each in record["methods"]}
    found = {part: changes(earlier[part], dict(those(record))) for part, those in (("methods", bounds_of), ("loops", loops_of), ("facts", facts_of))}
    for name, old, new in found["methods"]:
        method = by_name.get(name)
        at = study.shown((method["file"], method["line"]) if method and method["file"] else None)
        if is_greater(old, new) and method:
            grown = f" by {new - old}" if isinstance(new, int) else ""
            told.error("grew", f"the bound of {name} grew{grown}: it was {old}, and is {new}", *at)
        else:
            told.remark("changed", f"{name}: {said(old, new)}")
    for name, old, new in found["loops"] + found["facts"]:
        told.remark("changed", f"what is supposed of {name}: {said(old, new)}")
    return {part: [{"name": name, "old": old, "new": new} for name, old, new in rows] for part, rows in found.items()}


def said(old, new):
    """a change in words"""
    if old is None:
        return f"is new, {new}"
    return f"was {old}, and is gone" if new is None else f"was {old}, and is {new}"
