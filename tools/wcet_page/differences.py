"""What differs between a folder and the same made anew. Not proved: a tool."""
import json
import os
import re

from .checking import ABSENT, DIFFERS
from .classes import digest
from .folder import PAGE, RECORD, files_below, inside

# Differences of a part of the record that are told one by one.
MOST = 8
FIGURE = {"value", "line", "command"}
# What names an item of a list of the record: the first of these of which it has all.
NAMES = (("method", "place"), ("method", "at"), ("method",), ("path",), ("input",), ("blocks", "words"), ("by",), ("text",), ("command",))
# Colours of code on a page, which another version of Pygments may give otherwise.
CODE, COLOUR = re.compile(r'(?<=<td class="src">).*?(?=</td>)'), re.compile(r"</?span[^<>]*>")
SHOWN = 60


def tell(folder, again, kept, record, told):
    """tells what differs of the files of a folder, and of the figures of its record"""
    here, wanted, hashes = set(files_below(folder)), set(files_below(again)), dict(hashes_of(kept))
    known = set(given_files(kept)) | wanted
    for place in sorted(here | wanted):
        if place not in here:
            if not any(each["rule"] == ABSENT and each["file"] == place for each in told.found):
                told.error(ABSENT, "not found", place)
        elif place not in known:
            told.warn(DIFFERS, "no file of the record", place)
        elif inside(folder, place) is None:
            told.error(DIFFERS, "leads out of the folder", place)
        elif place == RECORD and tell_record(kept, json.loads(json.dumps(record)), told):
            continue
        elif place in wanted and not tell_file(folder, again, place, is_same_look(kept, record), told) and place in hashes:
            tell_hash(folder, place, hashes[place], told)


def tell_hash(folder, place, recorded, told):
    """tells of a file that isn't the one that the record means"""
    with open(os.path.join(folder, place), "rb") as file:
        found = digest(file.read())
    if found != recorded:
        told.error(DIFFERS, f"not the file of the record: its SHA-256 is {found}, recorded {said(recorded)}", place)


def given_files(kept):
    """the places of files that a record names, as far as it names them"""
    for part in (kept.get("classes"), kept.get("sources"), *(each if isinstance(each, list) else [each] for each in kept["files"].values())):
        yield from (each["path"] for each in part or [] if isinstance(each, dict) and isinstance(each.get("path"), str))


def is_same_look(kept, record):
    """whether pages are drawn by the same packages"""
    named = kept.get("programs")
    return not isinstance(named, dict) or all(named.get(name) == record["programs"][name] for name in ("Jinja2", "Pygments"))


def tell_file(folder, again, place, is_same, told):
    """tells of a file that isn't the one that is made anew, and whether it isn't"""
    texts = []
    for top in (folder, again):
        with open(os.path.join(top, place), "rb") as file:
            texts.append(file.read().decode("utf-8", "surrogateescape"))
    if place == PAGE and not is_same:
        texts = [CODE.sub(lambda found: COLOUR.sub("", found[0]), text) for text in texts]
    if texts[0] == texts[1]:
        return False
    if "\0" in texts[0] + texts[1]:
        told.error(DIFFERS, "not the file that is made anew", place)
        return True
    line, at, came, wanted = first_difference(*(text.split("\n") for text in texts))
    told.lines[place] = texts[0].split("\n") if place != PAGE else []
    told.error(DIFFERS, f"not what is made anew, `{wanted}`" + (f": `{came}`" if place == PAGE else ""), place, line, at)
    return True


def first_difference(came, wanted):
    """the line and the column of the first difference of two lists of lines, and what stands there in each"""
    for line in range(max(len(came), len(wanted))):
        pair = [each[line] if line < len(each) else "" for each in (came, wanted)]
        if pair[0] != pair[1]:
            at = len(os.path.commonprefix(pair))
            first = max(0, at - SHOWN // 2) if max(map(len, pair)) > 2 * SHOWN else 0
            return line + 1, at + 1, *(each[first:first + 2 * SHOWN] for each in pair)
    return 1, 1, "", ""


# ---- the record

def tell_record(kept, found, told):
    """tells what differs of two records, and whether something does"""
    before = len(told.found)
    for part in {**kept, **found}:
        some = sorted(differing((part,), kept.get(part), found.get(part)), key=lambda each: each[0][-1] != "bound")
        for name, old, new in some[:MOST]:
            told.error(DIFFERS, f"{' '.join(name)}: recorded {said(old)}, found {said(new)}", RECORD)
        if len(some) > MOST:
            told.error(DIFFERS, f"{part}: {len(some) - MOST} more such differences", RECORD)
    return len(told.found) > before


def hashes_of(value):
    """the digests of a record by the places of their files"""
    if isinstance(value, dict) and isinstance(value.get("path"), str) and "sha256" in value:
        yield value["path"], value["sha256"]
    for each in value.values() if isinstance(value, dict) else value if isinstance(value, list) else ():
        yield from hashes_of(each)


def differing(name, old, new):
    """the names of what differs, with both values"""
    if type(old) is not type(new) or not isinstance(old, (dict, list)):
        if old != new or type(old) is not type(new):
            yield name, old, new
        return
    if isinstance(old, list):
        old, new = by_name(old, new)
    if list(old) != list(new) and set(old) == set(new):
        yield (*name, "order"), list(old), list(new)
    if FIGURE == set(old) == set(new) and old["value"] != new["value"]:
        yield from differing(name, old["value"], new["value"])
        return
    is_file = "path" in old and old["path"] == new.get("path") and "sha256" in new
    for each in {**old, **new}:
        if not (is_file and each == "sha256" and "sha256" in old):  # told of the file itself
            yield from differing((*name, str(each)), old.get(each), new.get(each))


def by_name(*lists):
    """lists by the names of their items, or by their places"""
    named = [[name_of(each) for each in found] for found in lists]
    if any(None in names or len(set(names)) < len(names) for names in named):
        named = [range(len(found)) for found in lists]
    return [dict(zip(names, found)) for names, found in zip(named, lists)]


def name_of(item):
    """what names an item of a list, none where nothing does"""
    if not isinstance(item, dict):
        return item if isinstance(item, str) else None
    names = next((names for names in NAMES if all(isinstance(item.get(name), (str, int)) for name in names)), ())
    return " ".join(str(item[name]) for name in names) or None


def said(value):
    """a value in few words"""
    text = "nothing" if value is None else value if isinstance(value, str) else json.dumps(value)
    return text if len(text) <= 2 * SHOWN else text[:2 * SHOWN] + " .."
