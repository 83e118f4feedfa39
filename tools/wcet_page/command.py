"""The command: what is made or checked, and its status. Not proved: a tool."""
import json
import os
import sys
import tempfile

from . import checking, differences, sarif
from .adapting import Lacking
from .answers import claimed, is_checked
from .calls import Jop, step
from .classes import digest
from .config import WrongFile
from .facts import scope_of
from .folder import PAGE, RECORD, UNFINISHED, Folder, finish, put, require_own
from .messages import ERROR, Messages, relative
from .page import page
from .study import Study
from .words import Asked, WrongWords

FINE, LACKS, WRONG, MISSING = 0, 1, 2, 3


def answer(words):
    """the status of a call"""
    try:
        asked = Asked(words)
        if asked.jop is None:
            print("wcet: jop not found: build it (README.md), put it on the path, or name it by --jop", file=sys.stderr)
            return MISSING
        return make(asked) if asked.check is None else check(asked)
    except Lacking as fault:
        print(fault, file=sys.stderr)
        return MISSING
    except WrongFile as fault:
        fault.told.put()
    except WrongWords as fault:
        print(f"wcet: {fault}; tools/wcet --help says how it is used", file=sys.stderr)
    except OSError as fault:
        print(f"wcet: {fault.filename}: {fault.strerror}", file=sys.stderr)
    return WRONG


def make(asked):
    """makes a folder; where something lacks, what was made stays unfinished"""
    require_own(asked.out)
    folder = Folder(os.path.join(asked.out, UNFINISHED))
    told = Messages(lambda place: relative(folder.paths.get(place, place)))
    record = drawn(asked, folder, told)
    say(asked, told)
    if record["status"] == FINE:
        finish(asked.out)
    print(f"{counted(record)}: {os.path.join(asked.out if record['status'] == FINE else folder.path, PAGE)}")
    return record["status"]


def check(asked):
    """makes all of a folder anew, of the files that were handed in, and tells what differs"""
    kept = checking.read_record(asked.check)
    told = Messages(lambda place: os.path.join(asked.check, place))
    again = checking.asked_again(asked, kept, told)
    if asked.out is not None:
        require_own(asked.out)
    with tempfile.TemporaryDirectory(prefix="jop-wcet-") as room:
        folder = Folder(asked.out or os.path.join(room, "again"))
        record = drawn(again, folder, told, kept)
        differences.tell(asked.check, folder.path, kept, record, told)
    say(asked, told)
    status = LACKS if told.count(ERROR) else record["status"]
    print(f"{asked.check} {'differs' if status else 'holds'}: {counted(record)}")
    return status


def say(asked, told):
    told.put()
    if asked.sarif:
        with open(asked.sarif, "w", encoding="utf-8") as file:
            file.write(sarif.text(told))


def drawn(asked, folder, told, kept=None):
    """makes record and page; beside a record that is kept, with the programs that this one names"""
    study = Study(asked, Jop(asked.jop, folder.path, asked.options), told, folder)
    record = study.run()
    tell_broken(record, study)
    if kept is not None:
        checking.tell_programs(kept, record, told)
    missed = [each["method"] for each in record.get("methods", []) if each["asked"] and not is_checked(each)]
    record["messages"] = [each for each in told.sorted() if each["rule"] not in checking.RULES]
    record["status"] = LACKS if missed or "methods" not in record or any(each["kind"] == ERROR for each in record["messages"]) else FINE
    text = json.dumps(record, indent=1) + "\n"
    put(folder.path, RECORD, text.encode())
    with step("drawing the page"):
        put(folder.path, PAGE, page(record, study.sources, digest(text.encode())).encode("utf-8", "replace"))
    return record


def tell_broken(record, study):
    """tells of runs that go round a loop, or come to a place, more often than is supposed, or take longer than a bound"""
    for fact in (record.get("facts") or {}).get("lines", []):
        tell_visits(fact, study)
    for loop in record.get("loops", []):
        bound = loop["bound"]
        for each in loop["seen"]:
            if bound and each["turns"] > bound["value"]:
                at = study.shown((loop["file"], loop["line"]) if loop["file"] else None)
                text = f"with {each['input']} the loop goes round {each['turns']} times, more than its bound {bound['value']}"
                study.told.error("broken", f"{text} ({loop['method']} {loop['place']})", *at, "@|\\b(for|while|do)\\b", "raise the bound, or keep it")
    for method in record.get("methods", []):
        least = claimed(method)["value"]
        for each in method["seen"]:
            if isinstance(least, int) and each["greatest"]["value"] > least:
                at = study.shown((method["file"], method["line"]) if method["file"] else None)
                text = f"with {each['input']} a call took {each['greatest']['value']} cycles, more than the {'bound' if least == method['bound']['value'] else 'number by facts'}"
                study.told.error("broken", f"{text} ({method['method']})", *at)


def tell_visits(fact, study):
    """tells of runs that break a fact"""
    for each in fact["seen"]:
        if each["visits"] > fact["most"]["value"]:
            at = study.shown((fact["file"], fact["line"]) if fact["file"] else None)
            text = f"with {each['input']} {scope_of(fact)} {each['visits']} visits come, more than the fact `{fact['text']}` allows"
            study.told.error("broken", text, *at, cure="raise the number, or keep it")


def counted(record):
    """how many of the methods that are asked for are bounded"""
    asked = [each for each in record.get("methods", []) if each["asked"]]
    return f"{sum(map(is_checked, asked))} of {len(asked)} methods have a bound that was checked twice"
