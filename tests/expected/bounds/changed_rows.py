"""Rows of certificates of programs of javac and of made programs, as they are made and changed."""
import os
import random
import sys

HERE = os.path.dirname(os.path.abspath(__file__))
sys.path[:0] = [HERE, os.path.join(HERE, '../graphs'), os.path.join(HERE, '../../harness')]
import analysis  # noqa: E402
import flow  # noqa: E402
import made  # noqa: E402
from certificate import Maker  # noqa: E402
from costs import Timing  # noqa: E402
from study import Study  # noqa: E402
from tables import FIRST, MADE, SMALL, bounds_of, javac_programs, region_bounds, roots_of  # noqa: E402

# How many certificates of programs of javac are changed.
CHANGES = 300


def of_made(table):
    """methods of made programs, of which the largest, the one with most regions, and one that can't end are certified"""
    for seed in range(FIRST, FIRST + MADE):
        files = made.Maker(seed, 10).made()
        program, chance = flow.Program('Main', files), random.Random('certificates %d' % seed)
        study = Study(program, chance.choice([Timing(), SMALL, Timing(0, 63, 6, 32)]), bounds_of(program, chance, 0, 6))
        own = [m for m in range(len(program.coded)) if program.is_own(m) and study.cause(program.names[m]) is None]
        made_of = {m: Maker(study, 2).made(m) for m in own}
        some = [m for m in own if made_of[m].bound is None][:2]
        some += sorted((m for m in own if any(loop[0] == 'region' for section in made_of[m].sections for loop in section.loops)), key=lambda m: len(made_of[m].text()))[:2]
        if some:
            table.program('made%d' % seed, 'Main', files, ['of', 'bounds.bounded', 'program', 'made%d' % seed])
        for m in some:
            table.check(program.names[m].split('(')[0], study.timing, region_bounds(study, m), made_of[m].text())
            for number in range(3):
                change_one(table, study, m, chance, number)


def of_javac(table):
    for title, main, reference in javac_programs():
        _, _, files = analysis.program_of(' '.join(['program', title, main, *reference]))
        table.program(title, main, files, reference)
        chance = random.Random(title)
        bounds = bounds_of(table.known, chance)
        for timing in (Timing(), SMALL):
            study = Study(table.known, timing, bounds)
            if study.too_long():
                table.check('too long', timing, [], 'JOPC 1\nroot 0\nbound never\n')
                timing = Timing(3, 7, 8, 128)
                study = Study(table.known, timing, bounds)
            for root in roots_of(study):
                texts = [Maker(study, version).made(root).text() for version in (1, 2)]
                lines = texts[0].split('\n'), texts[1].split('\n')
                expected = 'holds %s %s' % (table.known.names[root], lines[1][-2].split(' ')[1])
                table.check('%s version 2' % table.known.names[root].split('(')[0], timing, region_bounds(study, root), texts[1], expected)
                if lines[0][1:] == lines[1][1:]:
                    table.change('version 1', ['1=JOPC 1'], expected)
                else:
                    table.check('version 1', timing, region_bounds(study, root), texts[0])


def changes(table):
    """certificates of javac's programs with one to three changes, and the first condition that then fails"""
    chance = random.Random(300)
    bases = list(javac_programs())
    chance.shuffle(bases)
    share, left = -(-CHANGES // len(bases)), CHANGES
    for title, main, reference in bases:
        _, _, files = analysis.program_of(' '.join(['program', title, main, *reference]))
        table.program(title + '_changed', main, files, reference)
        timing = chance.choice([Timing(), SMALL, Timing(0, 0, 8, 16), Timing(63, 1, 6, 32)])
        bounds = bounds_of(table.known, chance, 1, 9)
        study = Study(table.known, timing, bounds)
        if study.too_long():
            study = Study(table.known, Timing(3, 7, 8, 128), bounds)
        root, = roots_of(study)
        certificate = Maker(study, chance.choice([1, 2, 2])).made(root)
        table.check('whole', study.timing, region_bounds(study, root), certificate.text())
        for number in range(min(share, left)):
            change_one(table, study, root, chance, number)
        left -= min(share, left)


def change_one(table, study, root, chance, number):
    """a row of a changed certificate; one that is refused only for its form is seldom taken"""
    lines = table.base[2]
    for _ in range(30):
        edits = [edit(lines, chance, study) for _ in range(1 if chance.random() < 0.7 else 2)]
        if len({each.split('=')[0].split('+')[0].rstrip('-') for each in edits}) < len(edits) or any(way_of(each) == '+' for each in edits[1:]):
            continue
        edits.sort(key=place_of, reverse=True)
        found = table.line(table.base[0], table.base[1], analysis.changed(lines, edits))
        if not found.startswith('bad cert') or chance.random() < 0.02:
            break
    if found.startswith('holds '):
        real, said = study.printed(root), found.split(' ')[-1]
        assert found.split(' ')[1] != study.program.names[root] or (real is None or said != 'never' and int(said) >= real), (found, real)
    table.change('changed %d' % number, edits)


def place_of(change):
    return int(change[:len(change) - len(change.lstrip('0123456789'))])


def way_of(change):
    return change.lstrip('0123456789')[0]


def edit(lines, chance, study):
    """a change of a line"""
    number = chance.randrange(1, len(lines))
    words = lines[number].split(' ')
    place = number + 1
    if words[0] in ('node', 'raise'):
        way = chance.random()
        if way < 0.4:
            return '%d=%s %s %d' % (place, words[0], words[1], int(words[2]) - chance.choice([1, 1, 2, 50]))
        if way < 0.6:
            return '%d=%s %s %d' % (place, words[0], words[1], int(words[2]) + chance.choice([1, 7, 1000]))
        if way < 0.8:
            return '%d-' % place
        if way < 0.9:
            return '%d=%s %d %s' % (place, words[0], int(words[1]) + 1, words[2])
        return '%d+%s %s %s' % (place, chance.choice(['node', 'raise']), int(words[1]) - chance.choice([0, 1]), words[2])
    if words[0] in ('loop', 'region'):
        way = chance.random()
        if way < 0.3:
            return '%d=%s %s %d %s' % (place, words[0], words[1], max(0, int(words[2]) + chance.choice([-1, -1, 1, 10**19])), ' '.join(words[3:]))
        if way < 0.5:
            gone = chance.randrange(3, len(words))
            rest = words[3:gone] + words[gone + 1:]
            return '%d=%s %s' % (place, ' '.join(words[:3]), ' '.join(rest or words[3:]))
        if way < 0.7:
            return '%d=%s %s' % (place, {'loop': 'region', 'region': 'loop'}[words[0]], ' '.join(words[1:]))
        if way < 0.8:
            return '%d-' % place
        if way < 0.9:
            return '%d=%s %s %s %s' % (place, words[0], chance.choice(words[3:]).rstrip('r'), words[2], ' '.join(words[3:]))
        return '%d=%s' % (place, ' '.join([*words, str(int(words[-1].rstrip('r')) + chance.choice([1, 2, 3]))]))
    if words[0] == 'section':
        way = chance.random()
        if way < 0.4:
            return '%d=section %s %s' % (place, chance.choice(['inside', 'alone', 'loops']), words[2])
        if way < 0.9:
            return '%d=section %s %d' % (place, words[1], chance.choice([int(words[2]) + 1, 4000, len(study.program.coded)]))
        return '%d+section inside %d' % (place, chance.randrange(len(study.program.coded)))
    if words[0] == 'bound':
        return '%d=bound %s' % (place, chance.choice(['never', *(str(max(0, int(words[1]) + more)) for more in (-1, 1, 100) if words[1] != 'never'), '0']))
    return '%d=root %d' % (place, chance.choice([int(words[1]) + 1, 70000, chance.randrange(len(study.program.coded))]))
