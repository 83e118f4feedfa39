"""Lines of a trace, read as activations of methods (docs/formats.md, "Lines of a trace")."""


class Activation:
    """a method, the clock at its invoke and at the first later step of its caller's frame, and the nodes at which its own frame was the top one

    A node is a place and whether it is the raise step there. The end lacks while the trace has none.
    """

    def __init__(self, method, began):
        self.method, self.began, self.ended, self.walk = method, began, None, []

    def cycles(self):
        return self.ended - self.began


def activations(trace):
    """the activations of a trace, in the order of their invokes; the frame of the method that starts the program is none"""
    found, frames, clock = [], [], 0
    for line in trace.splitlines():
        words = line.split(' ')
        if words[0] == 'write':
            continue
        before, clock, depth = clock, int(words[0]), int(words[-2].partition('=')[2])
        while len(frames) > depth:
            frames.pop().ended = clock
        if len(frames) < depth:
            frames.append(Activation(words[1], before))
            found.append(frames[-1])
        frames[-1].walk.append((int(words[2]), words[3] == 'raise'))
    return found[1:]


def greatest_stay(walk, header, members):
    """the greatest number of back edges that a walk takes in one stay in a loop"""
    greatest, count = 0, None
    for node in walk:
        count = None if node not in members else 0 if count is None else count + (node == header)
        greatest = max(greatest, count or 0)
    return greatest


def kept_bounds(loops, runs):
    """the least bounds that the activations of runs keep, by method and place, of the loops of each method, by their headers"""
    found = {(name, header[0]): 0 for name in loops for header in loops[name] or {}}
    for method, walk in {(each.method, tuple(each.walk)) for run in runs for each in run}:
        for header, members in (loops[method] or {}).items():
            found[method, header[0]] = max(found[method, header[0]], greatest_stay(walk, header, set(members)))
    return found
