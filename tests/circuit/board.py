"""The controller on the board of examples/fpga, in simulation, beside its run."""
import os
import re
import shutil
import subprocess

TOP = os.path.join(os.path.dirname(os.path.abspath(__file__)), '../..')
PARTS = 'board.v fifo.v uart_rx.v uart_tx.v jop.v'


def copied(room):
    """the folder of the board in a room, with the controller beside it"""
    shutil.copytree(os.path.join(TOP, 'examples/controller'), os.path.join(room, 'controller'))
    return shutil.copytree(os.path.join(TOP, 'examples/fpga'), os.path.join(room, 'fpga'))


def made(folder, jop, *more):
    """what `make` does in the folder"""
    return subprocess.run(['make', '-s', 'JOP=' + os.path.abspath(jop), *more], cwd=folder, capture_output=True, text=True, errors='surrogateescape', check=True)


def shape(folder):
    """the options of the Makefile's machine"""
    with open(os.path.join(folder, 'Makefile'), encoding='utf-8') as file:
        return re.search(r'^SHAPE \?= (.*)$', file.read(), re.M).group(1).split()


def compared(folder, jop, *more):
    """what differs where the line sends the samples: the bytes that come back, and the clocks until it halts"""
    said = made(folder, jop, 'talk', *more)
    with open(os.path.join(folder, '../controller/samples'), 'rb') as samples:
        run = [os.path.abspath(jop), 'run', *shape(folder), os.path.join(folder, 'controller.jopi')]
        ran = subprocess.run(run, stdin=samples, capture_output=True, check=False)
    wanted = ran.stdout, re.search(rb'ended cycles=(\d+)', ran.stderr).group(1).decode()
    came = os.fsencode(said.stdout), (re.findall(r'halted=1 clocks=(\d+)', said.stderr) or ['none'])[0]
    return '' if came == wanted else 'wanted %r, came %r' % (wanted, came)


def talked(jop, room):
    """what differs in simulation"""
    os.makedirs(room)
    return compared(copied(room), jop)
