#!/usr/bin/env python3
"""bench/fpga.py [--jop FILE] [--mhz N]: the controller of examples on an iCE40HX8K, and its synthesis for an ECP5: cells, block RAM and clock.

Copies examples/fpga and runs its Makefile, so yosys, nextpnr-ice40 and fpga-icestorm are needed (Debian). Prints the bound of `Mean.step` in the
Makefile's shape, what nextpnr says of cells and of the machine's clock, and the microseconds that the bound takes at the clock that was asked for.
"""
import argparse
import os
import re
import shutil
import subprocess
import tempfile

TOP = os.path.join(os.path.dirname(os.path.abspath(__file__)), '..')
METHOD = 'Mean.step(I)I'


def read(*path):
    with open(os.path.join(*path), encoding='utf-8') as file:
        return file.read()


def bound(jop, folder):
    """the bound of the method in the shape of the Makefile, and its options"""
    options = re.search(r'^SHAPE \?= (.*)$', read(folder, 'Makefile'), re.M).group(1).split()
    pairs = zip(options[::2], options[1::2])
    timed = [word for pair in pairs if pair[0] not in ('--stack', '--memory') for word in pair]
    call = [jop, 'bound', *timed, '--method', METHOD, 'controller.jopi', '../controller/controller.bounds']
    return int(subprocess.run(call, cwd=folder, capture_output=True, text=True, check=True).stdout.split()[-1])


def main():
    parser = argparse.ArgumentParser(description=__doc__, formatter_class=argparse.RawDescriptionHelpFormatter)
    parser.add_argument('--jop', type=os.path.abspath, default=os.path.join(TOP, 'crates/jop/out/jop'))
    parser.add_argument('--mhz', type=int, default=30)
    asked = parser.parse_args()
    with tempfile.TemporaryDirectory(prefix='jop-fpga-') as room:
        folder = shutil.copytree(os.path.join(TOP, 'examples/fpga'), os.path.join(room, 'fpga'))
        shutil.copytree(os.path.join(TOP, 'examples/controller'), os.path.join(room, 'controller'))
        for made in ('hx8k.bin', 'ulx3s.json'):
            subprocess.run(['make', '-s', 'JOP=' + asked.jop, 'MHZ=%d' % asked.mhz, made], cwd=folder, check=True)
        cycles = bound(asked.jop, folder)
        log = read(folder, 'hx8k.log')
        print('%s: at most %d cycles, %.1f microseconds at %d MHz' % (METHOD, cycles, cycles / asked.mhz, asked.mhz))
        for kind in re.findall(r'(ICESTORM_LC|ICESTORM_RAM): *(\d+)/ *(\d+)', log)[-2:]:
            print('iCE40HX8K: %s %s of %s' % kind)
        for clock in re.findall(r"Max frequency for clock +'([^']+)': ([\d.]+) MHz", log)[-2:]:
            print('iCE40HX8K: clock %s: %s MHz' % clock)
        for kind in ('LUT4', 'TRELLIS_FF', 'DP16KD', 'MULT18X18D'):
            print('ECP5: %s %s' % (kind, ', '.join(re.findall(r'%s +(\d+)' % kind, read(folder, 'ulx3s.stat'))[-1:])))


if __name__ == '__main__':
    main()
