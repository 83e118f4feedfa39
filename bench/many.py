#!/usr/bin/env python3
"""many.py FOLDER [N]: writes N Java classes (1,000 by default), some 2 KB each when `javac --release 8` has compiled them, a Main that calls the first of them,
and Load, which has a Java virtual machine load, link and verify all of them and says how long that took.

    python3 many.py /tmp/many && cd /tmp/many && javac --release 8 -g:none -d classes *.java
    cd classes && time jop link --main Main Main.class M*_.class > ../many.jopi
    java -Xshare:off Load 1000
"""
import os
import sys

BODY = """
    private int %(f)s;
    private int[] list%(k)d = new int[%(n)d];

    int step%(k)d(int x, int y) {
        int sum = %(f)s;
        for (int i = 0; i < list%(k)d.length; i++) {
            if (x > y) {
                sum += list%(k)d[i] * x;
            } else {
                sum ^= (list%(k)d[i] << 3) - y;
            }
            list%(k)d[i] = sum & 0xff;
        }
        switch (sum & 3) {
            case 0: %(f)s += x; break;
            case 1: %(f)s -= y; break;
            default: %(f)s = sum;
        }
        return sum%(call)s;
    }
"""


def source(number, count):
    below = 'M%03d_' % (number + 1)
    text = 'class M%03d_%s {\n' % (number, ' extends M%03d_' % (number - 1) if number % 4 else '')
    for k in range(7):
        call = ' + new %s().step%d(y, x)' % (below, k) if number + 1 < count and k < 2 else ''
        text += BODY % {'f': 'sum%d' % k, 'k': k, 'n': number % 7 + 1, 'call': call}
    return text + '}\n'


def main():
    folder, count = sys.argv[1], int(sys.argv[2]) if len(sys.argv) > 2 else 1000
    os.makedirs(folder, exist_ok=True)
    for number in range(count):
        with open('%s/M%03d_.java' % (folder, number), 'w') as file:
            file.write(source(number, count))
    with open(folder + '/Main.java', 'w') as file:
        file.write('public class Main {\n    public static void main(String[] arguments) {\n        new M%03d_().step0(1, 2);\n    }\n}\n' % (count - 1))
    with open(folder + '/Load.java', 'w') as file:
        file.write('''public class Load {
    public static void main(String[] arguments) throws Exception {
        int count = Integer.parseInt(arguments[0]);
        long start = System.nanoTime();
        for (int number = 0; number < count; number++) {
            String digits = "000" + number;
            Class.forName("M" + digits.substring(digits.length() - 3) + "_");
        }
        System.out.println((System.nanoTime() - start) / 1000 + " microseconds");
    }
}
''')


main()
