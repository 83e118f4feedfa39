"""The cases of the library, by program: a name, the kinds of its arguments, and what is put of them. `$0`, `$1`, .. stand for the arguments; TEXT and TOTEXT
for Text and toText, on a virtual machine String and toString. Behind a `;` in front of what is put stand statements."""

KINDS = ["boolean", "byte", "char", "short", "int", "long"]
# By the kind of an argument its type in Java and what makes one.
MAKERS = {
    "int": ("int", "anyInt"), "long": ("long", "anyLong"), "short": ("short", "anyShort"), "byte": ("byte", "anyByte"), "boolean": ("boolean", "anyBoolean"),
    "char": ("char", "anyChar"), "letter": ("char", "anyLetter"), "point": ("int", "point"), "index": ("int", "index"), "near": ("int", "near"),
        "base": ("int", "base"),
    "string": ("String", "string"), "chars": ("char[]", "anyChars"), "text": ("TEXT", "text"), "digits": ("TEXT", "digits"),
    "object": ("Object", "object"), "objects": ("Object[]", "objects"),
    **{kind + "s": (kind + "[]", kind + "Array") for kind in KINDS},
}


def static(owner, *lines):
    """cases of static methods: `name kind..`, `name` may be `a,b,..`"""
    found = []
    for line in lines:
        names, *kinds = line.split(" ")
        for name in names.split(","):
            arguments = ", ".join(f"${place}" for place in range(len(kinds)))
            found.append((f"{owner}.{name}({','.join(kinds)})", kinds, f"{owner}.{name}({arguments})"))
    return found


def of(owner, first, *lines):
    """cases of methods of an object, which is the first argument"""
    found = []
    for line in lines:
        names, *kinds = line.split(" ")
        for name in names.split(","):
            arguments = ", ".join(f"${place + 1}" for place in range(len(kinds)))
            found.append((f"{owner}.{name}({','.join(kinds)})", [first, *kinds], f"$0.{name}({arguments})"))
    return found


def built(*lines):
    """cases of a StringBuilder over a text: what it holds, its length and its capacity behind a change"""
    found = []
    for line in lines:
        name, *kinds = line.split(" ")
        arguments = ", ".join(f"${place + 1}" for place in range(len(kinds)))
        change = f"StringBuilder it = new StringBuilder($0); it.{name}({arguments}); Seen.put(it.length()); Seen.put(it.capacity())"
        found.append((f"StringBuilder.{name}({','.join(kinds)})", ["text", *kinds], change + "; it.TOTEXT()"))
    return found


def boxed(name, kind, value):
    """cases of numbers, chars and booleans as objects"""
    return [
        (f"{name}.valueOf, {value}", [kind], f"{name}.valueOf($0).{value}()"),
        (f"{name}.valueOf, one object", [kind], f"{name}.valueOf($0) == {name}.valueOf($0)"),
        (f"{name}.<init>", [kind], f"new {name}($0).{value}()"),
        (f"{name}.equals", [kind, kind], f"new {name}($0).equals(new {name}($1))"),
        (f"{name}.equals, other", [kind, "object"], f"new {name}($0).equals($1)"),
        (f"{name}.hashCode()", [kind], f"new {name}($0).hashCode()"),
        (f"{name}.compareTo", [kind, kind], f"new {name}($0).compareTo(new {name}($1))"),
        (f"{name}.toText()", [kind], f"new {name}($0).TOTEXT()"),
        (f"{name}.toString({kind})", [kind], f"{name}.toString($0)"),
        (f"{name}.hashCode({kind})", [kind], f"{name}.hashCode($0)"),
        (f"{name}.compare", [kind, kind], f"{name}.compare($0, $1)"),
    ]


def number(name, kind):
    """cases of a number as an object"""
    each = ["byteValue", "shortValue", "longValue", "intValue"]
    return boxed(name, kind, f"{kind}Value") + [(f"{name}.{it}", [kind], f"new {name}($0).{it}()") for it in each] + [
        (f"{name}.valueOf({text})", [text], f"{name}.valueOf($0).{kind}Value()") for text in ("string", "digits")]


def parsed(name, method):
    """cases of a method that reads a number"""
    return [
        (f"{name}.{method}(String)", ["string"], f"{name}.{method}($0)"),
        (f"{name}.{method}(String,base)", ["string", "base"], f"{name}.{method}($0, $1)"),
        (f"{name}.{method}(Text)", ["digits"], f"{name}.{method}($0)"),
        (f"{name}.{method}(Text,base)", ["digits", "base"], f"{name}.{method}($0, $1)"),
        (f"{name}.{method}(null)", [], f"{name}.{method}((String) null)"),
    ]


def bits(name, kind):
    """cases of Integer and Long"""
    one = (
        "signum,bitCount,reverse,reverseBytes,highestOneBit,lowestOneBit,numberOfLeadingZeros,numberOfTrailingZeros,toHexString,toOctalString,toBinaryString"
    )
    two = "min,max,sum,compareUnsigned,divideUnsigned,remainderUnsigned"
    return static(name, f"{one} {kind}", f"{two} {kind} {kind}", f"rotateLeft,rotateRight {kind} int", f"toString {kind} base") + [
        (f"{name} constants", [], f"Seen.put({name}.MIN_VALUE); Seen.put({name}.MAX_VALUE); Seen.put({name}.SIZE); {name}.BYTES")]


def arraycopy():
    """cases of System.arraycopy: of each kind within an array and between two, of arrays of references, and of what doesn't fit"""
    found = []
    for kind in [*KINDS, "object"]:
        within = f"try {{ System.arraycopy($0, $1, $0, $2, $3); }} finally {{ Seen.put($0); }} 0"
        between = f"try {{ System.arraycopy($0, $1, $4, $2, $3); }} finally {{ Seen.put($4); }} 0"
        found += [(f"System.arraycopy({kind}s), within", [kind + "s", "near", "near", "near"], within),
                  (f"System.arraycopy({kind}s), between", [kind + "s", "near", "near", "near", kind + "s"], between),
                  (f"System.arraycopy({kind}s), index", [kind + "s", "index", "index", "index"], within)]
    stored = "Object[] to = $1 % 3 == 0 ? new Integer[8] : $1 % 3 == 1 ? new Boolean[8] : new Number[8]; "
    found.append(("System.arraycopy, elements that can't be stored", ["objects", "near", "near"],
                  stored + "try { System.arraycopy($0, 0, to, 1, $2); } finally { Seen.put(to); } 0"))
    sorts = (
        "Object[] all = {new int[8], new byte[8], new boolean[8], new char[8], new short[8], new long[8], new Object[8], new String[8], "
        "new int[8][], null, \"a\", new Integer[8]}; "
    )
    found.append(("System.arraycopy, each kind with each", ["int", "int", "near"], sorts + "System.arraycopy(all[($0 & 0xffff) % 12], 0, "
        "all[($1 & 0xffff) % 12], $2, 3); 0"))
    return found + [("System.identityHashCode", ["object"], "System.identityHashCode($0) == System.identityHashCode($0)"),
                    ("System.identityHashCode(null)", [], "System.identityHashCode(null)")]


def made():
    """cases of jop.Arrays"""
    found = []
    for kind in KINDS:
        plural = kind.capitalize() + "s"
        found += [(f"Arrays.clone({kind}[])", [kind + "s"], f"{kind}[] copy = jop.Arrays.clone($0); Seen.put(copy == $0); copy"),
                  (f"Arrays.new{plural}(2)", ["near", "near"], f"{kind}[][] it = jop.Arrays.new{plural}($0, $1); for ({kind}[] each : it) {{ "
                      f"Seen.put(each); }} it.length"),
                  (f"Arrays.new{plural}(3)", ["near", "near", "near"],
                   f"{kind}[][][] it = jop.Arrays.new{plural}($0, $1, $2); for ({kind}[][] each : it) {{ Seen.put(each.length); "
                       f"for ({kind}[] one : each) {{ Seen.put(one); }} }} it.length")]
    return found + [("Arrays.clone(Object[])", ["objects"], "Object[] copy = jop.Arrays.clone($0, new Object[$0.length]); Seen.put(copy == $0); copy"),
                    ("Arrays.check", ["int"], "jop.Arrays.check($0); 0")]


def arrays():
    """cases of java.util.Arrays"""
    found, name = [], "java.util.Arrays"
    for kind in [*KINDS, "object"]:
        each = kind + "s"
        found += [(f"util.Arrays.fill({each})", [each, kind], f"{name}.fill($0, $1); $0"),
                  (f"util.Arrays.fill({each}, part)", [each, "near", "near", kind], f"try {{ {name}.fill($0, $1, $2, $3); }} finally {{ Seen.put($0); }} 0"),
                  (f"util.Arrays.equals({each})", [each, each], f"{name}.equals($0, $1)"),
                  (f"util.Arrays.equals({each}), last", [each, "near"], f"{MAKERS[each][0]} copy = new {MAKERS[each][0][:-2]}[$0.length]; "
                      f"System.arraycopy($0, 0, copy, 0, copy.length); Seen.put({name}.equals($0, copy)); copy[$1] = copy[0]; {name}.equals($0, "
                      f"copy)"),
                  (f"util.Arrays.equals({each}, null)", [each], f"Seen.put({name}.equals($0, null)); Seen.put({name}.equals(null, $0)); "
                      f"Seen.put({name}.equals($0, $0)); {name}.hashCode(({MAKERS[each][0]}) null)"),
                  (f"util.Arrays.hashCode({each})", [each], f"{name}.hashCode($0)"),
                  (f"util.Arrays.toString({each})", [each], f"{name}.toString($0)")]
        if kind != "object":
            found += [(f"util.Arrays.copyOf({each})", [each, "near"], f"{name}.copyOf($0, $1)"),
                      (f"util.Arrays.copyOfRange({each})", [each, "near", "near"], f"{name}.copyOfRange($0, $1, $2)")]
        if kind not in ("object", "boolean"):
            found += [(f"util.Arrays.sort({each})", [each], f"{name}.sort($0); $0"),
                      (f"util.Arrays.sort({each}, part)", [each, "near", "near"], f"try {{ {name}.sort($0, $1, $2); }} finally {{ Seen.put($0); }} 0"),
                      (f"util.Arrays.binarySearch({each})", [each, kind], f"{name}.sort($0); int at = {name}.binarySearch($0, $1); at >= 0 ? "
                          f"($0[at] == $1 ? -1000 : 1000) : at"),
                      (f"util.Arrays.binarySearch({each}, held)", [each, "near"], f"{name}.sort($0); int at = {name}.binarySearch($0, $0[$1]); "
                          f"$0[at] == $0[$1]")]
    return found


def streams():
    """cases of the streams over arrays"""
    source = "java.io.ByteArrayInputStream it = new java.io.ByteArrayInputStream($0, $1, $2); "
    return [
        ("ByteArrayInputStream.read()", ["bytes", "near", "near"], "if ($1 < 0 || $1 > $0.length || $2 < 0) { Seen.put(1); } else { "
            + source + "Seen.put(it.available()); for (int k = 0; k < 9; k++) { Seen.put(it.read()); } } 0"),
        ("ByteArrayInputStream.read(bytes)", ["bytes", "bytes", "near", "near"],
         "java.io.ByteArrayInputStream it = new java.io.ByteArrayInputStream($0); try { Seen.put(it.read($1, $2, $3)); Seen.put(it.skip($2)); "
             "it.mark(0); Seen.put(it.read($1)); it.reset(); Seen.put(it.available()); } finally { Seen.put($1); } it.markSupported()"),
        ("ByteArrayOutputStream.write", ["bytes", "near", "near", "int"],
         "java.io.ByteArrayOutputStream it = new java.io.ByteArrayOutputStream(1); it.write($0); it.write($3); Seen.put(it.size()); try { "
             "it.write($0, $1, $2); } finally { Seen.put(it.toByteArray()); } it.writeTo(it); Seen.put(it.toByteArray()); it.reset(); "
             "it.toByteArray()"),
        ("FilterOutputStream.write", ["bytes", "near", "near", "int"],
         "java.io.ByteArrayOutputStream to = new java.io.ByteArrayOutputStream(); "
             "java.io.FilterOutputStream it = new java.io.FilterOutputStream(to); it.write($3); it.write($0); try { it.write($0, $1, $2); "
             "} finally { it.flush(); it.close(); Seen.put(to.toByteArray()); } 0"),
        ("FilterInputStream.read", ["bytes", "bytes", "near", "near"],
         "java.io.FilterInputStream it = new java.io.FilterInputStream(new java.io.ByteArrayInputStream($0)) { }; Seen.put(it.read()); "
             "Seen.put(it.available()); it.mark(1); try { Seen.put(it.read($1, $2, $3)); it.reset(); Seen.put(it.skip($3)); Seen.put(it.read($1)); "
             "} finally { it.close(); Seen.put($1); } it.markSupported()"),
        ("InputStream.read(bytes)", ["bytes", "near", "near", "near"],
         "final int[] left = {$3}; java.io.InputStream it = new java.io.InputStream() { public int read() { left[0]--; return left[0] < 0 ? "
             "-1 : left[0]; } }; try { Seen.put(it.read($0, $1, $2)); Seen.put(it.skip(2)); Seen.put(it.read($0)); } finally { Seen.put($0); "
             "} Seen.put(it.available()); Seen.put(it.markSupported()); it.mark(3); it.close(); it.reset(); 0"),
        ("System.in", [], "Seen.put(System.in.read()); System.in.read()"),
        ("OutputStream.write(bytes)", ["bytes", "near", "near"],
         "final int[] seen = {0}; java.io.OutputStream it = new java.io.OutputStream() { public void write(int value) { "
             "seen[0] = seen[0] * 31 + value; } }; try { it.write($0); it.write($0, $1, $2); it.flush(); it.close(); } finally { Seen.put(seen); } 0"),
    ]


def data_streams():
    """cases of the streams of numbers"""
    reads = ["readBoolean", "readByte", "readUnsignedByte", "readShort", "readUnsignedShort", "readChar", "readInt", "readLong"]
    writes = [("writeBoolean", "boolean"), ("writeByte", "int"), ("writeShort", "int"), ("writeChar", "int"), ("writeInt", "int"), ("writeLong",
        "long"), ("write", "int")]
    source = "java.io.DataInputStream it = new java.io.DataInputStream(new java.io.ByteArrayInputStream($0)); "
    target = "java.io.ByteArrayOutputStream to = new java.io.ByteArrayOutputStream(); java.io.DataOutputStream it = new java.io.DataOutputStream(to); "
    return [(f"DataInputStream.{name}", ["bytes"], f"{source}try {{ Seen.put(it.{name}()); Seen.put(it.{name}()); }} finally {{ "
        f"Seen.put(it.read()); }} 0") for name in reads] + [
        ("DataInputStream.readFully", ["bytes", "bytes", "near", "near"], source + "try { it.readFully($1, $2, $3); it.readFully($1); } finally { "
            "Seen.put($1); Seen.put(it.read()); } 0"),
        ("DataInputStream.skipBytes", ["bytes", "near"], source + "Seen.put(it.skipBytes($1)); it.read()")] + [
        (f"DataOutputStream.{name}", [kind], f"{target}it.{name}($0); Seen.put(it.size()); it.flush(); to.toByteArray()") for name, kind in writes] + [
        ("DataOutputStream.write(bytes)", ["bytes", "near", "near"], target + "try { it.write($0, $1, $2); it.write($0); } finally { "
            "Seen.put(it.size()); Seen.put(to.toByteArray()); } 0"),
        ("ByteOrder", [], "Seen.put(java.nio.ByteOrder.BIG_ENDIAN.TOTEXT()); java.nio.ByteOrder.LITTLE_ENDIAN.TOTEXT()"),
        ("ByteOrder.nativeOrder", [], "java.nio.ByteOrder.nativeOrder() == NATIVE")]


def lists():
    """cases of lists: what one holds behind a change"""
    found = []
    for owner, made in (("ArrayList", "new java.util.ArrayList<Object>(java.util.Arrays.asList($0))"), ("Arrays.asList", "java.util.Arrays.asList($0)")):
        start = f"java.util.List<Object> it = {made}; "
        changes = {
            "add(object)": (["object"], "Seen.put(it.add($1))"), "add(near,object)": (["near", "object"], "it.add($1, $2)"), "set": (["near",
                "object"], "Seen.put(it.set($1, $2))"), "get": (["near"], "Seen.put(it.get($1))"),
            "remove(near)": (["near"], "Seen.put(it.remove($1))"), "remove(object)": (["object"], "Seen.put(it.remove($1))"), "indexOf": (["object"],
                "Seen.put(it.indexOf($1)); Seen.put(it.lastIndexOf($1)); Seen.put(it.contains($1))"),
            "addAll": (["objects"], "Seen.put(it.addAll(java.util.Arrays.asList($1)))"), "clear": ([], "it.clear()"), "isEmpty": ([],
                "Seen.put(it.isEmpty())"), "hashCode": ([], "Seen.put(jop.Objects.hashCode(it))"), "toText": ([],
                "Seen.put(jop.Objects.toText(it))"),
            "equals": (["objects"], "Seen.put(jop.Objects.equals(it, java.util.Arrays.asList($1))); Seen.put(jop.Objects.equals(it, it)); "
                "Seen.put(jop.Objects.equals(it, new java.util.ArrayList<Object>(it))); Seen.put(jop.Objects.equals(it, \"a\"))"),
            "iterator": ([], "for (Object each : it) { Seen.put(each); } it.iterator().next()"), "iterator, changed": (["near"],
                "for (Object each : it) { Seen.put(each); if ($1 > 5) { it.add(each); } else if ($1 > 0) { it.remove(0); } }"),
        }
        for name, (kinds, change) in changes.items():
            found.append((f"{owner}.{name}", ["objects", *kinds], f"{start}try {{ {change}; }} finally {{ Seen.put(it.size()); Seen.put(it.toArray()); }} 0"))
    order = "new java.util.Comparator<Object>() { public int compare(Object first, Object second) { return weight(first) - weight(second); } }"
    return found + [
        ("ArrayList.<init>(int)", ["near", "objects"], "java.util.ArrayList<Object> it = new java.util.ArrayList<Object>($0); "
            "for (Object each : $1) { it.add(each); it.add(0, each); } it.ensureCapacity($0 * 10); it.toArray()"),
        ("util.Arrays.sort(Integer[])", ["ints"], "Integer[] each = new Integer[$0.length]; for (int k = 0; k < each.length; k++) { "
            "each[k] = Integer.valueOf($0[k]); } java.util.Arrays.sort(each); each"),
        ("util.Arrays.sort(String[])", ["string", "string", "string"], "String[] each = {$0, $1, $2, $1}; java.util.Arrays.sort(each); "
            "Seen.put(each[0]); Seen.put(each[1]); Seen.put(each[2]); each[3]"),
        ("ArrayList.<init>()", ["objects"], "java.util.ArrayList<Object> it = new java.util.ArrayList<Object>(); for (Object each : $0) { it.add(0, "
            "each); } for (int k = 0; k < 12; k++) { it.add(null); } it.toArray()"),
        ("util.Arrays.sort(Integer[], part)", ["ints", "near", "near"], "Integer[] each = new Integer[$0.length]; for (int k = 0; k < each.length; "
            "k++) { each[k] = Integer.valueOf($0[k]); } try { java.util.Arrays.sort(each, $1, $2); } finally { Seen.put(each); } 0"),
        ("util.Arrays.sort, by a Comparator", ["objects"], f"java.util.Arrays.sort($0, {order}); $0"),
        ("util.Arrays.sort, part by a Comparator", ["objects", "near", "near"], f"try {{ java.util.Arrays.sort($0, $1, $2, {order}); }} finally {{ "
            f"Seen.put($0); }} 0"),
    ]


def maps():
    """cases of maps and sets: what one holds behind a change, in its order"""
    found = []
    boxed = "Integer.valueOf($1)"
    start = "java.util.HashMap<Object, Object> it = MADE; for (int k = 0; k < $0.length; k++) { it.put($0[k], Integer.valueOf(k)); } "
    made = {"HashMap": "new java.util.HashMap<Object, Object>()", "HashMap(near)": "new java.util.HashMap<Object, Object>(8 * $0.length)"}
    end = "finally { Seen.put(it.size()); Seen.put(it.keySet().toArray()); Seen.put(it.values().toArray()); } 0"
    changes = {
        "put": (["object", "object"], "Seen.put(it.put($1, $2))"), "get": (["object"], "Seen.put(it.get($1)); Seen.put(it.getOrDefault($1, $0))"),
        "contains": (["object", "near"], "Seen.put(it.containsKey($1)); Seen.put(it.containsValue($1)); Seen.put(it.containsValue(Integer.valueOf($2)))"),
        "remove": (["object", "object"], "Seen.put(it.remove($1)); Seen.put(it.remove($2)); Seen.put(it.isEmpty())"),
        "remove(object,object)": (["object", "near"], "Seen.put(it.remove($1, Integer.valueOf($2)))"), "clear": ([], "it.clear(); Seen.put(it.isEmpty())"),
        "putIfAbsent": (["object", "object"], "Seen.put(it.putIfAbsent($1, null)); Seen.put(it.putIfAbsent($1, $2))"),
        "replace": (["object", "object"], "Seen.put(it.replace($1, $2))"),
        "compute": (["object", "object"], "Seen.put(it.compute($1, JOINED)); Seen.put(it.compute($2, JOINED))"),
        "computeIfAbsent": (["object", "object"], "Seen.put(it.computeIfAbsent($1, OF_KEY)); Seen.put(it.computeIfAbsent($2, OF_KEY))"),
        "computeIfPresent": (["object", "object"], "Seen.put(it.computeIfPresent($1, JOINED)); Seen.put(it.computeIfPresent($2, JOINED))"),
        "merge": (["object", "object"], "Seen.put(it.merge($1, $2, JOINED)); Seen.put(it.merge($2, Integer.valueOf(5), JOINED))"),
        "forEach": ([], "it.forEach(JOINED)"), "hashCode": ([], "Seen.put(jop.Objects.hashCode(it))"), "toText": ([], "Seen.put(jop.Objects.toText(it))"),
        "equals": (["objects"], "java.util.Map<Object, Object> other = new java.util.HashMap<Object, Object>(it); Seen.put(jop.Objects.equals(it, other)); "
                   "for (int k = 0; k < $1.length; k++) { other.put($1[k], Integer.valueOf(k)); } Seen.put(jop.Objects.equals(it, other)); "
                   "Seen.put(other.keySet().toArray()); Seen.put(jop.Objects.equals(it, $0))"),
        "putAll": (["objects"], "java.util.Map<Object, Object> other = new java.util.HashMap<Object, Object>(); for (int k = 0; k < $1.length; k++) { "
                   "other.put($1[k], Integer.valueOf(k)); } it.putAll(other); other.putAll(it); Seen.put(other.keySet().toArray())"),
        "keySet": (["object"], "java.util.Set<Object> all = it.keySet(); Seen.put(all.contains($1)); Seen.put(all.remove($1)); Seen.put(all.size()); "
                   "Seen.put(jop.Objects.toText(all)); Seen.put(jop.Objects.hashCode(all)); Seen.put(jop.Objects.equals(all, new java.util.HashMap<Object, "
                   "Object>(it).keySet())); all.clear(); all.add($1)"),
        "values": (["near"], f"java.util.Collection<Object> all = it.values(); Seen.put(all.contains({boxed})); Seen.put(all.remove({boxed})); "
                   "Seen.put(jop.Objects.toText(all)); Seen.put(all.isEmpty()); java.util.Iterator<Object> each = all.iterator(); Seen.put(each.next()); "
                   "each.remove(); Seen.put(it.size()); all.clear(); each.next()"),
        "entrySet": (["near"], "java.util.Set<java.util.Map.Entry<Object, Object>> all = it.entrySet(); for (java.util.Map.Entry<Object, Object> each : all) "
                     f"{{ Seen.put(each.getKey()); Seen.put(each.setValue({boxed})); Seen.put(each.getValue()); Seen.put(jop.Objects.toText(each)); "
                     "Seen.put(jop.Objects.hashCode(each)); Seen.put(all.contains(each)); Seen.put(jop.Objects.equals(each, each)); if (it.size() > 3) { "
                     "Seen.put(all.remove(each)); } } Seen.put(all.contains($0)); Seen.put(all.remove($0)); all.clear()"),
        "iterator": ([], "java.util.Iterator<Object> each = it.keySet().iterator(); while (each.hasNext()) { Object key = each.next(); if (key instanceof Integer) "
                     "{ each.remove(); } } each.next()"),
    }
    for name, (kinds, change) in changes.items():
        for title, construct in made.items():
            found.append((f"{title}.{name}", ["objects", *kinds], f"{start.replace('MADE', construct)}try {{ {change}; }} {end}"))
    found.append(("HashMap.<init>(Map), far keys", ["int", "int"], "java.util.HashMap<Integer, Object> it = new java.util.HashMap<Integer, Object>(); "
        "for (int k = 0; k < 12; k++) { it.put(Integer.valueOf($0 + k * ($1 & 63)), null); } Seen.put(it.keySet().toArray()); "
        "java.util.HashMap<Integer, Object> other = new java.util.HashMap<Integer, Object>(it); Seen.put(other.keySet().toArray()); "
        "java.util.HashMap<Integer, Object> small = new java.util.HashMap<Integer, Object>(2); small.put(Integer.valueOf($1), null); small.putAll(it); "
        "Seen.put(small.keySet().toArray()); new java.util.HashSet<Integer>(it.keySet()).toArray()"))
    start = "java.util.HashSet<Object> it = new java.util.HashSet<Object>(java.util.Arrays.asList($0)); "
    end = "finally { Seen.put(it.size()); Seen.put(it.toArray()); } 0"
    changes = {
        "add": (["object"], "Seen.put(it.add($1)); Seen.put(it.add($1))"), "remove": (["object"], "Seen.put(it.contains($1)); Seen.put(it.remove($1))"),
        "addAll": (["objects"], "Seen.put(it.addAll(java.util.Arrays.asList($1)))"), "clear": ([], "Seen.put(it.isEmpty()); it.clear(); Seen.put(it.isEmpty())"),
        "equals": (["objects"], "Seen.put(jop.Objects.equals(it, new java.util.HashSet<Object>(java.util.Arrays.asList($1)))); Seen.put(jop.Objects.equals(it, "
                   "new java.util.HashSet<Object>(it))); Seen.put(jop.Objects.hashCode(it)); Seen.put(jop.Objects.toText(it))"),
        "iterator": ([], "java.util.Iterator<Object> each = it.iterator(); while (each.hasNext()) { if (each.next() instanceof Integer) { each.remove(); } } "
                     "each.remove()"),
        "<init>": (["near"], "java.util.HashSet<Object> other = new java.util.HashSet<Object>($1); for (Object each : it) { other.add(each); } "
                   "Seen.put(other.toArray()); Seen.put(new java.util.HashSet<Object>().size())"),
    }
    for name, (kinds, change) in changes.items():
        found.append((f"HashSet.{name}", ["objects", *kinds], f"{start}try {{ {change}; }} {end}"))
    own = ("final java.util.ArrayList<Object> in = new java.util.ArrayList<Object>(java.util.Arrays.asList($0)); java.util.CLASS<Object> it = "
           "new java.util.CLASS<Object>() { public java.util.Iterator<Object> iterator() { return in.iterator(); } public int size() { return in.size(); } }; ")
    for name in ("AbstractCollection", "AbstractSet"):
        found.append((f"{name}, own", ["objects", "object"], own.replace("CLASS", name) + "Seen.put(it.contains($1)); Seen.put(it.remove($1)); Seen.put(it.toArray()); "
                      "Seen.put(it.isEmpty()); Seen.put(jop.Objects.toText(it)); it.clear(); Seen.put(it.size()); Seen.put(it.addAll(in)); it.add($1); 0"))
    return found


def collections():
    """cases of Collections: what a list holds behind a change"""
    name = "java.util.Collections"
    boxed = "Integer[] each = new Integer[$0.length]; for (int k = 0; k < each.length; k++) { each[k] = Integer.valueOf($0[k]); } "
    made = boxed + "java.util.List<Integer> it = new java.util.ArrayList<Integer>(java.util.Arrays.asList(each)); "
    shown = " finally { Seen.put(it.toArray()); } 0"
    return [
        ("Collections.sort", ["ints"], f"{made}{name}.sort(it); it.toArray()"),
        ("Collections.sort, by a Comparator", ["ints"], f"{made}{name}.sort(it, {name}.reverseOrder()); it.toArray()"),
        ("Collections.sort, changed", ["ints"], f"{made}try {{ for (Integer one : it) {{ Seen.put(one); {name}.sort(it); }} }}{shown}"),
        ("Collections.reverse", ["ints"], f"{made}{name}.reverse(it); it.toArray()"),
        ("Collections.swap", ["ints", "near", "near"], f"{made}try {{ {name}.swap(it, $1, $2); }}{shown}"),
        ("Collections.addAll", ["ints", "objects"], f"java.util.List<Object> it = new java.util.ArrayList<Object>(); Seen.put({name}.addAll(it, $1)); "
            f"Seen.put({name}.addAll(it, \"a\", Integer.valueOf($0.length))); it.toArray()"),
        ("Collections.max", ["ints"], f"{made}Seen.put({name}.max(it)); {name}.min(it)"),
        ("Collections.emptyList", ["object"], f"java.util.List<Object> it = {name}.emptyList(); Seen.put(it.size()); Seen.put(it == {name}.EMPTY_LIST); "
            "it.clear(); Seen.put(it.contains($0)); Seen.put(it.iterator().hasNext()); it.add($0); 0"),
        ("Collections.singletonList", ["object", "object"], f"java.util.List<Object> it = {name}.singletonList($0); Seen.put(it.toArray()); "
            "Seen.put(it.indexOf($1)); Seen.put(jop.Objects.equals(it, java.util.Arrays.asList($0))); Seen.put(it.remove($1)); it.set(0, $1); 0"),
        ("Collections.nCopies", ["near", "object"], f"java.util.List<Object> it = {name}.nCopies($0, $1); Seen.put(it.toArray()); Seen.put(it.get(2)); "
            "it.remove(0); 0"),
        ("Collections.reverseOrder", ["int", "int"], f"java.util.Comparator<Integer> it = {name}.reverseOrder(); it.compare(Integer.valueOf($0), "
            "Integer.valueOf($1))"),
    ]


def random():
    """cases of java.util.Random with a seed"""
    seeded = "java.util.Random it = new java.util.Random($0); "
    return [(f"Random.{name}", ["long", *kinds], f"{seeded}Seen.put(it.{call}); Seen.put(it.{call}); it.{call}")
            for name, kinds, call in (("nextInt()", [], "nextInt()"), ("nextInt(int)", ["int"], "nextInt($1)"), ("nextLong()", [], "nextLong()"),
                ("nextBoolean()", [], "nextBoolean()"))] + [
        ("Random.<init>()", [], "new java.util.Random().nextInt(1)"),
        ("Random.nextBytes", ["long", "bytes"], seeded + "it.nextBytes($1); $1"),
        ("Random.setSeed", ["long", "long"], seeded + "it.setSeed($1); it.nextInt()")]


def raised():
    """cases of the exceptions: their superclasses, messages and constructors"""
    names = """
        java.lang.UnsupportedOperationException java.lang.NumberFormatException java.lang.CloneNotSupportedException java.lang.InterruptedException
        java.lang.SecurityException java.lang.IllegalMonitorStateException java.lang.ReflectiveOperationException java.lang.ClassNotFoundException
        java.lang.NoSuchFieldException java.lang.NoSuchMethodException java.lang.InternalError java.lang.UnknownError java.lang.NoSuchFieldError
        java.lang.NoSuchMethodError java.lang.AbstractMethodError java.lang.InstantiationError java.lang.IllegalAccessError java.lang.VerifyError
        java.lang.ExceptionInInitializerError java.util.NoSuchElementException java.util.InputMismatchException
        java.util.ConcurrentModificationException java.io.IOException java.io.EOFException java.util.zip.DataFormatException
        java.lang.StringIndexOutOfBoundsException
    """.split()
    above = """RuntimeException Error IllegalArgumentException IndexOutOfBoundsException LinkageError VirtualMachineError IncompatibleClassChangeError
        ReflectiveOperationException java.util.NoSuchElementException java.io.IOException Exception""".split()
    kinds = "".join(f"Seen.put(it instanceof {each}); " for each in above)
    found = [(f"{name}", ["string"], f"Throwable it = new {name}($0); {kinds}Seen.put(it.getMessage()); new {name}().getMessage()") for name in names]
    return found + [
        ("java.util.EmptyStackException", [], f"Throwable it = new java.util.EmptyStackException(); {kinds}it.getMessage()"),
        ("java.lang.AssertionError", ["string"], f"Throwable it = new AssertionError($0); {kinds}Seen.put(it.getMessage()); "
            f"new AssertionError().getMessage()"),
        ("java.lang.AssertionError(boolean)", ["boolean"], "new AssertionError($0).getMessage()"),
        *((f"java.lang.AssertionError({kind})", [kind], f"Throwable it = new AssertionError($0); {kinds}0") for kind in ("char", "int", "long", "object")),
        ("java.lang.StringIndexOutOfBoundsException(int)", ["int"], f"Throwable it = new StringIndexOutOfBoundsException($0); {kinds}0"),
    ]


def enums():
    """cases of Enum, whose constants are made by hand, since those of javac aren't linked"""
    return [("Enum", ["near", "near"], "Way one = Way.at($0 & 3), other = Way.at($1 & 3); Seen.put(one.name()); Seen.put(one.ordinal()); "
        "Seen.put(one.TOTEXT()); Seen.put(one.equals(other)); Seen.put(one.hashCode() == one.hashCode()); one.compareTo(other)")]


def objects():
    """cases of java.util.Objects and jop.Objects"""
    name = "java.util.Objects"
    return static("jop.Objects", "equals object object", "hashCode,toText object") + [
        ("util.Objects.requireNonNull", ["object"], f"{name}.requireNonNull($0) == $0"),
        ("util.Objects.requireNonNull, message", ["object"], f"try {{ {name}.requireNonNull($0, \"none\"); }} catch (NullPointerException it) {{ "
            f"Seen.put(it.getMessage()); }} 0"),
        ("util.Objects.isNull", ["object"], f"Seen.put({name}.isNull($0)); {name}.nonNull($0)"),
        ("util.Objects.equals", ["object", "object"], f"{name}.equals($0, $1)"),
        ("util.Objects.hashCode", ["object"], f"{name}.hashCode($0)"),
        ("util.Objects.hash", ["objects"], f"{name}.hash($0)"),
        ("util.Objects.toString", ["object"], f"{name}.toString($0)"),
    ]


def printed():
    """cases of System.out, whose bytes themselves are put"""
    plain = "$0.replace('\\ud83d', 'h').replace('\\ude00', 'l')"
    put = {
        **{kind: "$0" for kind in ("boolean", "int", "long", "string")},
        "char": "$0 >= '\\ud800' && $0 < '\\ue000' ? 'x' : $0",
        "text": plain, "chars": plain.replace("$0", "TEXT.valueOf($0)") + ".toCharArray()",
    }
    objects = [(f"PrintStream.{name}(Object), {kind}", [kind], f"System.out.{name}((Object) {value}); 0")
               for kind, value in (("int", "Integer.valueOf($0)"), ("boolean", "Boolean.valueOf($0)"), ("text", plain), ("string",
                   "$0")) for name in ("print", "println")]
    return objects + [(f"PrintStream.{name}({kind})", [kind], f"System.out.{name}({put[kind]}); 0") for kind in put for name in ("print", "println")] + [
        ("PrintStream.write", ["bytes", "near", "near"], "try { System.out.write($0, $1, $2); } finally { System.out.println(); "
            "} System.out.write($1); System.out.flush(); System.out.append('a'); System.out.checkError()"),
        ("PrintStream.print(null)", [], "System.out.print((String) null); System.out.print((Object) null); 0"),
        ("PrintStream.close", [], "CLOSE; System.out.println('a'); System.out.checkError()")]


TEXT_METHODS = of(
    "Text", "text", "length,isEmpty,hashCode,toCharArray,trim,toLowerCase,TOTEXT", "charAt near", "charAt index", "equals object",
        "equals,compareTo text", "indexOf,lastIndexOf point", "indexOf,lastIndexOf point near",
    "indexOf point index", "indexOf,lastIndexOf text", "indexOf,lastIndexOf text near", "lastIndexOf text index",
        "startsWith,endsWith,contains text", "startsWith text near",
    "regionMatches near text near near", "regionMatches index text index index", "substring near", "substring near near", "substring index index",
        "concat text", "replace letter letter", "contentEquals text") + [
    ("Text.equalsIgnoreCase(text)", ["text", "text"], "$0.equalsIgnoreCase($1)"),
    ("Text.equals, copy", ["text", "letter"], "TEXT copy = $0.replace('a', $1); Seen.put(copy.equalsIgnoreCase($0)); Seen.put(copy.compareTo($0)); "
        "copy.equals($0)"),
    ("Text.indexOf, of a part", ["text", "near", "near", "near"], "TEXT part = $0.substring($1, $2); Seen.put($0.indexOf(part)); "
        "Seen.put($0.lastIndexOf(part)); Seen.put($0.indexOf(part, $3)); Seen.put($0.lastIndexOf(part, $3)); Seen.put($0.endsWith(part)); "
        "$0.startsWith(part, $3)"),
    ("Text.subSequence", ["text", "near", "near"], "Seen.put($0.subSequence($1, $2).length()); $0.subSequence($1, $2).charAt(0)"),
    ("Text.getChars", ["text", "near", "near", "chars", "near"], "try { $0.getChars($1, $2, $3, $4); } finally { Seen.put($3); } 0"),
    ("Text.contains, contentEquals(StringBuilder)", ["text", "text"], "StringBuilder it = new StringBuilder($1); Seen.put($0.contains(it)); "
        "Seen.put($0.contentEquals(it)); $0.contentEquals(new StringBuilder($0))"),
    ("Text.toUpperCase", ["text"], "$0.replace('\\u00e9', 'e').toUpperCase()"),
    ("Text.valueOf(boolean)", ["boolean"], "TEXT.valueOf($0)"), ("Text.valueOf(char)", ["char"], "TEXT.valueOf($0)"), ("Text.valueOf(int)", ["int"],
        "TEXT.valueOf($0)"),
    ("Text.valueOf(long)", ["long"], "TEXT.valueOf($0)"), ("Text.valueOf(chars)", ["chars"], "TEXT.valueOf($0)"), ("Text.copyValueOf(chars)",
        ["chars"], "TEXT.copyValueOf($0)"),
    ("Text.valueOf(chars, part)", ["chars", "near", "near"], "TEXT.valueOf($0, $1, $2)"), ("Text.valueOf(object)", ["object"], "TEXT.valueOf($0)"),
    ("Text.<init>()", [], "new TEXT()"), ("Text.<init>(text)", ["text"], "new TEXT($0)"), ("Text.<init>(chars)", ["chars"],
        "TEXT it = new TEXT($0); if ($0.length > 0) { $0[0]++; } it"),
    ("Text.<init>(chars, part)", ["chars", "near", "near"], "new TEXT($0, $1, $2)"), ("Text.<init>(chars, index)", ["chars", "index", "index"],
        "new TEXT($0, $1, $2)"),
    ("Text.of", ["string", "string", "near"], "TEXT it = TEXT_OF_STRING($0); TEXT other = TEXT_OF_STRING($1); Seen.put(it); "
        "Seen.put(it.equals(other)); Seen.put(it.length()); Seen.put(it.indexOf(other)); Seen.put(it.hashCode()); Seen.put(it.concat(other)); "
        "it.charAt($2)"),
]
STRING_METHODS = static(
    "jop.Strings", "equals string object", "equals,equalsIgnoreCase,compareTo,startsWith,endsWith,contains,indexOf,lastIndexOf,concat string string",
        "hashCode,isEmpty,toCharArray,trim string",
    "indexOf,lastIndexOf string point", "indexOf string point near", "indexOf string string near", "startsWith string string near",
        "startsWith string string index", "substring string near", "substring string near near",
    "replace string letter letter", "valueOf boolean") + [("jop.Strings.getChars", ["string", "near", "near", "chars", "near"], "try { "
        "jop.Strings.getChars($0, $1, $2, $3, $4); } finally { Seen.put($3); } 0")]
BUILDER_METHODS = built(
    "append boolean", "append char", "append int", "append long", "append chars", "append string", "append text", "append object",
        "append chars near near", "append chars index index", "append text near near", "appendCodePoint point", "appendCodePoint int",
    "insert near boolean", "insert near char", "insert near int", "insert near long", "insert near string", "insert near text", "insert near chars",
        "insert near object", "insert near chars near near", "insert index text",
    "setCharAt near letter", "setLength near", "ensureCapacity near", "ensureCapacity byte", "delete near near", "delete index index",
        "deleteCharAt near", "replace near near string", "replace near near text", "replace index index text", "reverse") + [
    ("StringBuilder.charAt", ["text", "near"], "new StringBuilder($0).charAt($1)"), ("StringBuilder.indexOf", ["text", "text"],
        "Seen.put(new StringBuilder($0).indexOf($1)); new StringBuilder($0).lastIndexOf($1)"),
    ("StringBuilder.indexOf(String)", ["text", "string"], "Seen.put(new StringBuilder($0).indexOf($1)); new StringBuilder($0).lastIndexOf($1)"),
    ("StringBuilder.substring", ["text", "near", "near"], "Seen.put(new StringBuilder($0).substring($1)); new StringBuilder($0).substring($1, $2)"),
    ("StringBuilder.subSequence", ["text", "near", "near"], "new StringBuilder($0).subSequence($1, $2).length()"),
    ("StringBuilder.getChars", ["text", "near", "near", "chars", "near"], "try { new StringBuilder($0).getChars($1, $2, $3, $4); } finally { "
        "Seen.put($3); } 0"),
    ("StringBuilder.<init>(int)", ["near"], "StringBuilder it = new StringBuilder($0); Seen.put(it.capacity()); it.append('a').capacity()"),
    ("StringBuilder.<init>(String)", ["string"], "StringBuilder it = new StringBuilder($0); Seen.put(it.capacity()); it.TOTEXT()"),
    ("StringBuilder.<init>(CharSequence)", ["text"], "StringBuilder it = new StringBuilder((CharSequence) new StringBuilder($0)); "
        "it.append((CharSequence) it).TOTEXT()"),
    ("StringBuilder, nulls", [],
        "new StringBuilder().append((String) null).append((Object) null).append((CharSequence) null).append((CharSequence) null, 1, 3).insert(0, "
        "(String) null).TOTEXT()"),
    ("StringBuilder, many", ["text", "long", "int"], "StringBuilder it = new StringBuilder(); for (int k = 0; k < 4; k++) { "
        "it.append($0).append($1).append(' ').append($2); } Seen.put(it.capacity()); it.setLength(5); it.reverse().TOTEXT()"),
]
PROGRAMS = {
    "Longs": static("jop.Longs", "multiply,divide,remainder,divideUnsigned,remainderUnsigned long long"),
    "Maths": static("Math", *(f"abs,negateExact,incrementExact,decrementExact {kind}" for kind in ("int", "long")),
                    *(f"min,max,floorDiv,floorMod,addExact,subtractExact,multiplyExact {kind} {kind}" for kind in ("int", "long")),
                    "toIntExact long"),
    "Integers": bits("Integer", "int") + static("Integer", "toUnsignedLong int") + number("Integer", "int") + parsed("Integer", "parseInt"),
    "LongNumbers": bits("Long", "long") + number("Long", "long") + parsed("Long", "parseLong"),
    "Smalls": sum((number(name, kind) + static(name, f"toUnsignedInt,toUnsignedLong {kind}") + parsed(name, f"parse{name}") + [
        (f"{name} constants", [], f"Seen.put({name}.MIN_VALUE); Seen.put({name}.MAX_VALUE); Seen.put({name}.SIZE); {name}.BYTES")] for name,
            kind in (("Short", "short"), ("Byte", "byte"))), [])
    + static("Short", "reverseBytes short"),
    "Characters": boxed("Character", "char", "charValue") + static(
        "Character", "isDigit,isLetter,isLetterOrDigit,isUpperCase,isLowerCase,toUpperCase,toLowerCase,getNumericValue byteChar",
            "digit byteChar base", "forDigit near base", "forDigit int int",
            "isDigit,isLetter,isLetterOrDigit,isAlphabetic,isUpperCase,isLowerCase,toUpperCase,toLowerCase,getNumericValue bytePoint",
        "digit bytePoint base", "isWhitespace,isSpaceChar,isISOControl,isHighSurrogate,isLowSurrogate,isSurrogate,reverseBytes anyChar",
            "isWhitespace,isSpaceChar,isISOControl,charCount anyPoint", "toCodePoint,isSurrogatePair anyChar anyChar"),
    "Booleans": boxed("Boolean", "boolean", "booleanValue") + static("Boolean", "logicalAnd,logicalOr,logicalXor boolean boolean",
        "parseBoolean string", "parseBoolean digits"),
    "Texts": TEXT_METHODS, "Strings": STRING_METHODS, "Builders": BUILDER_METHODS, "Systems": arraycopy(), "Made": made(), "UtilArrays": arrays(),
        "Streams": streams(), "DataStreams": data_streams(), "Lists": lists(), "HashMaps": maps(), "CollectionHelpers": collections(), "Randoms": random(),
    "Raised": raised(), "Enums": enums(), "ObjectMethods": objects(), "Printed": printed(),
}
MAKERS.update({"byteChar": ("char", "byteChar"), "bytePoint": ("int", "bytePoint"), "anyChar": ("char", "eachChar"), "anyPoint": ("int", "eachPoint")})
