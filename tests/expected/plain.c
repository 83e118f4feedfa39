/* A plain simulator of the machine, to compare with: it assembles the microcode, takes a linked image and runs it, cycle by cycle.
 * It was written from the table of microinstructions and the format of linked images (docs/formats.md), and shares no code with `jop`.
 *
 *     cc -O2 -o plain plain.c
 *     plain [--trace | --micro | --misses] MICROCODE IMAGE [stack memory blocks block_words read write cycles]
 *
 * MICROCODE is a text of microcode, IMAGE a linked or a bare image. Input is standard input, output standard output; how the run ended
 * stands on standard error, as `jop run` writes it, but for the name of an exception, in whose place stands the number of its type.
 * With --trace the lines of a trace stand on standard output, as `jop trace` writes them, and with --micro those of its cycles too. With
 * --misses each line of a step has the misses at its end, and the boundary at which the cycles are spent has a line, too. */
#include <stdint.h>
#include <stdio.h>
#include <stdlib.h>
#include <string.h>

typedef uint32_t u32;
typedef uint64_t u64;

static const char *NAMES[] = {"nop", "pop", "dup", "add", "sub", "and", "or", "xor", "shl", "shr", "ushr", "mul", "slt", "sltu", "ldo", "ldo8",
    "ldo16", "ldl", "stl", "ld0", "ld1", "ld2", "ld3", "st0", "st1", "st2", "st3", "ldvp", "stvp", "ldsp", "stsp", "ldjpc", "stjpc", "star",
    "ldmi", "stmi", "stmra", "stmwa", "stmwd", "wait", "ldmrd", "stbc", "jbr", "jbg", "ldin", "stout", "hltb", "hltu"};

static uint16_t rom[2048], entries[256], raise_entry;
static u32 constants[32];

/* ---- the assembler */

static struct { char name[64]; u32 at; } labels[4096];
static u32 label_count;

static void die(const char *why, const char *what) { fprintf(stderr, "%s %s\n", why, what); exit(6); }

static u32 label_at(const char *name) {
    for (u32 i = 0; i < label_count; i++) if (!strcmp(labels[i].name, name)) return labels[i].at;
    die("no label", name);
    return 0;
}

static u32 body_of(const char *name, const char *argument) {
    for (u32 i = 0; i < sizeof NAMES / sizeof *NAMES; i++) if (!strcmp(NAMES[i], name)) return i;
    if (!strcmp(name, "stm")) return 0x100 + atoi(argument);
    if (!strcmp(name, "ldm")) return 0x120 + atoi(argument);
    if (!strcmp(name, "ldi")) return 0x140 + atoi(argument);
    if (!strcmp(name, "bz")) return 0x800 + label_at(argument);
    if (!strcmp(name, "bnz")) return 0x1000 + label_at(argument);
    if (!strcmp(name, "jmp")) return 0x1800 + label_at(argument);
    die("no microinstruction", name);
    return 0;
}

static void assemble(char *text, int pass) {
    u32 at = 0;
    for (char *line = strtok(text, "\n"); line; line = strtok(NULL, "\n")) {
        char copy[512], *parts[16], *rest = copy;
        int count = 0;
        snprintf(copy, sizeof copy, "%s", line);
        copy[strcspn(copy, ";")] = 0;
        for (char *part; (part = strsep(&rest, " ")) != NULL;) if (*part) parts[count++] = part;
        int i = 0;
        for (; i < count && parts[i][strlen(parts[i]) - 1] == ':'; i++) if (pass == 0) {
            snprintf(labels[label_count].name, 64, "%.*s", (int)strlen(parts[i]) - 1, parts[i]);
            labels[label_count++].at = at;
        }
        if (i == count || !strcmp(parts[i], ".turns")) continue;
        if (!strcmp(parts[i], ".entry")) { entries[atoi(parts[i + 1])] = at; continue; }
        if (!strcmp(parts[i], ".raise")) { raise_entry = at; continue; }
        if (!strcmp(parts[i], ".const")) { constants[atoi(parts[i + 1])] = (u32)atoll(parts[i + 2]); continue; }
        if (pass == 1) {
            int has = i + 1 < count && strcmp(parts[i + 1], "opd") && strcmp(parts[i + 1], "nxt");
            u32 word = body_of(parts[i], has ? parts[i + 1] : "");
            for (int k = i + 1; k < count; k++) word |= !strcmp(parts[k], "opd") ? 0x4000 : !strcmp(parts[k], "nxt") ? 0x8000 : 0;
            rom[at % 2048] = word;
        }
        at++;
    }
}

static unsigned char *file_of(const char *name, size_t *length) {
    FILE *file = fopen(name, "rb");
    if (!file) die("no file", name);
    unsigned char *bytes = malloc(1 << 25);
    *length = fread(bytes, 1, (1 << 25) - 1, file);
    bytes[*length] = 0;
    fclose(file);
    return bytes;
}

/* ---- the machine */

static u32 size = 1024, words = 262144, blocks = 16, block_words = 64, read_waits = 1, write_waits = 2;
static u32 chip[1024], *memory, a, b, sp, vp, ar, jpc, mpc, operand, opcode, method, read_value, write_at, port, stall;
static u64 clock_count, hits, misses;
static int traces, shows_cycles, shows_misses;
/* the cache: methods, newest first, with their blocks */
static struct { u32 method, blocks; } cache[256];
static u32 cached;

static u32 code_words(u32 place) { return memory[place + 1] & 0xffff; }
static u32 code_place(u32 place) { return place + 4 + 3 * memory[place + 3]; }
static u32 blocks_of(u32 place) { return (code_words(place) + block_words - 1) / block_words; }

static void load(u32 place) {
    u32 sum = blocks_of(place), kept = 0;
    while (kept < cached && sum + cache[kept].blocks <= blocks) sum += cache[kept++].blocks;
    memmove(cache + 1, cache, kept * sizeof *cache);
    cache[0].method = place;
    cache[0].blocks = blocks_of(place);
    cached = kept + 1;
}

static void look_up(u32 place) {
    method = place;
    for (u32 i = 0; i < cached; i++) if (cache[i].method == place) { hits++; return; }
    misses++;
    load(place);
    stall = 4 + code_words(place) * (2 + read_waits);
}

static u32 byte_of(u32 place, u32 at) {
    if (at / 4 >= code_words(place)) return 0;
    return memory[code_place(place) + at / 4] >> (24 - 8 * (at % 4)) & 0xff;
}

static u32 code_byte(u32 at) { return byte_of(method, at); }

static inline void push(u32 x) { sp = (sp + 1) % size; chip[sp] = b; b = a; a = x; }
static inline u32 pop(void) { u32 x = a; a = b; b = chip[sp]; sp = (sp + size - 1) % size; return x; }
#define BINARY(e) do { u32 y = pop(), x = a; a = (u32)(e); } while (0)

static int holds(void) {
    int32_t x = (int32_t)b, y = (int32_t)a;
    switch (opcode) {
        case 153: case 198: return y == 0;
        case 154: case 199: return y != 0;
        case 155: return y < 0;
        case 156: return y >= 0;
        case 157: return y > 0;
        case 158: return y <= 0;
        case 159: case 165: return x == y;
        case 160: case 166: return x != y;
        case 161: return x < y;
        case 162: return x >= y;
        case 163: return x > y;
        case 164: return x <= y;
        default: return 0;
    }
}

/* runs a microinstruction; answers whether it halts: 1 ended, 2 uncaught */
static int step(void) {
    u32 word = rom[mpc], body = word & 0x3fff, next = (mpc + 1) % 2048;
    if (body >= 0x800) {
        u32 kind = body >> 11, to = body & 0x7ff;
        int goes = kind == 3 || (pop() == 0) == (kind == 1);
        mpc = goes ? to : next;
        if (goes) stall = 2;
        return 0;
    }
    if (body >= 0x100) {
        u32 k = body & 31;
        switch (body >> 5) {
            case 8: chip[k] = a; pop(); break;
            case 9: push(chip[k]); break;
            default: push(chip[32 + k]); break;
        }
    } else switch (body) {
        case 0: break;
        case 1: pop(); break;
        case 2: push(a); break;
        case 3: BINARY(x + y); break;
        case 4: BINARY(x - y); break;
        case 5: BINARY(x & y); break;
        case 6: BINARY(x | y); break;
        case 7: BINARY(x ^ y); break;
        case 8: BINARY(x << (y & 31)); break;
        case 9: BINARY((int32_t)x >> (y & 31)); break;
        case 10: BINARY(x >> (y & 31)); break;
        case 11: BINARY(x * y); break;
        case 12: BINARY((int32_t)x < (int32_t)y); break;
        case 13: BINARY(x < y); break;
        case 14: push(operand); break;
        case 15: push((u32)(int8_t)operand); break;
        case 16: push((u32)(int16_t)operand); break;
        case 17: push(chip[(vp + operand) % size]); break;
        case 18: { u32 to = (vp + operand) % size, x = pop(); chip[to] = x; break; }
        case 19: case 20: case 21: case 22: push(chip[(vp + body - 19) % size]); break;
        case 23: case 24: case 25: case 26: { u32 x = pop(); chip[(vp + body - 23) % size] = x; break; }
        case 27: push(vp); break;
        case 28: vp = pop() % size; break;
        case 29: { u32 old = sp; push(old); break; }
        case 30: { u32 x = pop(); sp = x % size; break; }
        case 31: push(jpc); break;
        case 32: jpc = pop() & 0xffff; break;
        case 33: ar = pop() % size; break;
        case 34: push(chip[ar]); break;
        case 35: { u32 x = pop(); chip[ar] = x; break; }
        case 36: { u32 at = pop(); read_value = at < words ? memory[at] : 0; port = read_waits + 1; break; }
        case 37: write_at = pop(); break;
        case 38: { u32 x = pop(); if (write_at < words) memory[write_at] = x; port = write_waits + 1; break; }
        case 39: if (port) return 0; break;
        case 40: push(read_value); break;
        case 41: look_up(pop()); break;
        case 42: if (holds()) jpc = (jpc - 3 + (int16_t)operand) & 0xffff; pop(); break;
        case 43: jpc = (jpc - 3 + (int16_t)operand) & 0xffff; break;
        case 44: { int c = getchar(); push(c == EOF ? 0xffffffff : (u32)c); break; }
        case 45: { u32 byte = pop() & 0xff; traces ? printf("write %02x\n", byte) : putchar(byte); break; }
        case 46: if (vp == 64) return 1; break;
        case 47: if (vp == 64) return 2; break;
    }
    if (word & 0x4000) { operand = operand << 8 | code_byte(jpc); jpc = (jpc + 1) & 0xffff; }
    mpc = next;
    if (word & 0x8000) { operand = 0; opcode = code_byte(jpc); jpc = (jpc + 1) & 0xffff; mpc = entries[opcode]; }
    return 0;
}

/* ---- the names of methods: those of the core classes, of the image's class files and of jop/Boot, in the order in which they lie in memory */

#define BOTH(name) "java/lang/" name ".<init>()V", "java/lang/" name ".<init>(Ljava/lang/String;)V"
static const char *CORE[] = {"java/lang/Object.<init>()V", "java/lang/String.length()I", "java/lang/String.charAt(I)C", BOTH("Throwable"),
    "java/lang/Throwable.getMessage()Ljava/lang/String;", BOTH("Exception"), BOTH("RuntimeException"), BOTH("Error"), BOTH("ArithmeticException"),
    BOTH("ArrayStoreException"), BOTH("ClassCastException"), BOTH("IllegalArgumentException"), BOTH("IllegalStateException"),
    BOTH("IndexOutOfBoundsException"), BOTH("ArrayIndexOutOfBoundsException"), BOTH("NegativeArraySizeException"), BOTH("NullPointerException"),
    BOTH("LinkageError"), BOTH("IncompatibleClassChangeError"), BOTH("VirtualMachineError"), BOTH("OutOfMemoryError"), BOTH("StackOverflowError"),
    "jop/Io.read()I", "jop/Io.write(I)V"};

static const char *names[65536], **name_at;
static u32 name_count;

static u32 two(const unsigned char *at) { return at[0] << 8 | at[1]; }
static u32 four(const unsigned char *at) { return two(at) << 16 | two(at + 2); }

static const unsigned char *behind_attributes(const unsigned char *at) {
    u32 count = two(at);
    for (at += 2; count; count--) at += 6 + four(at + 2);
    return at;
}

/* takes the names of a class file's methods with code */
static void name_methods(const unsigned char *file) {
    static const unsigned char *pool[65536];
    static const int sizes[] = {0, 0, 0, 5, 5, 9, 9, 3, 3, 5, 5, 5, 5, 0, 0, 4, 3, 0, 5};
    const unsigned char *at = file + 10;
    for (u32 i = 1; i < two(file + 8); i++) {
        pool[i] = at;
        if (*at == 5 || *at == 6) i++;
        at += *at == 1 ? 3 + two(at + 1) : (u32)sizes[*at];
    }
    const unsigned char *class_name = pool[two(pool[two(at + 2)] + 1)];
    at += 8 + 2 * two(at + 6);
    for (int members = 0; members < 2; members++) {
        u32 count = two(at);
        for (at += 2; count; count--) {
            const unsigned char *name = pool[two(at + 2)], *descriptor = pool[two(at + 4)];
            int has_code = members == 1 && (two(at) & 0x500) == 0;
            if (has_code) {
                char *text = malloc(two(class_name + 1) + two(name + 1) + two(descriptor + 1) + 2);
                sprintf(text, "%.*s.%.*s%.*s", (int)two(class_name + 1), class_name + 3, (int)two(name + 1), name + 3, (int)two(descriptor + 1), descriptor + 3);
                names[name_count++] = text;
            }
            at = behind_attributes(at + 6);
        }
    }
}

/* whether as many methods as there are names lie from this place on, up to the first of the objects that are raised */
static int lie_from(u32 at) {
    u32 end = memory[memory[4]];
    for (u32 i = 0; i < name_count; i++) {
        if (at + 4 > end || code_words(at) == 0 || code_place(at) + code_words(at) > end) return 0;
        name_at[at] = names[i];
        at = code_place(at) + code_words(at);
    }
    return at == end;
}

static void name_places(const unsigned char *files, u32 count, u32 total) {
    for (; name_count < sizeof CORE / sizeof *CORE; name_count++) names[name_count] = CORE[name_count];
    for (; count; count--) {
        name_methods(files + 4);
        files += 4 + four(files);
    }
    names[name_count++] = "jop/Boot.boot()V";
    name_at = calloc(total, sizeof *name_at);
    u32 first = memory[2];
    while (!lie_from(first)) {
        if (++first == total) die("no methods", "");
        memset(name_at, 0, total * sizeof *name_at);
    }
}

/* ---- the lines of a trace */

static const char *MNEMONICS[] = {"nop", "aconst_null", "iconst_m1", "iconst_0", "iconst_1", "iconst_2", "iconst_3", "iconst_4", "iconst_5", "lconst_0",
    "lconst_1", "fconst_0", "fconst_1", "fconst_2", "dconst_0", "dconst_1", "bipush", "sipush", "ldc", "ldc_w", "ldc2_w", "iload", "lload", "fload",
    "dload", "aload", "iload_0", "iload_1", "iload_2", "iload_3", "lload_0", "lload_1", "lload_2", "lload_3", "fload_0", "fload_1", "fload_2",
    "fload_3", "dload_0", "dload_1", "dload_2", "dload_3", "aload_0", "aload_1", "aload_2", "aload_3", "iaload", "laload", "faload", "daload",
    "aaload", "baload", "caload", "saload", "istore", "lstore", "fstore", "dstore", "astore", "istore_0", "istore_1", "istore_2", "istore_3",
    "lstore_0", "lstore_1", "lstore_2", "lstore_3", "fstore_0", "fstore_1", "fstore_2", "fstore_3", "dstore_0", "dstore_1", "dstore_2", "dstore_3",
    "astore_0", "astore_1", "astore_2", "astore_3", "iastore", "lastore", "fastore", "dastore", "aastore", "bastore", "castore", "sastore", "pop",
    "pop2", "dup", "dup_x1", "dup_x2", "dup2", "dup2_x1", "dup2_x2", "swap", "iadd", "ladd", "fadd", "dadd", "isub", "lsub", "fsub", "dsub", "imul",
    "lmul", "fmul", "dmul", "idiv", "ldiv", "fdiv", "ddiv", "irem", "lrem", "frem", "drem", "ineg", "lneg", "fneg", "dneg", "ishl", "lshl", "ishr",
    "lshr", "iushr", "lushr", "iand", "land", "ior", "lor", "ixor", "lxor", "iinc", "i2l", "i2f", "i2d", "l2i", "l2f", "l2d", "f2i", "f2l", "f2d",
    "d2i", "d2l", "d2f", "i2b", "i2c", "i2s", "lcmp", "fcmpl", "fcmpg", "dcmpl", "dcmpg", "ifeq", "ifne", "iflt", "ifge", "ifgt", "ifle",
    "if_icmpeq", "if_icmpne", "if_icmplt", "if_icmpge", "if_icmpgt", "if_icmple", "if_acmpeq", "if_acmpne", "goto", "jsr", "ret", "tableswitch",
    "lookupswitch", "ireturn", "lreturn", "freturn", "dreturn", "areturn", "return", "getstatic", "putstatic", "getfield", "putfield",
    "invokevirtual", "invokespecial", "invokestatic", "invokeinterface", "invokedynamic", "new", "newarray", "anewarray", "arraylength", "athrow",
    "checkcast", "instanceof", "monitorenter", "monitorexit", "wide", "multianewarray", "ifnull", "ifnonnull", "goto_w", "jsr_w"};

static const char *mnemonic(u32 code) { return code == 254 ? "impdep1" : code == 255 ? "impdep2" : MNEMONICS[code]; }

static u32 four_of(u32 place, u32 at) {
    u32 word = 0;
    for (int i = 0; i < 4; i++) word = word << 8 | byte_of(place, at + i);
    return word;
}

/* the bytes of the instruction at a place in a method's code (JVM Specification SE 8, chapter 6) */
static u32 length_at(u32 place, u32 at) {
    u32 code = byte_of(place, at), header = at / 4 * 4 + 4;
    switch (code) {
        case 16: case 18: case 21: case 22: case 23: case 24: case 25: case 54: case 55: case 56: case 57: case 58: case 169: case 188: return 2;
        case 17: case 19: case 20: case 132: case 187: case 189: case 192: case 193: case 198: case 199: return 3;
        case 170: return header + 12 + 4 * (four_of(place, header + 8) - four_of(place, header + 4) + 1) - at;
        case 171: return header + 8 + 8 * four_of(place, header + 4) - at;
        case 185: case 186: case 200: case 201: return 5;
        case 196: return byte_of(place, at + 1) == 132 ? 6 : 4;
        case 197: return 4;
        default: return (code >= 153 && code <= 168) || (code >= 178 && code <= 184) ? 3 : 1;
    }
}

/* a word of the stack, of which the two on top are in registers */
static u32 stack_word(u32 at) { return at == sp + 2 ? a : at == sp + 1 ? b : chip[at]; }

/* Before a bytecode or a step of raising. On the stack lie the frames: the locals, the five words of the caller that are saved (SP, PC, VP, pool
 * and method) and the operands; VP is where the locals of the last one begin, and 64 in that of boot. */
static void show_boundary(void) {
    int raises = mpc == raise_entry;
    u32 top = chip[25], saved = vp + (memory[top] >> 16), operands = sp + 3 - (saved + 5), at = jpc - 1, frames = 1;
    if (raises) {
        operands = 0;
        for (at = 0; at + length_at(top, at) <= jpc - 1; ) at += length_at(top, at);
    }
    for (u32 below = vp; below != 64; frames++) {
        u32 caller = stack_word(saved + 4);
        below = stack_word(saved + 2);
        saved = below + (memory[caller] >> 16);
    }
    printf("%llu %s %u %s frames=%u operands=%u", (unsigned long long)clock_count, name_at[top], at, raises ? "raise" : mnemonic(opcode), frames, operands);
    if (shows_misses) printf(" misses=%llu", (unsigned long long)misses);
    printf("\n");
}

static void show_cycle(void) { printf("%llu %03x %08x %08x %03x %03x\n", (unsigned long long)clock_count, mpc, a, b, sp, vp); }

/* ---- images at reset */

/* the words of a linked image at the beginning of the memory, how many there are, and what chip has of them */
static u32 load_linked(const unsigned char *image) {
    const unsigned char *at = image + 8 + two(image + 6);
    u32 total = four(at), files = four(at + 4);
    memory = calloc(words, 4);
    for (u32 i = 0; i < total; i++) memory[i] = four(at + 8 + 4 * i);
    chip[24] = memory[2];
    chip[25] = memory[1];
    chip[26] = total;
    chip[30] = memory[4];
    if (traces) name_places(at + 8 + 4 * total, files, total);
    return memory[1];
}

/* A bare image has no word of memory, and none is read; here the only method lies there, as one of a linked image does. */
static u32 load_bare(const unsigned char *image) {
    static const char *boot = "boot";
    u32 length = four(image + 10);
    memory = calloc(words + 4 + length / 4 + 1, 4);
    memory[0] = four(image + 6);
    memory[1] = (length + 3) / 4;
    for (u32 i = 0; i < length; i++) memory[4 + i / 4] |= (u32)image[14 + i] << (24 - 8 * (i % 4));
    name_at = &boot;
    return 0;
}

static void reset(const unsigned char *image) {
    int is_linked = !memcmp(image, "JOPI", 4);
    if (!is_linked && memcmp(image, "JOPB", 4)) die("no image", "");
    memcpy(chip + 32, constants, sizeof constants);
    u32 boot = is_linked ? load_linked(image) : load_bare(image), locals = memory[boot] >> 16;
    chip[27] = words;
    chip[28] = locals + 5 + (memory[boot] & 0xffff);
    chip[29] = size - 80;
    vp = 64;
    sp = 64 + locals + 2;
    method = boot;
    load(boot);
    opcode = code_byte(0);
    jpc = 1;
    mpc = entries[opcode];
}

/* runs to the end, or to the first boundary whose clock has the limit; answers how it ended: 0 for the limit, else as `step` does */
static int run(u64 limit) {
    int end = 0;
    while (!end) {
        if (stall == 0 && (mpc == entries[opcode] || mpc == raise_entry)) {
            int is_last = clock_count >= limit;
            if (is_last ? shows_misses : traces) show_boundary();
            if (is_last) return 0;
        }
        if (shows_cycles) show_cycle();
        clock_count++;
        if (port) port--;
        if (stall) stall--;
        else end = step();
    }
    return end;
}

int main(int count, char **given) {
    if (count > 1 && given[1][0] == '-') {
        traces = 1;
        shows_cycles = !strcmp(given[1], "--micro");
        shows_misses = !strcmp(given[1], "--misses");
        if (!shows_cycles && !shows_misses && strcmp(given[1], "--trace")) die("no option", given[1]);
        given++;
        count--;
    }
    if (count < 3) die("plain [--trace | --micro | --misses] MICROCODE IMAGE", "[stack memory blocks block_words read write cycles]");
    size_t length;
    char *text = (char *)file_of(given[1], &length), *again = strdup(text);
    assemble(text, 0);
    assemble(again, 1);
    unsigned char *image = file_of(given[2], &length);
    u64 limit = count > 9 ? strtoull(given[9], NULL, 10) : 1000000000;
    u32 *settings[] = {&size, &words, &blocks, &block_words, &read_waits, &write_waits};
    for (int i = 0; i < 6 && i + 3 < count; i++) *settings[i] = atoi(given[i + 3]);
    reset(image);
    int end = run(limit);
    fflush(stdout);
    if (end == 2) fprintf(stderr, "uncaught %u", memory[memory[chip[31]]]);
    else fputs(end ? "ended" : "spent", stderr);
    fprintf(stderr, " cycles=%llu hits=%llu misses=%llu\n", (unsigned long long)clock_count, (unsigned long long)hits, (unsigned long long)misses);
    return end == 2 ? 1 : end ? 0 : 3;
}
