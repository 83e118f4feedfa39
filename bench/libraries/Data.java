/** Bytes that are the same on each run: some that repeat, some that look like chance. */
final class Data {
    private Data() {
    }

    /** So many bytes of a text that repeats with changes. */
    static byte[] text(int count) {
        byte[] bytes = new byte[count];
        int seed = 1;
        for (int k = 0; k < count; k++) {
            seed = seed * 1103515245 + 12345;
            bytes[k] = (byte) ((seed >>> 28) == 0 ? 'A' + (seed >>> 16 & 15) : 'a' + k % 23);
        }
        return bytes;
    }

    /** So many bytes that look like chance. */
    static byte[] noise(int count) {
        byte[] bytes = new byte[count];
        int seed = 7;
        for (int k = 0; k < count; k++) {
            seed = seed * 1664525 + 1013904223;
            bytes[k] = (byte) (seed >>> 24);
        }
        return bytes;
    }

    /** Puts bytes out. */
    static void put(byte[] bytes) {
        for (byte each : bytes) {
            jop.Io.write(each);
        }
    }

    /** Puts the first bytes out. */
    static void put(byte[] bytes, int count) {
        for (int k = 0; k < count; k++) {
            jop.Io.write(bytes[k]);
        }
    }

    /** Puts the eight bytes of a long out. */
    static void put(long value) {
        for (int shift = 56; shift >= 0; shift -= 8) {
            jop.Io.write((int) (value >>> shift));
        }
    }

    /** All of standard input. */
    static byte[] input() {
        byte[] bytes = new byte[4096];
        int count = 0;
        for (int read = jop.Io.read(); read >= 0; read = jop.Io.read()) {
            bytes[count++] = (byte) read;
        }
        byte[] all = new byte[count];
        for (int k = 0; k < count; k++) {
            all[k] = bytes[k];
        }
        return all;
    }
}
