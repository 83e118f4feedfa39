package net.jpountz.lz4;

/** A block of LZ4 is unpacked, by both decoders; in the package of the library, since what picks the classes there goes by reflection. */
public class Lz4 {
    public static void main(String[] args) {
        byte[] packed = new byte[1000];
        int count = 0;
        for (int read = jop.Io.read(); read >= 0; read = jop.Io.read()) {
            packed[count++] = (byte) read;
        }
        byte[] unpacked = new byte[500];
        int used = LZ4JavaSafeFastDecompressor.INSTANCE.decompress(packed, 0, unpacked, 0, 500);
        put(unpacked, 500);
        int made = LZ4JavaSafeSafeDecompressor.INSTANCE.decompress(packed, 0, count, unpacked, 0, 500);
        put(unpacked, made);
        jop.Io.write(used - count);
        packed[40] ^= 85;
        try {
            LZ4JavaSafeSafeDecompressor.INSTANCE.decompress(packed, 0, count, unpacked, 0, 500);
        } catch (LZ4Exception e) {
            jop.Io.write('!');
        }
        put(unpacked, 500);
    }

    private static void put(byte[] bytes, int count) {
        for (int k = 0; k < count; k++) {
            jop.Io.write(bytes[k]);
        }
    }
}
