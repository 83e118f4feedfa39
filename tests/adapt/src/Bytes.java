import java.io.ByteArrayInputStream;
import java.io.ByteArrayOutputStream;
import java.io.FilterInputStream;
import java.io.IOException;
import java.io.InputStream;
import java.io.OutputStream;
import java.util.zip.Checksum;

/** Streams over arrays, one of one's own in between, and a checksum. */
public class Bytes {
    static final class Rotating extends FilterInputStream {
        private final int by;

        Rotating(InputStream in, int by) {
            super(in);
            this.by = by;
        }

        @Override
        public int read() throws IOException {
            int read = super.read();
            return read < 0 ? read : read + by & 255;
        }

        @Override
        public int read(byte[] into, int from, int count) throws IOException {
            int done = super.read(into, from, count);
            for (int k = 0; k < done; k++) {
                into[from + k] += by;
            }
            return done;
        }
    }

    static final class Crc implements Checksum {
        private static final int[] TABLE = new int[256];
        private int value = -1;

        static {
            for (int k = 0; k < 256; k++) {
                int row = k;
                for (int bit = 0; bit < 8; bit++) {
                    row = (row & 1) == 0 ? row >>> 1 : row >>> 1 ^ 0xedb88320;
                }
                TABLE[k] = row;
            }
        }

        @Override
        public void update(int b) {
            value = value >>> 8 ^ TABLE[(value ^ b) & 255];
        }

        @Override
        public void update(byte[] bytes, int from, int count) {
            for (int k = from; k < from + count; k++) {
                update(bytes[k]);
            }
        }

        @Override
        public long getValue() {
            return ~value & 0xffffffffL;
        }

        @Override
        public void reset() {
            value = -1;
        }
    }

    static void copy(InputStream from, OutputStream to) throws IOException {
        byte[] buffer = new byte[7];
        for (int count = from.read(buffer); count >= 0; count = from.read(buffer)) {
            to.write(buffer, 0, count);
        }
        to.flush();
    }

    public static void main(String[] args) throws IOException {
        byte[] bytes = new byte[20];
        for (int k = 0; k < bytes.length; k++) {
            bytes[k] = (byte) (k * k);
        }
        ByteArrayOutputStream out = new ByteArrayOutputStream();
        Rotating rotating = new Rotating(new ByteArrayInputStream(bytes, 2, 17), 3);
        out.write(rotating.read());
        copy(rotating, out);
        byte[] copied = out.toByteArray();
        Crc crc = new Crc();
        crc.update(copied, 0, copied.length);
        System.out.println(copied.length + " " + copied[0] + " " + copied[16] + " " + crc.getValue() + " " + rotating.read());
        crc.reset();
        for (char each : "123456789".toCharArray()) {
            crc.update(each);
        }
        System.out.println(Long.toHexString(crc.getValue()));
    }
}
