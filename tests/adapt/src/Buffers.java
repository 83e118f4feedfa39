import java.nio.Buffer;
import java.nio.BufferOverflowException;
import java.nio.BufferUnderflowException;
import java.nio.ByteBuffer;
import java.nio.ByteOrder;
import java.nio.InvalidMarkException;
import java.nio.ReadOnlyBufferException;
import java.util.Arrays;

/** Bytes of arrays as a ByteBuffer. */
public class Buffers {
    private static void raised(Runnable change) {
        try {
            change.run();
            System.out.print("nothing ");
        } catch (BufferOverflowException raised) {
            System.out.print("overflow ");
        } catch (BufferUnderflowException raised) {
            System.out.print("underflow ");
        } catch (InvalidMarkException raised) {
            System.out.print("no mark ");
        } catch (ReadOnlyBufferException raised) {
            System.out.print("read only ");
        } catch (UnsupportedOperationException raised) {
            System.out.print("unsupported ");
        } catch (IllegalArgumentException raised) {
            System.out.print("argument ");
        } catch (IndexOutOfBoundsException raised) {
            System.out.print("index ");
        }
    }

    private static void told(ByteBuffer of) {
        System.out.println(of + " " + of.remaining() + of.hasRemaining() + of.capacity() + of.order() + of.hashCode());
    }

    private static void numbers(ByteOrder order) {
        ByteBuffer own = ByteBuffer.allocate(40).order(order);
        own.put((byte) -2).putShort((short) -12345).putChar('\u8765').putInt(0x89abcdef).putLong(0x89abcdef01234567L);
        own.put(new byte[] {1, 2, 3}).put(new byte[] {4, 5, 6, 7}, 1, 2);
        told(own);
        own.flip();
        System.out.println(Arrays.toString(own.array()) + own.arrayOffset());
        System.out.println(own.get() + " " + own.getShort() + " " + (int) own.getChar() + " " + own.getInt() + " " + own.getLong());
        byte[] rest = new byte[3];
        own.get(rest).get(rest, 1, 2);
        System.out.println(Arrays.toString(rest));
        raised(own::get);
        raised(own::getShort);
        raised(() -> own.get(rest));
        raised(() -> own.put((byte) 1));
        own.clear();
        own.put(30, (byte) 9).putShort(31, (short) 0x1234).putChar(33, 'x').putInt(36, -2);
        raised(() -> own.putLong(33, 5));
        raised(() -> own.getInt(37));
        raised(() -> own.getInt(-1));
        raised(() -> own.get(40));
        own.putLong(8, Long.MIN_VALUE + 5);
        System.out.println(own.get(30) + " " + own.getShort(31) + own.getChar(33) + own.getInt(36) + " " + own.getLong(8) + " " + own.getInt(9) + own.get(15));
    }

    private static void places() {
        byte[] bytes = {10, 20, 30, 40, 50, 60, 70, 80};
        ByteBuffer part = ByteBuffer.wrap(bytes, 2, 4);
        told(part);
        raised(part::reset);
        part.get();
        part.mark();
        part.get();
        part.reset();
        System.out.print(part.get() + " " + part.position() + " ");
        part.position(2);
        raised(part::reset);
        raised(() -> part.position(7));
        raised(() -> part.position(-1));
        raised(() -> part.limit(9));
        raised(() -> part.limit(-1));
        part.limit(8);
        part.position(3);
        ByteBuffer slice = part.slice();
        slice.put(0, (byte) 99);
        told(slice);
        System.out.println(slice.arrayOffset() + " " + part.get() + slice.slice().arrayOffset() + slice.isDirect() + slice.isReadOnly() + slice.hasArray());
        ByteBuffer piece = slice.slice(1, 3);
        told(piece);
        raised(() -> slice.slice(3, 3));
        part.limit(6);
        part.compact();
        told(part);
        System.out.println(Arrays.toString(bytes));
        part.rewind();
        ByteBuffer twin = part.duplicate();
        twin.get();
        told(twin);
        told(part);
        System.out.println(part.equals(twin) + " " + part.compareTo(twin) + " " + twin.compareTo(part) + part.equals("x") + part.equals(part));
        Buffer plain = twin.clear().limit(3);
        System.out.println(plain.position() + " " + plain.limit() + plain.flip().limit() + plain.clear().rewind().mark().reset().position(1).position());
        System.out.println(((byte[]) plain.array()).length + " " + plain.hasArray() + plain.arrayOffset() + plain.isReadOnly() + plain.slice().capacity()
            + plain.duplicate().limit() + plain.slice(2, 3).capacity() + plain.isDirect());
    }

    private static void whole() {
        ByteBuffer from = ByteBuffer.wrap(new byte[] {1, 2, 3, 4, 5});
        ByteBuffer to = ByteBuffer.allocate(7);
        to.put(from);
        told(to);
        raised(() -> to.put(ByteBuffer.allocate(3)));
        raised(() -> to.put(to));
        raised(() -> ByteBuffer.allocate(-1));
        raised(() -> ByteBuffer.wrap(new byte[4], 3, 2));
        raised(() -> to.put(new byte[3], 2, 2));
        raised(() -> to.put(new byte[3]));
        raised(() -> to.putLong(7L));
        to.flip();
        ByteBuffer fixed = to.asReadOnlyBuffer();
        told(fixed);
        raised(() -> fixed.put((byte) 1));
        raised(() -> fixed.put(0, (byte) 1));
        raised(() -> fixed.putInt(1));
        raised(() -> fixed.putInt(0, 1));
        raised(() -> fixed.put(new byte[1]));
        raised(() -> fixed.put(ByteBuffer.allocate(1)));
        raised(fixed::compact);
        raised(fixed::array);
        raised(fixed::arrayOffset);
        System.out.println(fixed.isReadOnly() + " " + fixed.hasArray() + fixed.getInt() + fixed.duplicate().isReadOnly() + fixed.slice().get());
        to.put(0, (byte) -7);
        System.out.println(fixed.get(0) + " " + to.compareTo(from) + fixed.rewind().equals(to) + ByteBuffer.allocate(0).hashCode() + ByteBuffer.allocate(0).equals(fixed));
    }

    public static void main(String[] arguments) {
        numbers(ByteOrder.BIG_ENDIAN);
        numbers(ByteOrder.LITTLE_ENDIAN);
        places();
        whole();
    }
}
