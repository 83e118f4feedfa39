import java.math.BigInteger;

/** Whole numbers of many digits. */
public class BigNumbers {
    private static int seed = 9;

    private static int next(int below) {
        seed = seed * 1103515245 + 12345;
        return (seed >>> 16 & 0x7fff) % below;
    }

    private static BigInteger number() {
        byte[] bytes = new byte[1 + next(14)];
        int kind = next(4);
        for (int k = 0; k < bytes.length; k++) {
            bytes[k] = (byte) (kind == 0 ? -1 : kind == 1 ? 0 : next(256));
        }
        if (kind == 1) {
            bytes[0] = (byte) (1 << next(8));
        }
        return next(2) == 0 ? new BigInteger(bytes) : new BigInteger(next(2) * 2 - 1, bytes);
    }

    private static String bytes(BigInteger of) {
        String all = "";
        for (byte each : of.toByteArray()) {
            all += Integer.toHexString(each & 0xff) + " ";
        }
        return all;
    }

    private static void tell(BigInteger one, BigInteger other, int count) {
        System.out.println(one + " " + other + " " + one.toString(16) + " " + one.toString(2 + next(35)) + " " + bytes(one));
        System.out.println(one.add(other) + " " + one.subtract(other) + " " + one.multiply(other) + " " + one.negate() + " " + one.abs());
        System.out.println(one.compareTo(other) + " " + one.equals(other) + one.equals(new BigInteger(one.toString())) + one.hashCode() + " " + one.signum());
        System.out.println(one.bitLength() + " " + one.testBit(count) + " " + one.shiftLeft(count) + " " + one.shiftRight(count) + " " + one.shiftLeft(-3)
            + " " + one.shiftRight(-3));
        System.out.println(one.intValue() + " " + one.longValue() + " " + one.max(other) + " " + one.min(other) + " " + one.pow(count % 5));
        try {
            BigInteger[] both = one.divideAndRemainder(other);
            System.out.println(one.divide(other) + " " + one.remainder(other) + " " + both[0] + " " + both[1]);
            System.out.println(one.mod(other));
        } catch (ArithmeticException raised) {
            System.out.println("no quotient");
        }
    }

    private static void bits(BigInteger one, BigInteger other, int place) {
        System.out.println(one.and(other) + " " + one.or(other) + " " + one.xor(other) + " " + one.andNot(other) + " " + one.not());
        System.out.println(one.setBit(place) + " " + one.clearBit(place) + " " + one.flipBit(place) + " " + one.getLowestSetBit() + " " + one.bitCount());
    }

    private static void modulo(BigInteger one, BigInteger exponent, BigInteger modulus) {
        System.out.println(one.gcd(exponent) + " " + exponent.gcd(modulus) + " " + one.multiply(modulus).gcd(exponent.multiply(modulus)));
        try {
            System.out.println(one.modPow(exponent, modulus));
        } catch (ArithmeticException raised) {
            System.out.println("no power");
        }
        try {
            BigInteger inverse = one.modInverse(modulus);
            System.out.println(inverse + " " + inverse.multiply(one).mod(modulus));
        } catch (ArithmeticException raised) {
            System.out.println("no inverse");
        }
    }

    private static void exact(BigInteger one) {
        String told = "";
        try {
            told += one.longValueExact();
            told += " " + one.intValueExact();
            told += " " + one.shortValueExact();
            told += " " + one.byteValueExact();
        } catch (ArithmeticException raised) {
            told += " no more";
        }
        System.out.println(told);
    }

    private static void moduli() {
        for (int k = 0; k < 10; k++) {
            bits(number(), number(), next(70));
            modulo(number(), number(), number());
        }
        BigInteger zero = BigInteger.ZERO;
        bits(zero, zero, 0);
        bits(BigInteger.ONE.negate(), BigInteger.ONE.shiftLeft(64).negate(), 64);
        modulo(zero, zero, BigInteger.ONE);
        modulo(BigInteger.TWO, BigInteger.valueOf(-3), BigInteger.valueOf(7));
        modulo(BigInteger.valueOf(-4), BigInteger.valueOf(5), BigInteger.ONE);
        modulo(new BigInteger("1000000007"), new BigInteger("1000000007000000010000"), new BigInteger("170141183460469231731687303715884105727"));
        // Neighbours of Fibonacci's numbers, of which each division takes away least.
        BigInteger before = BigInteger.ONE;
        BigInteger last = BigInteger.ONE;
        for (int k = 0; k < 90; k++) {
            BigInteger next = before.add(last);
            before = last;
            last = next;
        }
        modulo(before, last, last);
        try {
            zero.setBit(-1);
        } catch (ArithmeticException raised) {
            System.out.println("no bit");
        }
        for (int shift : new int[] {6, 7, 8, 15, 16, 31, 32, 62, 63, 64}) {
            exact(BigInteger.ONE.shiftLeft(shift).subtract(BigInteger.ONE));
            exact(BigInteger.ONE.shiftLeft(shift).negate());
        }
    }

    private static void reads(String text, int base) {
        try {
            System.out.println(new BigInteger(text, base));
        } catch (NumberFormatException raised) {
            System.out.println("no number " + text);
        }
    }

    public static void main(String[] arguments) {
        for (int k = 0; k < 14; k++) {
            tell(number(), number(), next(50));
        }
        for (String text : new String[] {"", "-", "+", "0", "-0", "+17", "-00012", "9z", "7fffffffffffffffffffffff", "123456789012345678901234567890"}) {
            reads(text, 10);
            reads(text, 16);
            reads(text, 36);
        }
        long[] edges = {0, 1, -1, 65535, 65536, -65536, 1L << 32, Long.MAX_VALUE, Long.MIN_VALUE};
        for (long each : edges) {
            System.out.println(BigInteger.valueOf(each) + " " + BigInteger.valueOf(each).longValue() + " " + BigInteger.valueOf(each).bitLength());
        }
        moduli();
        BigInteger product = BigInteger.ONE;
        for (int k = 2; k < 30; k++) {
            product = product.multiply(BigInteger.valueOf(k));
        }
        System.out.println(product + " " + product.divide(BigInteger.TEN.pow(20)) + BigInteger.ZERO);
        // Quotients whose guessed digits are too great by one and by two.
        BigInteger top = BigInteger.ONE.shiftLeft(48).subtract(BigInteger.ONE);
        System.out.println(new BigInteger("7fff800000000000", 16).divide(new BigInteger("800000000001", 16)) + " "
            + new BigInteger("80000000fffe00000000", 16).divide(new BigInteger("80000000ffff", 16)) + " " + top.multiply(top).divide(top));
    }
}
