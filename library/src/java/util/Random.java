package java.util;

import java.io.Serializable;
import jop.Longs;

/** The linear congruential generator of the standard. Without a seed it begins with 0, and always in the same way. */
public class Random implements Serializable {
    private static final long MASK = (1L << 48) - 1;

    private long seed;

    public Random() {
        this(0);
    }

    public Random(long seed) {
        setSeed(seed);
    }

    public void setSeed(long seed) {
        this.seed = (seed ^ 0x5deece66dL) & MASK;
    }

    /** The next so many bits. */
    protected int next(int bits) {
        seed = Longs.multiply(seed, 0x5deece66dL) + 0xbL & MASK;
        return (int) (seed >>> 48 - bits);
    }

    public int nextInt() {
        return next(32);
    }

    /** A number from 0 up to the bound. Each further try is of a chance below a half: 32 are counted. */
    public int nextInt(int bound) {
        if (bound <= 0) {
            throw new IllegalArgumentException("bound must be positive");
        }
        int bits = next(31);
        if ((bound & -bound) == bound) {
            return (int) (Longs.multiply(bound, bits) >> 31);
        }
        int value = bits % bound;
        while (bits - value + (bound - 1) < 0) { //@WCA loop=32 tries
            bits = next(31);
            value = bits % bound;
        }
        return value;
    }

    public long nextLong() {
        return ((long) next(32) << 32) + next(32);
    }

    public boolean nextBoolean() {
        return next(1) != 0;
    }

    public void nextBytes(byte[] bytes) {
        int rest = 0;
        for (int i = 0; i < bytes.length; i++) { //@WCA loop=64 elements
            rest = i % 4 == 0 ? nextInt() : rest >> 8;
            bytes[i] = (byte) rest;
        }
    }
}
