package java.util;

/** Lists whose elements are reached in the same time. */
public interface RandomAccess {
}
