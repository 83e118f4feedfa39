package java.lang;

import java.util.Iterator;

/** What can be iterated over. */
public interface Iterable<T> {
    Iterator<T> iterator();
}
