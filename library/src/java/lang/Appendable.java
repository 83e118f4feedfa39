package java.lang;

import java.io.IOException;

/** What chars are put behind. */
public interface Appendable {
    Appendable append(CharSequence chars) throws IOException;

    Appendable append(CharSequence chars, int first, int end) throws IOException;

    Appendable append(char value) throws IOException;
}
