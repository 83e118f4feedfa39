package jop;

import java.io.InputStream;

/** Standard input, by jop.Io. */
public final class StandardInput extends InputStream {
    @Override
    public int read() {
        return Io.read();
    }
}
