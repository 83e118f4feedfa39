package jop;

/** Objects that have the method toString of Object, named toText since it makes a Text. */
public interface ToTextMethod {
    Text toText();
}
