package jop; public class Io { public static int read() { return 0; } public static void write(int x) {} }
