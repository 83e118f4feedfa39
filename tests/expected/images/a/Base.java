package a; public class Base { int open() { return 1; } protected int kept() { return 2; } public int call() { return open() + kept(); } }
