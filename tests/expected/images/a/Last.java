package a; public class Last extends b.Middle { int open() { return 100; } public int both() { return super.kept() + call(); } }
