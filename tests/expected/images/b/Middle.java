package b; public class Middle extends a.Base { int open() { return 10; } protected int kept() { return 20; } }
