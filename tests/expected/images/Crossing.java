public class Crossing { public static void main(String[] args) { a.Last l = new a.Last(); a.Base x = l; jop.Io.write(x.call() + l.both()); } }
