/** Copies of arrays: of each kind, of arrays of arrays, and of arrays whose class stands below that of the variable. */
public class Copies {
    static class Animal {
        String sound() {
            return "?";
        }
    }

    static class Dog extends Animal {
        @Override
        String sound() {
            return "wow";
        }
    }

    static class Puppy extends Dog {
    }

    static String kind(Object[] array) {
        return array instanceof Puppy[] ? "puppies" : array instanceof Dog[] ? "dogs" : array instanceof Animal[] ? "animals"
                : array instanceof int[][] ? "grid" : "objects";
    }

    static String tried(Object[] array, Object element) {
        try {
            array[0] = element;
            return "stored";
        } catch (ArrayStoreException e) {
            return "refused";
        }
    }

    public static void main(String[] args) {
        int[] ints = {1, 2, 3};
        int[] copy = ints.clone();
        copy[0] = 9;
        long[] longs = {1L << 40, 2};
        byte[] bytes = {-1};
        boolean[] flags = {true, false};
        System.out.println(ints[0] + copy[0] + copy.length + " " + longs.clone()[0] + bytes.clone()[0] + flags.clone()[0]);
        System.out.println("chars".toCharArray().clone().length + new short[] {7}.clone()[0]);
        int[][] grid = {{1, 2}, {3}};
        int[][] shallow = grid.clone();
        shallow[0][0] = 50;
        shallow[1] = new int[0];
        System.out.println(grid[0][0] + " " + grid[1].length + " " + shallow[1].length);
        Animal[] animals = {new Dog(), new Puppy()};
        Animal[] dogs = new Dog[] {new Dog(), new Puppy()};
        Animal[] puppies = new Puppy[2];
        Object[] objects = {grid, animals};
        Object[][] all = {animals, dogs, puppies, objects, grid};
        for (Object[] each : all) {
            Object[] other = each.clone();
            System.out.println(kind(other) + " " + other.length + (other == each) + (other[0] == each[0]) + tried(other, new Dog()));
        }
        System.out.println(dogs.clone()[0].sound() + animals.clone()[1].sound());
        try {
            ints = null;
            ints.clone();
        } catch (NullPointerException e) {
            System.out.println("null");
        }
    }
}
