/** Switches on strings, with equal hash codes and cases that fall through. */
public class StringSwitches {
    static int kind(String word) {
        switch (word) {
            case "Aa":
                return 1;
            case "BB":
                return 2;
            case "AaBB":
            case "BBAa":
                return 3;
            case "":
                return 4;
            case "start":
                return 5;
            default:
                return 0;
        }
    }

    static String unit(String name) {
        String unit = "?";
        switch (name) {
            case "temperature":
                unit = "K";
                break;
            case "pressure":
                unit = "Pa";
            case "volume":
                unit += "m3";
                break;
            case "mass":
                unit = "kg";
        }
        return unit;
    }

    public static void main(String[] args) {
        String[] words = {"Aa", "BB", "AaBB", "BBAa", "BBBB", "AaAa", "", "start", "Start", "star" + "t", "C#"};
        for (String word : words) {
            System.out.print(kind(word));
        }
        String made = "";
        for (int k = 0; k < 2; k++) {
            made = made + "B";
            System.out.print(kind(made));
        }
        System.out.println(kind("sta" + made.length() + "rt") + kind(new String(new char[] {'A', 'a'})));
        for (String name : new String[] {"temperature", "pressure", "volume", "mass", "time"}) {
            System.out.println(name + " " + unit(name));
        }
        try {
            kind(null);
        } catch (NullPointerException e) {
            System.out.println("null");
        }
    }
}
