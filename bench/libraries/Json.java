import java.io.IOException;
import org.noggit.JSONParser;

/** A text in JSON, event by event. */
public class Json {
    private static final String TEXT = "{\"name\":\"a \\u00e9\\n\", \"list\" : [1, -20, 3000000000, true,false , null, [], {}], \"more\":{\"x\":1.5e3, \"y\":12345678901234567890}}";

    public static void main(String[] args) throws IOException {
        tell(TEXT);
        tell("[1, 2");
        tell("[01]");
        tell("{\"a\" 1}");
    }

    private static void tell(String text) throws IOException {
        JSONParser parser = new JSONParser(text.toCharArray(), 0, text.length());
        try {
            int event = parser.nextEvent();
            while (event != JSONParser.EOF) {
                System.out.print(JSONParser.getEventString(event));
                if (event == JSONParser.STRING) {
                    System.out.print(" " + parser.getString() + " " + parser.wasKey());
                } else if (event == JSONParser.LONG) {
                    System.out.print(" " + parser.getLong());
                } else if (event == JSONParser.NUMBER || event == JSONParser.BIGNUMBER) {
                    System.out.print(" " + parser.getNumberChars().size());
                } else if (event == JSONParser.BOOLEAN) {
                    System.out.print(" " + parser.getBoolean());
                }
                System.out.println();
                event = parser.nextEvent();
            }
        } catch (JSONParser.ParseException e) {
            System.out.println("fault at " + parser.getPosition());
        }
    }
}
