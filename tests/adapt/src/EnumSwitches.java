/** Switches on enums, one enum in two classes, with constants in another order than the cases. */
public class EnumSwitches {
    enum State { IDLE, HEATING, HOLDING, COOLING, FAILED }

    enum Event { START, WARM, COLD, FAULT }

    static State next(State state, Event event) {
        switch (state) {
            case HOLDING:
                switch (event) {
                    case COLD:
                        return State.HEATING;
                    case FAULT:
                        return State.FAILED;
                    default:
                        return state;
                }
            case IDLE:
                return event == Event.START ? State.HEATING : state;
            case HEATING:
                if (event == Event.FAULT) {
                    return State.FAILED;
                }
                return event == Event.WARM ? State.HOLDING : state;
            case COOLING:
            case FAILED:
            default:
                return event == Event.START ? State.IDLE : state;
        }
    }

    static final class Lamp {
        static char colour(State state) {
            switch (state) {
                case FAILED: return 'r';
                case COOLING: return 'b';
                case IDLE: return 'g';
                default: return 'y';
            }
        }
    }

    public static void main(String[] args) {
        State state = State.IDLE;
        int seed = 7;
        for (int k = 0; k < 40; k++) {
            seed = seed * 1103515245 + 12345;
            state = next(state, Event.values()[seed >>> 16 & 3]);
            jop.Io.write(Lamp.colour(state));
            jop.Io.write('0' + state.ordinal());
        }
        try {
            next(null, Event.COLD);
        } catch (NullPointerException e) {
            jop.Io.write('!');
        }
    }
}
