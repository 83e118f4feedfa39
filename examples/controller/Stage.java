/** A stage of the controller. */
interface Stage {
    /** Takes a sample and gives what the next stage takes. */
    int step(int sample) throws Overload;
}
