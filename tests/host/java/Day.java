// The numbers of day.sheet, as setter names writes them. A row has its first cell's.
public final class Day {
    private Day() {}
    public static final int EVENT_turn = 0;
    public static final int EVENT_bonus = 1;
    public static final int BEHAVIOUR_score = 0;
    public static final int BEHAVIOUR_streak = 1;
    public static final int BEHAVIOUR_secret = 2;
    public static final int PARAM_gain = 0;
    // Lends the parameters: gain = 1.
    public static byte[] params() {
        return new byte[] {0, 0, 0, 1, 0, 0, 0, 0, 0, 0, 0, 0, 0, 0, 0, 0, 0, 0, 0, 0, 0, 0, 0, 0, 0, 0, 0, 0, 0, 0, 0, 0};
    }
}
