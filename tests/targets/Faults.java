import java.util.Arrays;
import java.util.function.Supplier;
import poqashem.Engine;

/** What the Java class does with what it is given: refusals by number and word, faults by place, nothing changed. */
public final class Faults {
    private static final String TEXT = "param worth event hit rank 1 from 1 active score = 2147483647"
            + " on hit: score + worth passive shy = score seen by 1";
    private static int checks;

    private static void check(boolean holds, String what) {
        checks++;
        if (!holds) throw new IllegalStateException("Java: " + what);
    }

    private static void refused(int number, Supplier<?> call) {
        try {
            call.get();
        } catch (Engine.Refusal refusal) {
            check(refusal.number == number, refusal.getMessage() + ", and not " + number);
            check(refusal.word.equals(Engine.refusalWord(number)), refusal.word);
            return;
        }
        throw new IllegalStateException("Java: not refused by " + number);
    }

    private static Supplier<?> run(Runnable call) {
        return () -> {
            call.run();
            return null;
        };
    }

    private static void sheets(byte[] sheet, byte[] params) {
        refused(20, () -> Engine.Table.compile(sheet, null));
        refused(21, () -> Engine.formula("b0 +"));
        refused(4, () -> Engine.describe(new byte[] {1}));
        check(Arrays.equals(Engine.assemble(Engine.describe(sheet)), sheet), "a description reads back");
        try {
            Engine.assemble("active score = 0\n  on hit: score + 1");
            check(false, "a text with a fault is taken");
        } catch (Engine.Fault fault) {
            check(fault.number == 38 && fault.line == 2 && fault.column == 6, "the place of a fault");
        }
        check(Engine.leak(sheet, params, 2).number == 0 && Engine.leak(sheet, params, 9).number == 24, "leak");
        check(Engine.agree(sheet, params).number == 0, "agree");
        check(Engine.agreeFor(sheet, params, 9).number == 18, "agreeFor");
        check(Engine.pair(sheet, params, 0, 0).behaviour == 0 && Engine.pair(sheet, params, 0, 3).number == 15, "pair");
        check(Engine.circle(sheet, params) == null, "no circle");
        check(Arrays.equals(Engine.circle(Engine.assemble("passive a = a"), null), new byte[] {0}), "a circle");
        try {
            Engine.params(1, 2, 3, 4, 5, 6, 7, 8, 9);
            check(false, "nine parameters are taken");
        } catch (IllegalArgumentException e) {
            check(Engine.params(-3)[3] == -3, "a parameter's bytes");
        }
    }

    private static void rounds(Engine.Table table) {
        Engine.Round round = table.start();
        refused(25, () -> round.deliver(0, 0, 2));
        refused(24, () -> round.deliver(0, 0, -1));
        refused(15, () -> round.deliver(0, -1, 1));
        refused(43, () -> round.deliver(1, 0, 1));
        refused(25, () -> round.board(1, 2));
        refused(18, () -> round.board(2, 1));
        refused(15, run(() -> round.arrive(7, 0)));
        check(round.taken() == 0 && round.inHand() == 0, "a refused call changes nothing");
        check(round.preview(0, 1, 1) == -2147483639, "preview");
        round.deliver(0, 0, 1);
        Engine.Frame frame = round.frame(1000);
        check(frame.end == Engine.FRAME_IDLE && frame.commits.length == 1 && frame.commits[0].over, "a frame");
        check(!frame.commits[0].told().over && frame.commits[0].told().player == 1, "told");
        Integer[] board = round.boardAfter(1, 2);
        check(board[0] == -2147483639 && board[1] == null, "the board as player 2 sees it");
        try {
            round.boardAfter(2, 1);
            check(false, "a board of entries that are not there");
        } catch (Engine.NotThere there) {
            check(there.taken == 1, "how many are there");
        }
        check(table.resume(round.bytes()).board(0, 0) == board[0], "a saved round goes on");
        refused(14, () -> table.resume(new byte[7]));
        byte[] damaged = round.bytes();
        Arrays.fill(damaged, (byte) 0xFF);
        refused(14, () -> table.resume(damaged));
        long[] answers = table.start().replay(new byte[] {0, 0, 0, 0, 0, 1, 1, 0, 0, 0, 0, 0});
        check(answers.length == 2 && answers[0] == 0 && new Engine.Step(answers[1]).kind == Engine.STARTED, "replay");
    }

    public static void main(String[] words) {
        byte[] sheet = Engine.assemble(TEXT);
        byte[] params = Engine.params(10);
        Engine.Table table = Engine.Table.compile(sheet, params);
        check(table.same(Engine.Table.compile(sheet, params)), "the same program");
        check(!table.same(Engine.Table.compile(sheet, Engine.params(11))), "another program");
        sheets(sheet, params);
        rounds(table);
        System.out.println("the Java class: " + checks + " checks of what it refuses and gives");
    }
}
