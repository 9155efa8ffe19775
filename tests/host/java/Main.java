import java.io.IOException;
import java.nio.charset.StandardCharsets;
import java.nio.file.Files;
import java.nio.file.Path;
import java.nio.file.Paths;
import java.util.ArrayList;
import java.util.List;
import poqashem.Engine;

/**
 * A match of two players, played in frames of a few steps: the other phone's table, entries of an order, rights, a look
 * ahead, a bonus sheet that joins in mid-round, a save and a load, a mended sheet, a crowd of entries at once, a board
 * at a place of the order, and an audit. Prints what happens: Main SAVE ROUNDS SHEETS. The numbers of the sheet are in
 * Day, as `setter names day.sheet --as java` writes them.
 */
public final class Main {
    private static final int BUDGET = 10; // steps of a frame
    private static final int TURN = Day.EVENT_turn;
    private static final int BONUS = Day.EVENT_bonus;
    private static final int NO_RIGHT = 25;
    private static final int DEPENDENT = 29;

    private final Path folder;
    private Match match;
    private int entry; // the next of the order: an app gets event, player and number from whoever makes the order

    private Main(String folder) {
        this.folder = Paths.get(folder);
    }

    private byte[] sheet(String name) throws IOException {
        byte[] text = Files.readAllBytes(folder.resolve(name + ".sheet"));
        return Engine.assemble(new String(text, StandardCharsets.UTF_8));
    }

    private byte[] withLeague(String name) throws IOException {
        return Engine.join(sheet("day"), sheet(name), Day.params());
    }

    // Who sent it is kept with an arrival, so a commit can be shown as the player's. Only the host is told that it ran
    // over: to the other phones goes step.told().
    private static void committed(Engine.Step step) {
        String over = step.over ? ", which ran over" : "";
        System.out.println("    commit of arrival " + step.arrival + ": event " + step.event + " of player "
                + step.player + over);
    }

    // What the sheet refuses takes no number.
    private Match.Got deliver(int event, int player) {
        Match.Got got = Match.ask(() -> {
            Engine.Step commit = match.deliver(entry, event, player);
            if (commit != null) committed(commit);
            return 0;
        });
        if (got.refusal == 0) entry++;
        return got;
    }

    private void send(int event, int player) {
        System.out.println("player " + player + " sends event " + event + ": " + deliver(event, player).word());
    }

    // Frames until nothing is left to do.
    private void playOut() {
        int frames = 0;
        int commits = 0;
        Engine.Frame frame;
        do {
            frame = match.frame(BUDGET);
            for (Engine.Step step : frame.commits) committed(step);
            frames++;
            commits += frame.commits.length;
        } while (frame.end != Engine.FRAME_IDLE);
        System.out.println("    idle after " + frames + " frames, " + commits + " commits");
    }

    // Each player's screen: what it may not see is left out.
    private void show() {
        for (int player = 1; player <= 2; player++) {
            System.out.print("    player " + player + " sees");
            for (int b = 0; b < match.round.table().behaviours(); b++) {
                Match.Got got = match.board(b, player);
                if (got.refusal == 0) System.out.print(" b" + b + " = " + got.value);
                else if (got.refusal != NO_RIGHT) System.out.print(" b" + b + ": " + got.word());
            }
            System.out.println();
        }
    }

    // What a move would lead to, shown while the pointer rests on it.
    private void hover(int event, int behaviour, int player) {
        Match.Got got = Match.ask(() -> match.round.preview(event, behaviour, player));
        String move = " try event " + event + " on b" + behaviour + ": " + got.word();
        if (got.refusal == 0) move = " tries event " + event + ": b" + behaviour + " would be " + got.value;
        System.out.println("player " + player + (got.refusal == 0 ? move : " may not" + move));
    }

    // Before a round: the other phone opens the match with the sheet that it has got, and sends its greeting; ours
    // compares.
    private void compare(byte[] got) {
        System.out.println("the other phone's greeting: " + match.meets(new Match(got, Day.params()).greeting()));
    }

    // Before a sheet is played: whether the other phone, which has got this sheet or another, has the same program,
    // whether the phones will agree, and whether what player 2 sees depends on what it may not see.
    private void judge(byte[] day, byte[] other) {
        Engine.Table table = match.round.table();
        System.out.print("interface " + (Engine.version() >>> 16) + ", layout " + (Engine.version() & 0xFFFF) + "; "
                + table.events() + " events of rank");
        for (int event = 0; event < table.events(); event++) System.out.print(" " + table.rank(event));
        System.out.println();
        compare(day);
        compare(other);
        Engine.Found agree = Engine.agree(day, Day.params());
        if (agree.number == DEPENDENT) {
            System.out.println("phones may disagree: events " + agree.first + " and " + agree.second
                    + " differ in rank and share b" + agree.behaviour);
        }
        if (Engine.leak(day, Day.params(), 2).number == 0) {
            System.out.println("no behaviour that player 2 sees depends on one that is hidden from it");
        }
    }

    // Saved while an event runs, closed, and gone on with.
    private void saveAndLoad(Path file) throws IOException {
        for (Engine.Step step : match.frame(3).commits) committed(step);
        Files.write(file, match.save());
        match = Match.load(Files.readAllBytes(file));
        System.out.println("saved in mid-event, and loaded");
        playOut();
    }

    // So many entries at once, more than the hand has places for: none is refused. One that comes twice is.
    private void crowd(int count) {
        for (int k = 0; k < count; k++) deliver(TURN, 2);
        System.out.println("    " + match.round.taken() + " taken in, " + match.round.inHand() + " of them in hand");
        entry--;
        System.out.println("the last entry once more: " + deliver(TURN, 2).word());
        entry++;
    }

    // The board after all entries so far: a winner that is read from it is the same on every phone.
    private void settle(int player) {
        List<Engine.Step> commits = new ArrayList<>();
        List<Match.Got> board = match.boardAfter(entry, player, commits);
        System.out.print("    " + commits.size() + " commits later, the board after " + entry + " entries: player "
                + player + " sees");
        for (int b = 0; b < board.size(); b++) {
            if (board.get(b).refusal == 0) System.out.print(" b" + b + " = " + board.get(b).value);
        }
        System.out.println();
    }

    // A change to another sheet after all entries so far.
    private void mend(byte[] sheet, String what) {
        for (Engine.Step step : match.mendAfter(entry, sheet, Day.params())) committed(step);
        System.out.println(what + ", after " + entry + " entries");
    }

    // The record is played again; then one answer in it is changed, as a cheat would.
    private void settleDispute() {
        String[] words = {"accepted", "the record comes to something else"};
        System.out.println("audit: " + words[match.audit() ? 0 : 1]);
        match.forge();
        System.out.println("audit of a changed record: " + words[match.audit() ? 0 : 1]);
        match.forge();
    }

    private void play(Path save, Path rounds) throws IOException {
        match = new Match(sheet("day"), Day.params());
        judge(sheet("day"), sheet("turns"));
        send(TURN, 2);
        send(BONUS, 2);
        send(BONUS, 1);
        System.out.println("    " + match.round.forecast() + " steps to idle");
        playOut();
        show();
        hover(TURN, Day.BEHAVIOUR_score, 2);
        hover(TURN, Day.BEHAVIOUR_secret, 2);

        send(TURN, 1);
        mend(withLeague("squares"), "the league's bonus joins in");
        send(BONUS, 1);
        saveAndLoad(save);
        send(BONUS, 1);
        playOut();
        show();

        mend(withLeague("doubles"), "the bonus is mended");
        send(BONUS, 1);
        playOut();
        show();
        crowd(67);
        settle(1);
        show();
        settleDispute();
        Files.write(rounds, match.exported("final, table 3"));
    }

    public static void main(String[] words) throws IOException {
        new Main(words[2]).play(Paths.get(words[0]), Paths.get(words[1]));
    }
}
