import java.io.ByteArrayInputStream;
import java.io.ByteArrayOutputStream;
import java.io.DataInputStream;
import java.io.DataOutputStream;
import java.io.IOException;
import java.nio.ByteBuffer;
import java.nio.charset.StandardCharsets;
import java.util.ArrayList;
import java.util.Arrays;
import java.util.List;
import java.util.zip.CRC32;
import poqashem.Engine;

/**
 * A match: a round of the engine with all that an app keeps beside it. It is played in frames, saved, gone on with, and
 * audited: what was asked of the engine is asked again, from the sheets on, and must come to the same.
 */
final class Match {
    // kinds of a recorded call, and the room of a frame, as the league's format has them
    private static final int ARRIVE = 0;
    private static final int BOARD = 2;
    private static final int MEND = 5;
    private static final int FRAME = 6;
    private static final int ROOM = 64;
    // steps: more than the (64 + 1) x (4,096 + 1) that a hand takes at most
    private static final int TO_IDLE = 300000;

    /** A call that may be refused: its value, or the refusal's number. */
    static final class Got {
        final int value;
        final int refusal;

        Got(int value, int refusal) {
            this.value = value;
            this.refusal = refusal;
        }

        String word() {
            return Engine.refusalWord(refusal);
        }

        // 2^32 and the value, or the refusal's number
        long worth() {
            return refusal == 0 ? 1L << 32 | value & 0xFFFFFFFFL : refusal;
        }
    }

    interface Asked {
        int call();
    }

    static Got ask(Asked asked) {
        try {
            return new Got(asked.call(), 0);
        } catch (Engine.Refusal refusal) {
            return new Got(0, refusal.number);
        }
    }

    private static final class Call {
        final int kind;
        final int first;
        final int second;
        final long answer;
        final long[] commits;

        Call(int kind, int first, int second, long answer, long... commits) {
            this.kind = kind;
            this.first = first;
            this.second = second;
            this.answer = answer;
            this.commits = commits;
        }
    }

    private static final class Played {
        final byte[] sheet;
        final byte[] params;

        Played(byte[] sheet, byte[] params) {
            this.sheet = sheet;
            this.params = params;
        }

        Engine.Table table() {
            return Engine.Table.compile(sheet, params);
        }
    }

    /** Forecast, preview and taken change nothing, and are not recorded. */
    Engine.Round round;

    private final List<Played> sheets = new ArrayList<>(); // the first, and those that it was or was not changed to
    private final List<Call> record = new ArrayList<>();
    private int inForce;

    private Match() {}

    Match(byte[] sheet, byte[] params) {
        sheets.add(new Played(sheet, params));
        round = sheets.get(0).table().start();
    }

    private static long[] answers(Engine.Step... steps) {
        return Arrays.stream(steps).mapToLong(step -> step.answer).toArray();
    }

    private static long answer(Engine.Frame frame) {
        return (long) frame.end << 56 | (long) frame.commits.length << 32 | frame.steps & 0xFFFFFFFFL;
    }

    /**
     * Entry `number` of the order that all phones share: the commit that made room, or null. It is recorded as what it
     * is, a frame of the steps that made room, and an arrival; one that is refused did nothing.
     */
    Engine.Step deliver(int number, int event, int player) {
        Engine.Delivered done = round.deliver(number, event, player);
        if (done.commit != null) {
            record.add(new Call(FRAME, done.steps, ROOM, 1L << 32 | done.steps, answers(done.commit)));
        }
        record.add(new Call(ARRIVE, event, player, 0));
        return done.commit;
    }

    Engine.Frame frame(int steps) {
        Engine.Frame frame = round.frame(steps);
        record.add(new Call(FRAME, steps, ROOM, answer(frame), answers(frame.commits)));
        if (frame.end == Engine.FRAME_REFUSED) throw new IllegalStateException("not a round of this table");
        return frame;
    }

    Got board(int behaviour, int player) {
        Got got = ask(() -> round.board(behaviour, player));
        record.add(new Call(BOARD, behaviour, player, got.worth()));
        return got;
    }

    /** What this phone sends before a round: its engine's version and its table. */
    byte[] greeting() {
        ByteBuffer greeting = ByteBuffer.allocate(4 + Engine.TABLE);
        return greeting.putInt(Engine.version()).put(round.table().bytes(), 0, Engine.TABLE).array();
    }

    /** Whether the greeting that came from another phone is of the same program. */
    String meets(byte[] received) {
        if (ByteBuffer.wrap(received).getInt() != Engine.version()) return "of another version";
        return Arrays.equals(received, greeting()) ? "accepted" : "another program";
    }

    /** The place of the order at which exactly `number` entries are taken in, the round run to idle: the commits. */
    private List<Engine.Step> settle(int number) {
        if (round.taken() != number) throw new IllegalStateException(round.taken() + " entries are taken in");
        List<Engine.Step> commits = new ArrayList<>();
        Engine.Frame frame;
        do {
            frame = frame(TO_IDLE);
            commits.addAll(Arrays.asList(frame.commits));
        } while (frame.end != Engine.FRAME_IDLE);
        return commits;
    }

    /** The board there, as the player sees it; the commits on the way are added to those given. */
    List<Got> boardAfter(int number, int player, List<Engine.Step> commits) {
        commits.addAll(settle(number));
        List<Got> board = new ArrayList<>();
        for (int b = 0; b < round.table().behaviours(); b++) board.add(board(b, player));
        return board;
    }

    /** The change to another sheet there: the commits on the way. */
    List<Engine.Step> mendAfter(int number, byte[] sheet, byte[] params) {
        List<Engine.Step> commits = settle(number);
        if (mend(sheet, params).refusal != 0) throw new IllegalStateException("an idle round is not carried over");
        return commits;
    }

    /** The round goes on under another sheet; a sheet that is tried again is kept once. */
    Got mend(byte[] sheet, byte[] params) {
        Engine.Table table = Engine.Table.compile(sheet, params);
        int which = 0;
        while (which < sheets.size() && !Arrays.equals(sheets.get(which).sheet, sheet)) which++;
        if (which == sheets.size()) sheets.add(new Played(sheet, params));
        Got got = mended(round, table);
        record.add(new Call(MEND, which, 0, got.refusal));
        if (got.refusal == 0) inForce = which;
        return got;
    }

    private static Got mended(Engine.Round round, Engine.Table table) {
        return ask(() -> {
            round.mend(table);
            return 0;
        });
    }

    /** Asks all again, from a fresh round on: whether each answer and the round's bytes are the same. */
    boolean audit() {
        Engine.Round again = sheets.get(0).table().start();
        for (Call call : record) if (!same(again, call)) return false;
        return Arrays.equals(again.bytes(), round.bytes());
    }

    private boolean same(Engine.Round again, Call call) {
        switch (call.kind) {
            case ARRIVE:
                return ask(() -> {
                    again.arrive(call.first, call.second);
                    return 0;
                }).refusal == call.answer;
            case BOARD:
                return ask(() -> again.board(call.first, call.second)).worth() == call.answer;
            case MEND:
                return mended(again, sheets.get(call.first).table()).refusal == call.answer;
            default:
                Engine.Frame frame = again.frame(call.first);
                return answer(frame) == call.answer && Arrays.equals(answers(frame.commits), call.commits);
        }
    }

    /** The last answer changed, as a cheat would, or changed back. */
    void forge() {
        Call last = record.remove(record.size() - 1);
        record.add(new Call(last.kind, last.first, last.second, last.answer ^ 1, last.commits));
    }

    // ---- files

    // the sheets and the calls, as the league's format has them
    private void write(DataOutputStream out) throws IOException {
        out.writeShort(sheets.size());
        for (Played played : sheets) {
            out.writeByte(1);
            out.write(played.params);
            out.writeInt(played.sheet.length);
            out.write(played.sheet);
        }
        for (Call call : record) {
            out.writeByte(call.kind);
            if (call.kind == MEND) {
                out.writeShort(call.first);
            } else {
                out.writeInt(call.first);
                out.writeInt(call.second);
            }
            out.writeLong(call.answer);
            for (long commit : call.commits) out.writeLong(commit);
        }
    }

    private void read(DataInputStream in) throws IOException {
        for (int count = in.readUnsignedShort(); count > 0; count--) {
            byte[] params = new byte[Engine.PARAMS];
            if (in.readByte() != 1) throw new IOException("a sheet without parameters");
            in.readFully(params);
            byte[] sheet = new byte[Math.min(in.readInt(), Engine.SHEET)];
            in.readFully(sheet);
            sheets.add(new Played(sheet, params));
        }
        while (in.available() > 0) {
            int kind = in.readByte();
            int first = kind == MEND ? in.readUnsignedShort() : in.readInt();
            int second = kind == MEND ? 0 : in.readInt();
            long answer = in.readLong();
            long[] commits = new long[kind == FRAME ? Math.min((int) (answer >>> 32 & 0xFFFFFF), ROOM) : 0];
            for (int k = 0; k < commits.length; k++) commits[k] = in.readLong();
            record.add(new Call(kind, first, second, answer, commits));
        }
    }

    /** The app's own file: a version, the round, which sheet is in force, the record. */
    byte[] save() throws IOException {
        ByteArrayOutputStream bytes = new ByteArrayOutputStream();
        DataOutputStream out = new DataOutputStream(bytes);
        out.writeInt(Engine.version());
        out.write(round.bytes());
        out.writeShort(inForce);
        write(out);
        return bytes.toByteArray();
    }

    /** Anybody may have changed the file, so what it says is held to its record. */
    static Match load(byte[] saved) throws IOException {
        DataInputStream in = new DataInputStream(new ByteArrayInputStream(saved));
        Match match = new Match();
        byte[] bytes = new byte[Engine.ROUND];
        if (in.readInt() != Engine.version()) throw new IOException("saved by another version");
        in.readFully(bytes);
        match.inForce = in.readUnsignedShort();
        match.read(in);
        match.round = match.sheets.get(match.inForce).table().resume(bytes);
        if (!match.audit()) throw new IOException("the record comes to something else");
        return match;
    }

    /** The record as a file of one round for the league's audit program, whose format bindings/rust has. */
    byte[] exported(String name) throws IOException {
        ByteArrayOutputStream body = new ByteArrayOutputStream();
        DataOutputStream out = new DataOutputStream(body);
        out.writeInt(Engine.version());
        out.writeUTF(name); // a length of two bytes, and the bytes
        write(out);
        ByteArrayOutputStream head = new ByteArrayOutputStream();
        out = new DataOutputStream(head);
        out.writeInt(0xF5524E44);
        out.writeInt(body.size());
        out.writeInt(sum(body.toByteArray()));
        out.writeInt(sum(head.toByteArray()));
        ByteArrayOutputStream file = new ByteArrayOutputStream();
        file.write("engine rounds 1\n".getBytes(StandardCharsets.US_ASCII));
        head.writeTo(file);
        body.writeTo(file);
        return file.toByteArray();
    }

    private static int sum(byte[] bytes) {
        CRC32 sum = new CRC32();
        sum.update(bytes);
        return (int) sum.getValue();
    }
}
