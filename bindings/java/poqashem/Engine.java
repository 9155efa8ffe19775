package poqashem;

import java.nio.ByteBuffer;
import java.nio.charset.StandardCharsets;

/**
 * The round engine for Java and Kotlin, on the JDK and on Android: the calls of include/engine.h over the library
 * engine_jni, which bindings/java/engine_jni.c is the source of. docs/host/JAVA.md has what is Java's own, docs/HOST.md
 * what each call does.
 *
 * <p>Tables and rounds stay in memory outside of Java's heap, so that nothing is copied by a call. A call that is
 * refused throws a {@link Refusal} with its number and its word, and has changed nothing. A round is used by one thread
 * at a time; tables by any number of them.
 */
public final class Engine {
    public static final int VERSION = 1;
    public static final int LAYOUT = 1;
    public static final int SHEET = 8192;
    public static final int SHEET_TEXT = 65536;
    public static final int PARAMS = 32;
    public static final int TABLE = 34816;
    public static final int ROUND = 2048;
    public static final int FIELD = 7168;
    public static final int HAND = 64;
    public static final int HOST = 0;
    public static final int NO_EVENT = 255;

    /** What a step did. */
    public static final int IDLE = 0;
    public static final int RAN = 1;
    public static final int STARTED = 2;
    public static final int COMMITTED = 3;
    public static final int BROKE_IN = 4;

    /** Why a frame ended: see docs/HOST.md, "Between frames". */
    public static final int FRAME_MADE = 0;
    public static final int FRAME_IDLE = 1;
    public static final int FRAME_REFUSED = 2;
    public static final int FRAME_FULL = 3;

    static final int FOREIGN = 14;
    private static final int CIRCLE = 12;
    private static final int CIRCLE_LIST = 64;
    private static final int ANSWER = 8;
    private static final long WORD = 0xFFFFFFFFL;

    private static final String[] WORDS = {
        "accepted", "short table", "blank", "long sheet", "torn", "wrong tag", "wrong length", "crowded",
        "off the scale", "too deep", "doubled", "unknown name", "circle", "overlong", "foreign", "no such event",
        "full hand", "spent", "no such behaviour", "settling", "no parameters", "no formula", "large number",
        "short buffer", "no player", "no right", "unlike ranks", "short join", "strange hand", "dependent", "leak",
        "outside the grammar", "number too large", "off the scale", "too many", "declared twice", "second handler",
        "too deep", "unknown name", "no such cell", "sheet too long", "buffer too short", "text too long",
        "missing entries", "taken before",
    };

    static {
        System.loadLibrary("engine_jni");
    }

    private Engine() {}

    /** The word of a refusal's number. */
    public static String refusalWord(int number) {
        return number >= 0 && number < WORDS.length ? WORDS[number] : "no refusal";
    }

    /** A call was turned down: its number and its word. It changed nothing. */
    public static class Refusal extends RuntimeException {
        private static final long serialVersionUID = 1;
        public final int number;
        public final String word;

        Refusal(String call, int number) {
            super(call + ": " + number + ", " + refusalWord(number));
            this.number = number;
            this.word = refusalWord(number);
        }
    }

    /** A sheet's text was turned down: its first fault, line and column from 1. */
    public static final class Fault extends Refusal {
        private static final long serialVersionUID = 1;
        public final int line;
        public final int column;

        Fault(long answer) {
            super("assemble", (int) (answer >>> 56));
            line = (int) (answer >>> 28 & 0xFFFFFFF);
            column = (int) (answer & 0xFFFFFFF);
        }
    }

    /** A board or a change was asked for at another number of entries than are taken in. */
    public static final class NotThere extends RuntimeException {
        private static final long serialVersionUID = 1;
        public final int taken;

        NotThere(int asked, int taken) {
            super(taken + " entries are taken in, not " + asked);
            this.taken = taken;
        }
    }

    /** What a step did: with a start, a commit or a break-in the arrival's player, event and number. */
    public static final class Step {
        /** The packed answer, as C has it. */
        public final long answer;
        public final int kind;
        public final int player;
        public final int event;
        public final long arrival;
        /** With a commit: a result was not the exact one, or a divisor was zero. For the host alone. */
        public final boolean over;

        public Step(long answer) {
            this.answer = answer;
            kind = (int) (answer & 15);
            player = (int) (answer >> 4 & 15);
            event = (int) (answer >> 8 & 255);
            arrival = answer >> 16 & WORD;
            over = (answer >> 56 & 1) != 0;
        }

        /** As the players other than the host are told it: without the mark that the event ran over. */
        public Step told() {
            return new Step(Engine.told(answer));
        }
    }

    /** What a frame's steps did. */
    public static final class Frame {
        public final int steps;
        public final Step[] commits;
        public final int end;

        Frame(int steps, Step[] commits, int end) {
            this.steps = steps;
            this.commits = commits;
            this.end = end;
        }
    }

    /** An entry was taken in: how many steps were made for it, and the commit that made room, or null. */
    public static final class Delivered {
        public final int steps;
        public final Step commit;

        Delivered(int steps, Step commit) {
            this.steps = steps;
            this.commit = commit;
        }
    }

    /**
     * What a question about a sheet was answered: 0, or compile's number and the like, or a warning with its parts as
     * include/engine.h has them. Parts are -1 where there are none.
     */
    public static final class Found {
        public final int number;
        /** agree and pair: two events. */
        public final int first;
        public final int second;
        /** What they share; leak: what is seen. */
        public final int behaviour;
        /** leak: what is hidden; pair: its flags. */
        public final int other;

        Found(int number, int first, int second, int behaviour, int other) {
            this.number = number;
            this.first = first;
            this.second = second;
            this.behaviour = behaviour;
            this.other = other;
        }
    }

    // ---- sheets

    /** Parameters 0 to 7 as their 32 bytes, from at most eight values; the others are 0. */
    public static byte[] params(int... values) {
        int most = PARAMS / 4;
        if (values.length > most) throw new IllegalArgumentException(values.length + " values, over " + most);
        ByteBuffer bytes = ByteBuffer.allocate(PARAMS);
        for (int value : values) bytes.putInt(value);
        return bytes.array();
    }

    /** The sheet that a text means; a text that is turned down throws a {@link Fault}. */
    public static byte[] assemble(String text) {
        ByteBuffer sheet = ByteBuffer.allocateDirect(SHEET);
        long answer = assemble(lent(text.getBytes(StandardCharsets.UTF_8)), sheet);
        if (answer >>> 56 != 0) throw new Fault(answer);
        return copied(sheet, (int) answer);
    }

    /** A text that assemble turns into the very sheet again. */
    public static String describe(byte[] sheet) {
        ByteBuffer text = ByteBuffer.allocateDirect(SHEET_TEXT);
        return new String(copied(text, worth("describe", describe(lent(sheet), text))), StandardCharsets.UTF_8);
    }

    /** The expression field of a formula's text. */
    public static byte[] formula(String text) {
        ByteBuffer field = ByteBuffer.allocateDirect(FIELD);
        return copied(field, worth("formula", formula(lent(text.getBytes(StandardCharsets.UTF_8)), field)));
    }

    /** One sheet from two. Parameters may be null where a sheet uses none, here and below. */
    public static byte[] join(byte[] first, byte[] second, byte[] params) {
        ByteBuffer both = ByteBuffer.allocateDirect(SHEET);
        return copied(both, worth("join", join(lent(first), lent(second), lent(params), both)));
    }

    /** Whether two phones may end apart: compile's number, 0, or 29 with two events and what they share. */
    public static Found agree(byte[] sheet, byte[] params) {
        return clash(agree(lent(sheet), lent(params)));
    }

    /** The same of one behaviour; 18 where there is no such. */
    public static Found agreeFor(byte[] sheet, byte[] params, int behaviour) {
        return clash(agree_for(lent(sheet), lent(params), behaviour));
    }

    private static Found clash(long a) {
        int number = (int) (a & 255);
        if (number != 29) return new Found(number, -1, -1, -1, -1);
        return new Found(number, (int) (a >> 8 & 255), (int) (a >> 16 & 255), (int) (a >> 24 & 255), -1);
    }

    /** What two events share: compile's number, 15, 0 where they are independent; else a behaviour and flags. */
    public static Found pair(byte[] sheet, byte[] params, int first, int second) {
        long a = pair(lent(sheet), lent(params), first, second);
        if (a >>> 32 == 0) return new Found((int) a, -1, -1, -1, -1);
        return new Found(0, first, second, (int) (a & 255), (int) (a >> 8 & 255));
    }

    /** Whether what a player sees may depend on what is hidden: compile's number, 24, 0, or 30 with both. */
    public static Found leak(byte[] sheet, byte[] params, int player) {
        long a = leak(lent(sheet), lent(params), player);
        int number = (int) (a & 255);
        if (number != 30) return new Found(number, -1, -1, -1, -1);
        return new Found(number, -1, -1, (int) (a >> 8 & 255), (int) (a >> 16 & 255));
    }

    /** The behaviours of a shortest circle, null where compile's number is not 12. */
    public static byte[] circle(byte[] sheet, byte[] params) {
        ByteBuffer list = ByteBuffer.allocateDirect(CIRCLE_LIST);
        long a = circle(lent(sheet), lent(params), list);
        return (a & 255) == CIRCLE ? copied(list, (int) (a >>> 16)) : null;
    }

    /** A compiled sheet. Its bytes depend on sheet and parameters alone. */
    public static final class Table {
        final ByteBuffer bytes;

        private Table(ByteBuffer bytes) {
            this.bytes = bytes;
        }

        public static Table compile(byte[] sheet, byte[] params) {
            ByteBuffer table = ByteBuffer.allocateDirect(TABLE);
            done("compile", Engine.compile(lent(sheet), lent(params), table));
            return new Table(table);
        }

        /** The 34,816 bytes. */
        public byte[] bytes() {
            return copied(bytes, TABLE);
        }

        /** Whether it is the same program as another. */
        public boolean same(Table other) {
            return java.util.Arrays.equals(bytes(), other.bytes());
        }

        public int events() {
            return worth("event_count", event_count(bytes));
        }

        public int behaviours() {
            return worth("behaviour_count", behaviour_count(bytes));
        }

        public int rank(int event) {
            return worth("event_rank", event_rank(bytes, event));
        }

        /** A fresh round. */
        public Round start() {
            ByteBuffer round = ByteBuffer.allocateDirect(ROUND);
            done("start", Engine.start(bytes, round));
            return new Round(this, round);
        }

        /** A round that goes on from the bytes of a saved one; bytes that are none are refused by 14. */
        public Round resume(byte[] saved) {
            if (saved.length < ROUND) throw new Refusal("resume", FOREIGN);
            Round round = new Round(this, lent(saved));
            round.forecast();
            return round;
        }
    }

    /** A round and the table that it runs on. */
    public static final class Round {
        private Table table;
        private final ByteBuffer bytes;
        private final ByteBuffer commits = ByteBuffer.allocateDirect(ANSWER * (HAND + 1));

        private Round(Table table, ByteBuffer bytes) {
            this.table = table;
            this.bytes = bytes;
        }

        public Table table() {
            return table;
        }

        /** A copy of its 2,048 bytes, to save it. */
        public byte[] bytes() {
            return copied(bytes, ROUND);
        }

        /** An event is taken in, sent by this player. */
        public void arrive(int event, int player) {
            done("arrive", Engine.arrive(table.bytes, bytes, event, player));
        }

        /** Entry `number` of the order that all phones share is taken in, once and in its place. */
        public Delivered deliver(int number, int event, int player) {
            long a = Engine.deliver(table.bytes, bytes, number, event, player, commits);
            int end = (int) (a >>> 56);
            if (end != 1) throw new Refusal("deliver", end == 0 ? (int) a : FOREIGN);
            return new Delivered((int) a, (a >>> 32 & 0xFFFFFF) > 0 ? written(0) : null);
        }

        /** How many were taken in. */
        public int taken() {
            return (int) counted();
        }

        /** How many of them are in hand. */
        public int inHand() {
            return (int) (counted() >>> 40);
        }

        private long counted() {
            long a = Engine.taken(table.bytes, bytes);
            worth("taken", a);
            return a;
        }

        public Step step() {
            Step step = new Step(Engine.step(table.bytes, bytes));
            if (step.kind == FOREIGN) throw new Refusal("step", FOREIGN);
            return step;
        }

        /**
         * At most so many steps. Where a step is refused `end` is FRAME_REFUSED, and the steps before it were made. A
         * frame commits at most what is in hand, which there is room for.
         */
        public Frame frame(int steps) {
            long a = Engine.frame(table.bytes, bytes, steps, commits);
            Step[] did = new Step[(int) (a >>> 32 & 0xFFFFFF)];
            for (int k = 0; k < did.length; k++) did[k] = written(k);
            return new Frame((int) a, did, (int) (a >>> 56));
        }

        private Step written(int k) {
            return new Step(commits.getLong(ANSWER * k));
        }

        /** Steps until nothing is in hand. */
        public void runToIdle() {
            Frame frame;
            do {
                frame = frame(-1); // 4,294,967,295
                if (frame.end == FRAME_REFUSED) throw new Refusal("frame", FOREIGN);
            } while (frame.end != FRAME_IDLE);
        }

        /** A behaviour's value, as this player may see it. */
        public int board(int behaviour, int player) {
            return worth("board", Engine.board(table.bytes, bytes, behaviour, player));
        }

        /** The board when idle after exactly so many entries, as a player sees it; null for what it may not see. */
        public Integer[] boardAfter(int number, int player) {
            at(number);
            Integer[] board = new Integer[table.behaviours()];
            for (int k = 0; k < board.length; k++) {
                long a = Engine.board(table.bytes, bytes, k, player);
                if (a != 25) board[k] = worth("board", a);
            }
            return board;
        }

        // Idle with exactly so many entries taken in.
        private void at(int number) {
            if (taken() != number) throw new NotThere(number, taken());
            runToIdle();
        }

        /** Steps to idle if no arrival is taken in meanwhile: exact with nothing running, else a bound. */
        public int forecast() {
            return worth("forecast", Engine.forecast(table.bytes, bytes));
        }

        /** The value that a behaviour would show after this event of this player had been run to idle. */
        public int preview(int event, int behaviour, int player) {
            return worth("preview", Engine.preview(table.bytes, bytes, event, behaviour, player));
        }

        /** The round goes on under another table. */
        public void mend(Table other) {
            done("mend", Engine.mend(table.bytes, other.bytes, bytes));
            table = other;
        }

        /** The same after exactly so many entries. */
        public void mendAfter(int number, Table other) {
            at(number);
            mend(other);
        }

        /** Makes recorded calls, six bytes each, one after the other: their answers. */
        public long[] replay(byte[] calls) {
            ByteBuffer room = ByteBuffer.allocateDirect(ANSWER * (calls.length / 6));
            long[] answers = new long[(int) Engine.replay(table.bytes, bytes, lent(calls), room)];
            room.asLongBuffer().get(answers);
            return answers;
        }
    }

    // ---- answers and buffers

    // 0, or a refusal's number
    private static void done(String call, int number) {
        if (number != 0) throw new Refusal(call, number);
    }

    // 2^32 and a word, or a refusal's number
    private static int worth(String call, long answer) {
        if (answer >>> 32 == 0) throw new Refusal(call, (int) answer);
        return (int) answer;
    }

    // bytes as a call is lent them; of none, or null, a buffer without any
    private static ByteBuffer lent(byte[] bytes) {
        ByteBuffer buffer = ByteBuffer.allocateDirect(bytes == null ? 0 : bytes.length);
        if (bytes != null) buffer.duplicate().put(bytes);
        return buffer;
    }

    private static byte[] copied(ByteBuffer buffer, int length) {
        byte[] bytes = new byte[length];
        buffer.duplicate().get(bytes);
        return bytes;
    }

    // ---- the calls, as include/engine.h has them; each buffer is direct, and is lent whole

    /** 65,536 times the interface and the layout, of the library that was loaded. */
    public static native int version();

    static native int compile(ByteBuffer sheet, ByteBuffer params, ByteBuffer table);

    static native long circle(ByteBuffer sheet, ByteBuffer params, ByteBuffer list);

    static native long agree(ByteBuffer sheet, ByteBuffer params);

    static native long agree_for(ByteBuffer sheet, ByteBuffer params, int behaviour);

    static native long pair(ByteBuffer sheet, ByteBuffer params, int first, int second);

    static native long leak(ByteBuffer sheet, ByteBuffer params, int player);

    static native long formula(ByteBuffer text, ByteBuffer buffer);

    static native long assemble(ByteBuffer text, ByteBuffer buffer);

    static native long describe(ByteBuffer sheet, ByteBuffer buffer);

    static native long join(ByteBuffer first, ByteBuffer second, ByteBuffer params, ByteBuffer buffer);

    static native long event_count(ByteBuffer table);

    static native long behaviour_count(ByteBuffer table);

    static native long event_rank(ByteBuffer table, int event);

    static native int start(ByteBuffer table, ByteBuffer round);

    static native int arrive(ByteBuffer table, ByteBuffer round, int event, int player);

    static native long step(ByteBuffer table, ByteBuffer round);

    static native long frame(ByteBuffer table, ByteBuffer round, int steps, ByteBuffer commits);

    static native long deliver(
            ByteBuffer table, ByteBuffer round, int number, int event, int player, ByteBuffer commits);

    static native long taken(ByteBuffer table, ByteBuffer round);

    static native long told(long answer);

    static native long board(ByteBuffer table, ByteBuffer round, int behaviour, int player);

    static native long forecast(ByteBuffer table, ByteBuffer round);

    static native long preview(ByteBuffer table, ByteBuffer round, int event, int behaviour, int player);

    static native int mend(ByteBuffer old, ByteBuffer table, ByteBuffer round);

    static native long replay(ByteBuffer table, ByteBuffer round, ByteBuffer calls, ByteBuffer answers);
}
