package org.avrojudge;

import com.sun.jna.Library;
import com.sun.jna.Native;
import com.sun.jna.NativeLong;
import com.sun.jna.Structure;
import java.io.ByteArrayOutputStream;
import java.nio.charset.StandardCharsets;
import java.util.Arrays;
import java.util.List;

/**
 * The answers of the program `avro` in Java, by its library for C and JNA.
 *
 * <p>A text is its bytes in UTF-8. The library is the file that the variable AVROJUDGE_LIBRARY names, or else the
 * libavrojudge.so of the system, or of the folder of -Djna.library.path. Calls may run in several threads at once.
 * It needs Java 17 and JNA 5.
 */
public final class AvroJudge {
    /** The statuses of avrojudge.h. */
    public static final int YES = 0, NO = 1, UNDECIDED = 2, REFUSED = 3, OUT_OF_MEMORY = 5, USAGE = 64;

    private static final int FIRST_ROOM = 4096;
    private static final C LIBRARY = load();

    private AvroJudge() {}

    /** A status, and the bytes that the program prints. */
    public record Answer(int status, byte[] bytes) {
        /** The bytes as a text. */
        public String text() {
            return new String(bytes, StandardCharsets.UTF_8);
        }
    }

    /** Limits of judging, which are unsigned; 0 stands for the default. */
    public record Limits(int pairs, int size, int depth) {
        /** The default limits. */
        public static final Limits DEFAULT = new Limits(0, 0, 0);
    }

    /** What is shown of a schema. */
    public enum Shown { COUNT, CANONICAL, FINGERPRINT }

    /** `avrojudge_limits` of avrojudge.h. */
    @Structure.FieldOrder({"structSize", "pairs", "size", "depth"})
    public static final class CLimits extends Structure {
        public int structSize, pairs, size, depth;

        CLimits(Limits limits) {
            structSize = size();
            pairs = limits.pairs();
            size = limits.size();
            depth = limits.depth();
        }
    }

    /** `avrojudge_reading` of avrojudge.h. */
    @Structure.FieldOrder({"skip", "hasReader", "depth", "nodes", "blob"})
    public static final class CReading extends Structure {
        public NativeLong skip;
        public int hasReader, depth, nodes, blob;

        CReading(byte[] reader, long skipped) {
            skip = new NativeLong(skipped, true);
            hasReader = reader == null ? 0 : 1;
        }
    }

    /** The functions of avrojudge.h. */
    interface C extends Library {
        int avrojudge_judge_text(byte[] writer, NativeLong writerLength, byte[] reader, NativeLong readerLength,
                CLimits limits, byte[] out, NativeLong room, long[] wanted);

        int avrojudge_judge_json_text(byte[] writer, NativeLong writerLength, byte[] reader, NativeLong readerLength,
                CLimits limits, byte[] out, NativeLong room, long[] wanted);

        int avrojudge_explain_text(byte[] writer, NativeLong writerLength, byte[] reader, NativeLong readerLength,
                int maxPairs, byte[] out, NativeLong room, long[] wanted);

        int avrojudge_explain_json_text(byte[] writer, NativeLong writerLength, byte[] reader, NativeLong readerLength,
                int maxPairs, byte[] out, NativeLong room, long[] wanted);

        int avrojudge_certify_text(byte[] writer, NativeLong writerLength, byte[] reader, NativeLong readerLength,
                CLimits limits, byte[] out, NativeLong room, long[] wanted);

        int avrojudge_confirm_text(byte[] writer, NativeLong writerLength, byte[] reader, NativeLong readerLength,
                byte[] certificate, NativeLong certificateLength, byte[] out, NativeLong room, long[] wanted);

        int avrojudge_history_text(byte[] texts, NativeLong length, long[] lengths, NativeLong count, CLimits limits,
                byte[] out, NativeLong room, long[] wanted);

        int avrojudge_schema_text(byte[] text, NativeLong length, int shown, byte[] out, NativeLong room,
                long[] wanted);

        int avrojudge_read_text(byte[] writer, NativeLong writerLength, byte[] reader, NativeLong readerLength,
                byte[] data, NativeLong length, CReading asked, byte[] out, NativeLong room, long[] wanted);

        int avrojudge_read_texts(byte[] writer, NativeLong writerLength, byte[] reader, NativeLong readerLength,
                byte[] data, NativeLong length, long[] lengths, NativeLong count, CReading asked, byte[] out,
                NativeLong room, long[] wanted);

        int avrojudge_version(byte[] out, NativeLong room, long[] wanted);
    }

    /** A call, but for the room of its answer. */
    private interface Call {
        int into(byte[] out, NativeLong room, long[] wanted);
    }

    private static C load() {
        String named = System.getenv("AVROJUDGE_LIBRARY");
        return Native.load(named == null ? "avrojudge" : named, C.class);
    }

    /** The whole answer of a call. It is made again where the room was short. */
    private static Answer ask(Call call) {
        long[] wanted = new long[1];
        for (int room = FIRST_ROOM; ; room = Math.toIntExact(wanted[0])) {
            byte[] out = new byte[room];
            int status = call.into(out, new NativeLong(room), wanted);
            if (wanted[0] <= room) {
                return new Answer(status, Arrays.copyOf(out, (int) wanted[0]));
            }
        }
    }

    /** Bytes that a pointer can point at: that of an empty array may not be read. */
    private static byte[] some(byte[] bytes) {
        return bytes == null || bytes.length == 0 ? new byte[1] : bytes;
    }

    private static NativeLong length(byte[] bytes) {
        return new NativeLong(bytes == null ? 0 : bytes.length);
    }

    private static byte[] joined(List<byte[]> parts) {
        ByteArrayOutputStream all = new ByteArrayOutputStream();
        parts.forEach(all::writeBytes);
        return all.toByteArray();
    }

    private static long[] lengths(List<byte[]> parts) {
        return parts.isEmpty() ? new long[1] : parts.stream().mapToLong(part -> part.length).toArray();
    }

    /** The bytes of a text. */
    public static byte[] bytes(String text) {
        return text.getBytes(StandardCharsets.UTF_8);
    }

    /** Judges whether the reader's schema reads all data of the writer's, as `avro judge`. */
    public static Answer judge(byte[] writer, byte[] reader, Limits limits) {
        return ask((out, room, wanted) ->
                LIBRARY.avrojudge_judge_text(some(writer), length(writer), some(reader), length(reader),
                    new CLimits(limits), out, room, wanted));
    }

    /** The same as a line of JSON. */
    public static Answer judgeJson(byte[] writer, byte[] reader, Limits limits) {
        return ask((out, room, wanted) ->
                LIBRARY.avrojudge_judge_json_text(some(writer), length(writer), some(reader), length(reader),
                    new CLimits(limits), out, room, wanted));
    }

    /** Finds all faults of two schemas by names, as `avro explain`; 0 is the default limit of pairs. */
    public static Answer explain(byte[] writer, byte[] reader, int maxPairs) {
        return ask((out, room, wanted) ->
                LIBRARY.avrojudge_explain_text(some(writer), length(writer), some(reader), length(reader), maxPairs,
                    out, room, wanted));
    }

    /** The same as a line of JSON. */
    public static Answer explainJson(byte[] writer, byte[] reader, int maxPairs) {
        return ask((out, room, wanted) ->
                LIBRARY.avrojudge_explain_json_text(some(writer), length(writer), some(reader), length(reader),
                    maxPairs, out, room, wanted));
    }

    /** The certificate of a yes; after another verdict there is no text. */
    public static Answer certify(byte[] writer, byte[] reader, Limits limits) {
        return ask((out, room, wanted) ->
                LIBRARY.avrojudge_certify_text(some(writer), length(writer), some(reader), length(reader),
                    new CLimits(limits), out, room, wanted));
    }

    /** Says whether a certificate shows that the two schemas are compatible, as `avro confirm`. */
    public static Answer confirm(byte[] writer, byte[] reader, byte[] certificate) {
        return ask((out, room, wanted) ->
                LIBRARY.avrojudge_confirm_text(some(writer), length(writer), some(reader), length(reader),
                    some(certificate), length(certificate), out, room, wanted));
    }

    /** Judges each schema but the last with the last one, as `avro history`. */
    public static Answer history(List<byte[]> schemas, Limits limits) {
        byte[] all = joined(schemas);
        return ask((out, room, wanted) ->
                LIBRARY.avrojudge_history_text(some(all), length(all), lengths(schemas),
                    new NativeLong(schemas.size()), new CLimits(limits), out, room, wanted));
    }

    /** Shows a schema, as `avro schema`. */
    public static Answer schema(byte[] text, Shown shown) {
        return ask((out, room, wanted) ->
                LIBRARY.avrojudge_schema_text(some(text), length(text), shown.ordinal(), out, room, wanted));
    }

    /** The datum that data begin with after some bytes, for the reader's schema unless that is null, as `avro read`. */
    public static Answer read(byte[] writer, byte[] reader, byte[] data, long skip) {
        return ask((out, room, wanted) ->
                LIBRARY.avrojudge_read_text(some(writer), length(writer), some(reader), length(reader), some(data),
                    length(data), new CReading(reader, skip), out, room, wanted));
    }

    /** The same of each of several data: a line of JSON each. */
    public static Answer readAll(byte[] writer, byte[] reader, List<byte[]> data, long skip) {
        byte[] all = joined(data);
        return ask((out, room, wanted) ->
                LIBRARY.avrojudge_read_texts(some(writer), length(writer), some(reader), length(reader), some(all),
                    length(all), lengths(data), new NativeLong(data.size()), new CReading(reader, skip), out, room,
                    wanted));
    }

    /** The line of the version. */
    public static Answer version() {
        return ask(LIBRARY::avrojudge_version);
    }
}
