package org.avrojudge;

import java.io.IOException;
import java.nio.file.Files;
import java.nio.file.Path;

/** Judges the schemas of two files, and explains a no: Example WRITER READER. It ends with the status of `avro judge`. */
public final class Example {
    private Example() {}

    public static void main(String[] words) throws IOException {
        if (words.length != 2) {
            System.err.println("usage: Example WRITER READER");
            System.exit(AvroJudge.USAGE);
        }
        byte[] writer = Files.readAllBytes(Path.of(words[0]));
        byte[] reader = Files.readAllBytes(Path.of(words[1]));
        AvroJudge.Answer judged = AvroJudge.judge(writer, reader, AvroJudge.Limits.DEFAULT);
        (judged.status() == AvroJudge.REFUSED ? System.err : System.out).print(judged.text());
        if (judged.status() == AvroJudge.NO) {
            System.out.print(AvroJudge.explain(writer, reader, 0).text());
        }
        System.exit(judged.status());
    }
}
