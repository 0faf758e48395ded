import java.io.ByteArrayInputStream;
import java.io.ByteArrayOutputStream;
import java.io.DataInputStream;
import java.io.DataOutputStream;
import java.nio.file.Files;
import java.nio.file.Path;
import java.util.Arrays;
import java.util.List;
import javassist.bytecode.ClassFile;

/** Reads class files and writes them again with Javassist: `Reread ROUNDS LIST`, where LIST is a file of paths, one a line.
 *
 * Prints the seconds of each round, and last how many files were the same in the last one. */
public class Reread {
    public static void main(String[] words) throws Exception {
        int rounds = Integer.parseInt(words[0]);
        List<String> paths = Files.readAllLines(Path.of(words[1]));
        int same = 0;
        for (int round = 0; round < rounds; round++) {
            long start = System.nanoTime();
            same = 0;
            for (String path : paths) {
                if (isSame(Files.readAllBytes(Path.of(path)))) {
                    same++;
                }
            }
            System.out.println((System.nanoTime() - start) / 1e9);
        }
        System.out.println(same);
    }

    private static boolean isSame(byte[] source) throws Exception {
        ClassFile read = new ClassFile(new DataInputStream(new ByteArrayInputStream(source)));
        ByteArrayOutputStream written = new ByteArrayOutputStream(source.length);
        read.write(new DataOutputStream(written));
        return Arrays.equals(source, written.toByteArray());
    }
}
