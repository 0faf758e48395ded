import java.nio.file.Files;
import java.nio.file.Path;
import java.util.List;
import org.objectweb.asm.ClassReader;
import org.objectweb.asm.ClassWriter;

/** Reads class files and writes them again with ASM, instruction by instruction: `Recode ROUNDS LIST`, where LIST is a file of
 * paths, one a line.
 *
 * Prints the seconds of each round, and last how many bytes were written in the last one. */
public class Recode {
    public static void main(String[] words) throws Exception {
        int rounds = Integer.parseInt(words[0]);
        List<String> paths = Files.readAllLines(Path.of(words[1]));
        long size = 0;
        for (int round = 0; round < rounds; round++) {
            long start = System.nanoTime();
            size = 0;
            for (String path : paths) {
                size += written(Files.readAllBytes(Path.of(path))).length;
            }
            System.out.println((System.nanoTime() - start) / 1e9);
        }
        System.out.println(size);
    }

    private static byte[] written(byte[] source) {
        ClassWriter writer = new ClassWriter(0);
        new ClassReader(source).accept(writer, 0);
        return writer.toByteArray();
    }
}
