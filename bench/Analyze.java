import java.nio.file.Files;
import java.nio.file.Path;
import java.util.List;
import org.objectweb.asm.ClassReader;
import org.objectweb.asm.tree.ClassNode;
import org.objectweb.asm.tree.MethodNode;
import org.objectweb.asm.tree.analysis.Analyzer;
import org.objectweb.asm.tree.analysis.BasicValue;
import org.objectweb.asm.tree.analysis.BasicVerifier;

/** Reads class files and analyzes the code of their methods with ASM's BasicVerifier: `Analyze ROUNDS LIST`, where LIST is a file
 * of paths, one a line.
 *
 * Prints the seconds of each round, and last how many methods were analyzed in the last one. */
public class Analyze {
    public static void main(String[] words) throws Exception {
        int rounds = Integer.parseInt(words[0]);
        List<String> paths = Files.readAllLines(Path.of(words[1]));
        long methods = 0;
        for (int round = 0; round < rounds; round++) {
            long start = System.nanoTime();
            methods = 0;
            for (String path : paths) {
                methods += analyzed(Files.readAllBytes(Path.of(path)));
            }
            System.out.println((System.nanoTime() - start) / 1e9);
        }
        System.out.println(methods);
    }

    private static int analyzed(byte[] source) throws Exception {
        ClassNode node = new ClassNode();
        new ClassReader(source).accept(node, ClassReader.SKIP_DEBUG | ClassReader.SKIP_FRAMES);
        int methods = 0;
        for (MethodNode method : node.methods) {
            if (method.instructions.size() > 0) {
                new Analyzer<BasicValue>(new BasicVerifier()).analyze(node.name, method);
                methods++;
            }
        }
        return methods;
    }
}
