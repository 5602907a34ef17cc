import java.io.BufferedReader;
import java.io.InputStreamReader;
import java.io.PrintStream;
import java.io.StringWriter;
import java.lang.invoke.MethodType;
import java.lang.reflect.Method;
import java.net.URL;
import java.net.URLClassLoader;
import java.nio.charset.StandardCharsets;
import java.nio.file.Files;
import java.nio.file.Path;
import java.util.List;
import java.util.Locale;
import java.util.TreeSet;
import javax.tools.DiagnosticCollector;
import javax.tools.JavaCompiler;
import javax.tools.JavaFileObject;
import javax.tools.StandardJavaFileManager;
import javax.tools.ToolProvider;

/**
 * Tells of many jobs which bridge methods javac writes: Bridging ROOM
 *
 * <p>Each line of the input is a job: a source file. For each job there is a line "job N", and below it "refused", or a line "CLASS NAME DESCRIPTOR" for
 * each bridge method of its class files whose class is named C and a number.
 */
public class Bridging {
    public static void main(String[] args) throws Exception {
        PrintStream out = new PrintStream(System.out, false, "UTF-8");
        BufferedReader jobs = new BufferedReader(new InputStreamReader(System.in, StandardCharsets.UTF_8));
        int number = 0;
        for (String line = jobs.readLine(); line != null; line = jobs.readLine()) {
            out.println("job " + number);
            tell(out, Path.of(line), Files.createDirectory(Path.of(args[0], "made" + number)));
            number++;
        }
        out.flush();
    }

    private static void tell(PrintStream out, Path source, Path made) throws Exception {
        JavaCompiler javac = ToolProvider.getSystemJavaCompiler();
        DiagnosticCollector<JavaFileObject> said = new DiagnosticCollector<>();
        try (StandardJavaFileManager manager = javac.getStandardFileManager(said, Locale.ENGLISH, StandardCharsets.UTF_8)) {
            List<String> options = List.of("--release", "7", "-proc:none", "-nowarn", "-Xlint:none", "-d", made.toString());
            if (!javac.getTask(new StringWriter(), manager, said, options, null, manager.getJavaFileObjects(source)).call()) {
                out.println("refused");
                return;
            }
        }
        TreeSet<String> lines = new TreeSet<>();
        try (URLClassLoader loader = new URLClassLoader(new URL[] {made.toUri().toURL()}, null)) {
            for (int i = 0; Files.exists(made.resolve("C" + i + ".class")); i++) {
                for (Method one : loader.loadClass("C" + i).getDeclaredMethods()) {
                    if (one.isBridge()) {
                        lines.add("C" + i + " " + one.getName() + " " + MethodType.methodType(one.getReturnType(), one.getParameterTypes()).toMethodDescriptorString());
                    }
                }
            }
        }
        lines.forEach(out::println);
    }
}
