import java.io.BufferedReader;
import java.io.File;
import java.io.IOException;
import java.io.InputStreamReader;
import java.io.PrintStream;
import java.io.StringWriter;
import java.nio.charset.StandardCharsets;
import java.nio.file.Files;
import java.nio.file.Path;
import java.util.ArrayList;
import java.util.Arrays;
import java.util.List;
import java.util.Locale;
import javax.tools.Diagnostic;
import javax.tools.DiagnosticCollector;
import javax.tools.JavaCompiler;
import javax.tools.JavaFileObject;
import javax.tools.StandardJavaFileManager;
import javax.tools.ToolProvider;

/**
 * Tells what javac says of many jobs, in one process: Judge ROOM OPTION ...
 *
 * <p>Each line of the input is a job: a folder and the files in it, with tabs between. For each job there is a line "job N", and below it a line for
 * each error: the file, the line, javac's own name of the error and its text, with tabs between. Where javac itself fails, the file is a dash.
 */
public class Judge {
    public static void main(String[] args) throws IOException {
        JavaCompiler javac = ToolProvider.getSystemJavaCompiler();
        PrintStream out = new PrintStream(System.out, false, "UTF-8");
        BufferedReader jobs = new BufferedReader(new InputStreamReader(System.in, StandardCharsets.UTF_8));
        Path nothing = Files.createDirectory(Path.of(args[0], "nothing"));
        int number = 0;
        for (String line = jobs.readLine(); line != null; line = jobs.readLine()) {
            String[] words = line.split("\t");
            List<String> options = new ArrayList<>(Arrays.asList(args).subList(1, args.length));
            Path made = Files.createDirectory(Path.of(args[0], "made" + number));
            options.addAll(List.of("-proc:none", "-nowarn", "-Xlint:none", "-implicit:none", "-encoding", "UTF-8", "-Xmaxerrs", "1000000", "-cp", nothing.toString(),
                "-sourcepath", nothing.toString(), "-d", made.toString()));
            List<File> files = new ArrayList<>();
            for (String name : Arrays.asList(words).subList(1, words.length)) {
                files.add(new File(words[0], name));
            }
            out.println("job " + number);
            judge(javac, options, files, out);
            number++;
        }
        out.flush();
    }

    static void judge(JavaCompiler javac, List<String> options, List<File> files, PrintStream out) throws IOException {
        DiagnosticCollector<JavaFileObject> said = new DiagnosticCollector<>();
        boolean taken;
        try (StandardJavaFileManager manager = javac.getStandardFileManager(said, Locale.ENGLISH, StandardCharsets.UTF_8)) {
            taken = javac.getTask(new StringWriter(), manager, said, options, null, manager.getJavaFileObjectsFromFiles(files)).call();
        }
        if (!taken && said.getDiagnostics().stream().noneMatch(one -> one.getKind() == Diagnostic.Kind.ERROR)) {
            out.println("-\t0\tno.answer\tjavac itself failed");
        }
        for (Diagnostic<? extends JavaFileObject> one : said.getDiagnostics()) {
            if (one.getKind() == Diagnostic.Kind.ERROR) {
                String file = one.getSource() == null ? "-" : new File(one.getSource().getName()).getName();
                out.println(file + "\t" + one.getLineNumber() + "\t" + one.getCode().replace("compiler.err.", "") + "\t" + one.getMessage(Locale.ENGLISH).split("\n")[0]);
            }
        }
    }
}
