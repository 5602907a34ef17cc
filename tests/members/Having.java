import com.sun.source.util.JavacTask;
import java.io.BufferedReader;
import java.io.IOException;
import java.io.InputStreamReader;
import java.io.PrintStream;
import java.io.StringWriter;
import java.lang.reflect.Constructor;
import java.lang.reflect.Method;
import java.lang.reflect.Modifier;
import java.net.URL;
import java.net.URLClassLoader;
import java.nio.charset.StandardCharsets;
import java.nio.file.Files;
import java.nio.file.Path;
import java.util.ArrayList;
import java.util.LinkedHashMap;
import java.util.List;
import java.util.Locale;
import java.util.Map;
import java.util.TreeMap;
import javax.lang.model.element.Element;
import javax.lang.model.element.ExecutableElement;
import javax.lang.model.element.TypeElement;
import javax.lang.model.element.TypeParameterElement;
import javax.lang.model.type.ArrayType;
import javax.lang.model.type.DeclaredType;
import javax.lang.model.type.ExecutableType;
import javax.lang.model.type.TypeKind;
import javax.lang.model.type.TypeMirror;
import javax.lang.model.type.TypeVariable;
import javax.lang.model.type.WildcardType;
import javax.lang.model.util.ElementFilter;
import javax.lang.model.util.Elements;
import javax.lang.model.util.Types;
import javax.tools.Diagnostic;
import javax.tools.DiagnosticCollector;
import javax.tools.JavaCompiler;
import javax.tools.JavaFileObject;
import javax.tools.StandardJavaFileManager;
import javax.tools.ToolProvider;

/**
 * Tells of many jobs which methods their classes have, which override and hide which, and which bodies run: Having ROOM
 *
 * <p>Each line of the input is a job: a source file. Its classes that are asked are named C and a number, and their methods, counted from 0 in the
 * order of the source, have the labels m0, m1 and so on. The body of each leaves its label in {@code Told.last}. For each job there is a line "job N",
 * and below it "refused", or a line for each fact, in the words of the program that answers questions on types.
 */
public class Having {
    private final PrintStream out;
    private final Elements elements;
    private final Types types;
    private final List<TypeElement> classes = new ArrayList<>();
    private final Map<Element, Integer> numbers = new LinkedHashMap<>();

    private Having(PrintStream out, JavacTask task) {
        this.out = out;
        this.elements = task.getElements();
        this.types = task.getTypes();
    }

    public static void main(String[] args) throws Exception {
        PrintStream out = new PrintStream(System.out, false, "UTF-8");
        BufferedReader jobs = new BufferedReader(new InputStreamReader(System.in, StandardCharsets.UTF_8));
        int number = 0;
        for (String line = jobs.readLine(); line != null; line = jobs.readLine()) {
            out.println("job " + number);
            tell(out, Path.of(line), Files.createDirectory(Path.of(args[0], "made" + number)));
            number++;
        }
        out.flush();
    }

    private static void tell(PrintStream out, Path source, Path made) throws Exception {
        JavaCompiler javac = ToolProvider.getSystemJavaCompiler();
        DiagnosticCollector<JavaFileObject> said = new DiagnosticCollector<>();
        try (StandardJavaFileManager manager = javac.getStandardFileManager(said, Locale.ENGLISH, StandardCharsets.UTF_8)) {
            List<String> options = List.of("--release", "7", "-proc:none", "-nowarn", "-Xlint:none", "-d", made.toString());
            JavacTask task = (JavacTask) javac.getTask(new StringWriter(), manager, said, options, null, manager.getJavaFileObjects(source));
            Iterable<? extends Element> found = task.analyze();
            if (said.getDiagnostics().stream().anyMatch(one -> one.getKind() == Diagnostic.Kind.ERROR)) {
                out.println("refused");
                return;
            }
            Having having = new Having(out, task);
            having.note(found);
            having.tellPairs();
            having.tellMembers();
            task.generate();
            having.tellBodies(made);
        }
    }

    /** The classes in the order of their numbers, and their methods. */
    private void note(Iterable<? extends Element> found) {
        TreeMap<Integer, TypeElement> sorted = new TreeMap<>();
        for (Element one : found) {
            String name = one.getSimpleName().toString();
            if (name.matches("C\\d+")) {
                sorted.put(Integer.valueOf(name.substring(1)), (TypeElement) one);
            }
        }
        classes.addAll(sorted.values());
        for (TypeElement one : classes) {
            for (ExecutableElement method : ElementFilter.methodsIn(one.getEnclosedElements())) {
                numbers.put(method, numbers.size());
            }
        }
    }

    private String label(Element method) {
        return "m" + numbers.get(method);
    }

    private void tellPairs() {
        for (Element one : numbers.keySet()) {
            for (Element other : numbers.keySet()) {
                if (one != other && one.getSimpleName().equals(other.getSimpleName())) {
                    TypeElement owner = (TypeElement) one.getEnclosingElement();
                    boolean overrides = elements.overrides((ExecutableElement) one, (ExecutableElement) other, owner);
                    out.println("overrides " + label(one) + " " + label(other) + " = " + yesOrNo(overrides));
                    boolean hides = one.getEnclosingElement() != other.getEnclosingElement() && elements.hides(one, other);
                    out.println("hides " + label(one) + " " + label(other) + " = " + yesOrNo(hides));
                }
            }
        }
    }

    private static String yesOrNo(boolean holds) {
        return holds ? "Yes" : "No";
    }

    /** The members of each class, and of a generic one with Integer for its parameters and of the raw one. */
    private void tellMembers() {
        TypeMirror argument = elements.getTypeElement("java.lang.Integer").asType();
        for (TypeElement one : classes) {
            tellMembers(types.getDeclaredType(one), one);
            if (!one.getTypeParameters().isEmpty()) {
                tellMembers(types.getDeclaredType(one, argument), one);
            }
        }
    }

    private void tellMembers(DeclaredType type, TypeElement element) {
        List<ExecutableElement> all = new ArrayList<>();
        for (ExecutableElement method : ElementFilter.methodsIn(elements.getAllMembers(element))) {
            if (numbers.containsKey(method)) {
                all.add(method);
            }
        }
        for (String name : List.of("m", "n")) {
            TreeMap<Integer, String> words = new TreeMap<>();
            for (ExecutableElement method : all) {
                if (method.getSimpleName().contentEquals(name) && all.stream().noneMatch(other -> isReplaced(method, other))) {
                    words.put(numbers.get(method), label(method) + viewed((ExecutableType) types.asMemberOf(type, method), method));
                }
            }
            out.println("members " + words(type) + " " + name + " = " + (words.isEmpty() ? "none" : String.join(" | ", words.values())));
        }
    }

    private boolean isReplaced(ExecutableElement method, ExecutableElement other) {
        if (method == other || method.getEnclosingElement() == other.getEnclosingElement()) {
            return false;
        }
        return elements.hides(other, method) || elements.overrides(other, method, (TypeElement) other.getEnclosingElement());
    }

    private String viewed(ExecutableType type, ExecutableElement method) {
        StringBuilder text = new StringBuilder();
        for (TypeVariable variable : type.getTypeVariables()) {
            text.append(" ").append(label(method)).append(".").append(variable.asElement().getSimpleName());
        }
        text.append(" : ").append(words(type.getReturnType()));
        for (TypeMirror parameter : type.getParameterTypes()) {
            text.append(" ").append(words(parameter));
        }
        return text.toString();
    }

    private String words(TypeMirror type) {
        switch (type.getKind()) {
            case ARRAY:
                return words(((ArrayType) type).getComponentType()) + "[]";
            case TYPEVAR:
                return variable(((TypeVariable) type).asElement());
            case WILDCARD:
                TypeMirror bound = ((WildcardType) type).getExtendsBound();
                return bound == null ? "?" : "+" + words(bound);
            case DECLARED:
                StringBuilder text = new StringBuilder(((DeclaredType) type).asElement().getSimpleName());
                List<? extends TypeMirror> arguments = ((DeclaredType) type).getTypeArguments();
                for (int i = 0; i < arguments.size(); i++) {
                    text.append(i == 0 ? "<" : ",").append(words(arguments.get(i)));
                }
                return text + (arguments.isEmpty() ? "" : ">");
            default:
                return type.getKind() == TypeKind.VOID ? "void" : type.toString();
        }
    }

    private String variable(Element variable) {
        Element owner = ((TypeParameterElement) variable).getGenericElement();
        return (numbers.containsKey(owner) ? label(owner) : owner.getSimpleName()) + "." + variable.getSimpleName();
    }

    /** The body that runs where a method is called of an object of a class. */
    private void tellBodies(Path made) throws Exception {
        try (URLClassLoader loader = new URLClassLoader(new URL[] {made.toUri().toURL()}, null)) {
            Class<?> told = loader.loadClass("Told");
            for (TypeElement one : classes) {
                Class<?> type = loader.loadClass(one.getSimpleName().toString());
                if (!Modifier.isAbstract(type.getModifiers())) {
                    Constructor<?> maker = type.getDeclaredConstructor();
                    maker.setAccessible(true);
                    tellBodies(type, maker.newInstance(), told, loader);
                }
            }
        }
    }

    private void tellBodies(Class<?> type, Object made, Class<?> told, ClassLoader loader) throws Exception {
        for (Element method : numbers.keySet()) {
            Class<?> owner = loader.loadClass(method.getEnclosingElement().getSimpleName().toString());
            Method called = declared(owner, (ExecutableElement) method);
            int modifiers = called.getModifiers();
            if (owner.isAssignableFrom(type) && !Modifier.isStatic(modifiers) && !Modifier.isPrivate(modifiers)) {
                called.setAccessible(true);
                called.invoke(made, nothing(called));
                var last = told.getDeclaredField("last");
                last.setAccessible(true);
                out.println("select " + type.getSimpleName() + " " + label(method) + " = " + last.get(null));
            }
        }
    }

    /** The method as the class file declares it: the one of this name that is no bridge and has the erased parameters. */
    private Method declared(Class<?> owner, ExecutableElement method) throws IOException {
        List<String> wanted = new ArrayList<>();
        for (Element parameter : method.getParameters()) {
            wanted.add(types.erasure(parameter.asType()).toString());
        }
        for (Method one : owner.getDeclaredMethods()) {
            List<String> names = new ArrayList<>();
            for (Class<?> parameter : one.getParameterTypes()) {
                names.add(parameter.getCanonicalName());
            }
            if (!one.isBridge() && one.getName().contentEquals(method.getSimpleName()) && names.equals(wanted)) {
                return one;
            }
        }
        throw new IOException("no method " + method);
    }

    private static Object[] nothing(Method method) {
        Object[] arguments = new Object[method.getParameterCount()];
        for (int i = 0; i < arguments.length; i++) {
            Class<?> type = method.getParameterTypes()[i];
            arguments[i] = type == int.class ? (Object) 0 : type == long.class ? (Object) 0L : null;
        }
        return arguments;
    }
}
