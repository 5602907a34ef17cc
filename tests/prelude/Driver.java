package prelude;

import java.io.ByteArrayInputStream;
import java.io.ByteArrayOutputStream;
import java.lang.reflect.Constructor;
import java.lang.reflect.Field;
import java.lang.reflect.Method;
import java.lang.reflect.Modifier;
import java.nio.charset.StandardCharsets;
import java.util.ArrayList;
import java.util.Arrays;
import java.util.LinkedHashMap;
import java.util.LinkedHashSet;
import java.util.List;
import java.util.Map;
import java.util.Random;
import java.util.Set;

/** Compares the renamed classes of the prelude with Java's own. */
public class Driver {
    static ByteArrayOutputStream output = new ByteArrayOutputStream();
    static ByteArrayInputStream input = new ByteArrayInputStream(new byte[] {65, -1});
    static int halted = -1;

    private static int comparisons = 0;
    private static int differences = 0;

    private static void same(String what, Object expected, Object found) {
        comparisons++;
        if (expected == null ? found != null : !expected.equals(found)) {
            differences++;
            System.out.println(what + ": expected " + expected + ", found " + found);
        }
    }

    interface Call {
        Object get();
    }

    // What a call answers, or the simple name of what it throws, without the P of a renamed class.
    private static Object outcome(Call call) {
        try {
            return plain(call.get());
        } catch (RuntimeException e) {
            String name = e.getClass().getSimpleName();
            return "throws " + (e instanceof PThrowable ? name.substring(1) : name);
        }
    }

    private static void alike(String what, Call expected, Call found) {
        same(what, outcome(expected), outcome(found));
    }

    // The message of what a call of a renamed class throws.
    private static String message(Call call) {
        try {
            return "answers " + plain(call.get());
        } catch (PThrowable e) {
            return string(e.p_getMessage());
        }
    }

    private static Object plain(Object value) {
        return value instanceof PString ? string((PString) value) : value;
    }

    static String string(PString text) {
        return text == null ? null : new String(text.toCharArray());
    }

    static PString pstring(String text) {
        return text == null ? null : new PString(text.toCharArray());
    }

    // `toString` of a renamed class, or of one of Java's own.
    static PString text(Object object) {
        try {
            return (PString) object.getClass().getMethod("p_toString").invoke(object);
        } catch (ReflectiveOperationException e) {
            return pstring(object.toString());
        }
    }

    private static final String[] TEXTS = {
        "", "a", "b", "ab", "abc", "abcabc", "bca", "Hello", "hello", "h\u00e9llo", "\u65e5\u672c", "\ud835\udd04x", "x\ud835", "\udd04", "aaaaab", "null"
    };

    private static void strings() {
        for (String a : TEXTS) {
            PString p = pstring(a);
            same("length", a.length(), p.length());
            same("isEmpty", a.isEmpty(), p.isEmpty());
            same("hashCode", a.hashCode(), p.hashCode());
            same("hashCode again", a.hashCode(), p.hashCode());
            same("toString", a, string(p.p_toString()));
            same("toCharArray", a, new String(p.toCharArray()));
            same("equals null", false, p.equals(null));
            same("equals other", false, p.equals(a));
            for (int i = -1; i <= a.length() + 1; i++) {
                final int at = i;
                alike("charAt", () -> a.charAt(at), () -> p.charAt(at));
                alike("substring", () -> a.substring(at), () -> p.substring(at));
                for (int j = -1; j <= a.length() + 1; j++) {
                    final int end = j;
                    alike("substring to", () -> a.substring(at, end), () -> p.substring(at, end));
                }
            }
            for (int c : new int[] {'a', 'c', 'z', 0xe9, 0x65e5, 0x1d504, 0xd835, 0xdd04, -1, 0x110000}) {
                same("indexOf character", a.indexOf(c), p.indexOf(c));
            }
            for (String b : TEXTS) {
                PString q = pstring(b);
                same("equals", a.equals(b), p.equals(q));
                same("compareTo", a.compareTo(b), p.compareTo(q));
                same("concat", a.concat(b), string(p.concat(q)));
                same("indexOf", a.indexOf(b), p.indexOf(q));
                same("startsWith", a.startsWith(b), p.startsWith(q));
                same("endsWith", a.endsWith(b), p.endsWith(q));
            }
        }
        char[] own = {'x', 'y'};
        PString kept = new PString(own);
        own[0] = 'z';
        kept.toCharArray()[1] = 'z';
        same("a string keeps its own array", "xy", string(kept));
        same("message of charAt", "String index out of range: 3", message(() -> pstring("abc").charAt(3)));
        same("message of substring", "String index out of range: -1", message(() -> pstring("abc").substring(2, 1)));
        same("valueOf null", "null", string(PString.valueOf((Object) null)));
        same("valueOf object", "12", string(PString.valueOf((Object) Integer.valueOf(12))));
        for (char c : new char[] {'a', 0, '\ud835', '\uffff'}) {
            same("valueOf char", String.valueOf(c), string(PString.valueOf(c)));
        }
        for (boolean b : new boolean[] {true, false}) {
            same("valueOf boolean", String.valueOf(b), string(PString.valueOf(b)));
        }
    }

    private static final long[] NUMBERS = {
        0, 1, -1, 7, -7, 9, 10, -10, 99, 100, 127, 128, -128, -129, 255, 256, 32767, 32768, -32768, -32769, 65535, 2147483646L, 2147483647L, 2147483648L,
        -2147483647L, -2147483648L, -2147483649L, 4294967295L, 9223372036854775806L, Long.MAX_VALUE, Long.MIN_VALUE, Long.MIN_VALUE + 1, 1234567890123L
    };

    private static void boxes() {
        for (long a : NUMBERS) {
            same("valueOf long", String.valueOf(a), string(PString.valueOf(a)));
            same("valueOf int", String.valueOf((int) a), string(PString.valueOf((int) a)));
            numbers(a, Byte.valueOf((byte) a), PByte.valueOf((byte) a));
            numbers(a, Short.valueOf((short) a), PShort.valueOf((short) a));
            numbers(a, Integer.valueOf((int) a), PInteger.valueOf((int) a));
            numbers(a, Long.valueOf(a), PLong.valueOf(a));
            same("char hashCode", Character.valueOf((char) a).hashCode(), PCharacter.valueOf((char) a).hashCode());
            same("char toString", Character.valueOf((char) a).toString(), string(PCharacter.valueOf((char) a).p_toString()));
            same("charValue", (char) a, PCharacter.valueOf((char) a).charValue());
            boolean small = a >= -128 && a <= 127;
            same("long is kept", small, PLong.valueOf(a) == PLong.valueOf(a));
            same("int is kept", (int) a >= -128 && (int) a <= 127, PInteger.valueOf((int) a) == PInteger.valueOf((int) a));
            same("short is kept", (short) a >= -128 && (short) a <= 127, PShort.valueOf((short) a) == PShort.valueOf((short) a));
            same("byte is kept", true, PByte.valueOf((byte) a) == PByte.valueOf((byte) a));
            same("char is kept", (char) a <= 127, PCharacter.valueOf((char) a) == PCharacter.valueOf((char) a));
            for (long b : NUMBERS) {
                same("Byte", Byte.valueOf((byte) a).compareTo((byte) b), PByte.valueOf((byte) a).compareTo(PByte.valueOf((byte) b)));
                same("Short", Short.valueOf((short) a).compareTo((short) b), PShort.valueOf((short) a).compareTo(PShort.valueOf((short) b)));
                same("Integer", Integer.valueOf((int) a).compareTo((int) b), PInteger.valueOf((int) a).compareTo(PInteger.valueOf((int) b)));
                same("Long", Long.valueOf(a).compareTo(b), PLong.valueOf(a).compareTo(PLong.valueOf(b)));
                same("Character", Character.valueOf((char) a).compareTo((char) b), PCharacter.valueOf((char) a).compareTo(PCharacter.valueOf((char) b)));
                same("Long equals", Long.valueOf(a).equals(b), PLong.valueOf(a).equals(PLong.valueOf(b)));
                same("Integer equals", Integer.valueOf((int) a).equals((int) b), PInteger.valueOf((int) a).equals(PInteger.valueOf((int) b)));
                same("Integer equals Long", false, PInteger.valueOf((int) a).equals(PLong.valueOf(b)));
                same("max", Math.max(a, b), PMath.max(a, b));
                same("min", Math.min(a, b), PMath.min(a, b));
                same("int max", Math.max((int) a, (int) b), PMath.max((int) a, (int) b));
                same("int min", Math.min((int) a, (int) b), PMath.min((int) a, (int) b));
            }
            same("abs", Math.abs(a), PMath.abs(a));
            same("int abs", Math.abs((int) a), PMath.abs((int) a));
        }
        for (boolean a : new boolean[] {true, false}) {
            same("Boolean hashCode", Boolean.valueOf(a).hashCode(), PBoolean.valueOf(a).hashCode());
            same("Boolean toString", Boolean.valueOf(a).toString(), string(PBoolean.valueOf(a).p_toString()));
            same("booleanValue", a, PBoolean.valueOf(a).booleanValue());
            for (boolean b : new boolean[] {true, false}) {
                same("Boolean compareTo", Boolean.valueOf(a).compareTo(b), PBoolean.valueOf(a).compareTo(PBoolean.valueOf(b)));
                same("Boolean equals", a == b, PBoolean.valueOf(a).equals(PBoolean.valueOf(b)));
                same("Boolean is kept", a == b, PBoolean.valueOf(a) == PBoolean.valueOf(b));
            }
        }
        same("bounds", Arrays.asList(Byte.MIN_VALUE, Byte.MAX_VALUE, Short.MIN_VALUE, Short.MAX_VALUE, Integer.MIN_VALUE, Integer.MAX_VALUE, Long.MIN_VALUE, Long.MAX_VALUE),
            Arrays.asList(PByte.MIN_VALUE, PByte.MAX_VALUE, PShort.MIN_VALUE, PShort.MAX_VALUE, PInteger.MIN_VALUE, PInteger.MAX_VALUE, PLong.MIN_VALUE, PLong.MAX_VALUE));
    }

    private static void numbers(long a, Number number, PNumber found) {
        same("byteValue " + a, number.byteValue(), found.byteValue());
        same("shortValue " + a, number.shortValue(), found.shortValue());
        same("intValue " + a, number.intValue(), found.intValue());
        same("longValue " + a, number.longValue(), found.longValue());
        same("hashCode " + a, number.hashCode(), found.hashCode());
        same("toString " + a, number.toString(), string(text(found)));
    }

    private static final String[] NUMERALS = {
        "", "-", "+", "0", "-0", "+0", "1", "-1", "+1", "00012", "--1", "+-1", "1-", " 1", "1 ", "1.0", "0x10", "1L", "1_0", "a", "2147483647", "2147483648",
        "-2147483648", "-2147483649", "9223372036854775807", "9223372036854775808", "-9223372036854775808", "-9223372036854775809", "99999999999999999999999",
        "-99999999999999999999999", "922337203685477580700", "\u0661\u0662", "\uff11", "-\u0967", "1\u0660", "\u00b2", "\u2460", "/", ":", "\ud835\udfce", "12345678901234567890"
    };

    private static void numerals() {
        for (String numeral : NUMERALS) {
            alike("parseInt " + numeral, () -> Integer.parseInt(numeral), () -> PInteger.parseInt(pstring(numeral)));
            alike("parseLong " + numeral, () -> Long.parseLong(numeral), () -> PLong.parseLong(pstring(numeral)));
            try {
                Integer.parseInt(numeral);
            } catch (NumberFormatException e) {
                same("message of parseInt", "For input string: \"" + numeral + "\"", message(() -> PInteger.parseInt(pstring(numeral))));
            }
        }
        alike("parseInt null", () -> Integer.parseInt(null), () -> PInteger.parseInt(null));
        same("message of parseLong", "null", message(() -> PLong.parseLong(null)));
    }

    private static void builders() {
        Random random = new Random(7);
        for (int round = 0; round < 40; round++) {
            StringBuilder expected = new StringBuilder("start");
            PStringBuilder found = new PStringBuilder(pstring("start"));
            for (int i = 0; i < 60; i++) {
                int number = random.nextInt();
                String text = TEXTS[random.nextInt(TEXTS.length)];
                switch (random.nextInt(7)) {
                    case 0: expected.append(number); found.append(number); break;
                    case 1: expected.append((long) number << 20); found.append((long) number << 20); break;
                    case 2: expected.append((char) number); found.append((char) number); break;
                    case 3: expected.append(number > 0); found.append(number > 0); break;
                    case 4: expected.append(text); found.append(pstring(text)); break;
                    case 5: expected.append((String) null); found.append((PString) null); break;
                    default: expected.append(Integer.valueOf(number)); found.append((Object) Integer.valueOf(number));
                }
            }
            same("StringBuilder", expected.toString(), string(found.p_toString()));
            same("StringBuilder length", expected.length(), found.length());
            alike("StringBuilder charAt", () -> expected.charAt(30), () -> found.charAt(30));
            alike("StringBuilder charAt end", () -> expected.charAt(expected.length()), () -> found.charAt(found.length()));
        }
        same("empty", "", string(new PStringBuilder().p_toString()));
        alike("of null", () -> new StringBuilder((String) null), () -> new PStringBuilder(null));
    }

    private static String printed() {
        String all = new String(output.toByteArray(), StandardCharsets.ISO_8859_1);
        output.reset();
        return all;
    }

    private static String bytes(String text) {
        return new String(text.getBytes(StandardCharsets.UTF_8), StandardCharsets.ISO_8859_1);
    }

    private static void streams() {
        PPrintStream out = PSystem.out;
        for (String text : TEXTS) {
            out.print(pstring(text));
            same("print", bytes(text), printed());
            out.println(pstring(text));
            same("println", bytes(text + "\n"), printed());
        }
        for (int c : new int[] {0, 'a', 0x7f, 0x80, 0x7ff, 0x800, 0xd7ff, 0xd800, 0xdbff, 0xdc00, 0xdfff, 0xe000, 0xffff}) {
            out.print((char) c);
            same("print char", bytes(String.valueOf((char) c)), printed());
        }
        StringBuilder pairs = new StringBuilder();
        for (int c = 0x10000; c <= 0x10ffff; c += 0x1111) {
            pairs.appendCodePoint(c);
        }
        out.print(pstring(pairs.toString()));
        same("print pairs", bytes(pairs.toString()), printed());
        out.println();
        out.print(-5);
        out.println(6);
        out.print(7L);
        out.println(Long.MIN_VALUE);
        out.print(true);
        out.println(false);
        out.print((Object) null);
        out.println((Object) Integer.valueOf(3));
        out.print((PString) null);
        out.println('c');
        out.write(65);
        out.write(256 + 66);
        same("print others", "\n-56\n7-9223372036854775808\ntruefalse\nnull3\nnullc\nAB", printed());
        same("read", 65, PSystem.in.read());
        same("read a byte above 127", 255, PSystem.in.read());
        same("read at the end", -1, PSystem.in.read());
        same("read at the end again", -1, PSystem.in.read());
        PSystem.exit(-3);
        same("exit", -3, halted);
    }

    private static void objects() {
        PObject object = new PObject();
        same("toString", "prelude.PObject@" + Integer.toHexString(object.hashCode()), string(object.p_toString()));
        PObject small = new PObject() {
            public int hashCode() {
                return 0;
            }
        };
        same("toString 0", small.getClass().getName() + "@0", string(small.p_toString()));
        PObject negative = new PObject() {
            public int hashCode() {
                return -1;
            }
        };
        same("toString -1", negative.getClass().getName() + "@ffffffff", string(negative.p_toString()));
        same("equals", true, object.equals(object));
        same("equals other", false, object.equals(small));
    }

    private static void lists(int seed) {
        Random random = new Random(seed);
        List<Integer> expected = new ArrayList<Integer>();
        PList<Integer> found = new PArrayList<Integer>();
        for (int i = 0; i < 400; i++) {
            final int at = random.nextInt(expected.size() + 2) - 1;
            final int index = Math.min(Math.max(at, 0), expected.size());
            final Integer value = random.nextInt(12) == 0 ? null : Integer.valueOf(1000 + random.nextInt(20));
            switch (random.nextInt(10)) {
                case 0: if (at >= 0) alike("get", () -> expected.get(at), () -> found.get(at)); break;
                case 1: if (at >= 0) alike("set", () -> expected.set(at, value), () -> found.set(at, value)); break;
                case 2: if (at >= 0) alike("remove at", () -> expected.remove(at), () -> found.remove(at)); break;
                case 3: same("remove", expected.remove((Object) value), found.remove((Object) value)); break;
                case 4: same("indexOf", expected.indexOf(value), found.indexOf(value)); break;
                case 5: same("contains", expected.contains(value), found.contains(value)); break;
                case 6: if (random.nextInt(20) == 0) { expected.clear(); found.clear(); } break;
                case 7:
                    PList<Integer> more = new PArrayList<Integer>();
                    List<Integer> others = new ArrayList<Integer>();
                    for (int k = random.nextInt(4); k > 0; k--) {
                        more.add(k);
                        others.add(k);
                    }
                    same("addAll", expected.addAll(others), found.addAll(more));
                    break;
                default: same("add", expected.add(value), found.add(value));
            }
            same("size", expected.size(), found.size());
            same("isEmpty", expected.isEmpty(), found.isEmpty());
        }
        List<Integer> walked = new ArrayList<Integer>();
        for (PIterator<Integer> walk = found.iterator(); walk.hasNext();) {
            walked.add(walk.next());
        }
        same("walk", expected, walked);
        if (!expected.isEmpty() && expected.size() < 1000) {
            same("addAll of itself", expected.addAll(new ArrayList<Integer>(expected)), found.addAll(found));
            same("size after addAll of itself", expected.size(), found.size());
            same("last", expected.get(expected.size() - 1), found.get(found.size() - 1));
        }
    }

    // A key of few hash codes, all of which agree in their low bits.
    private static final class Key {
        private final int number;

        private Key(int number) {
            this.number = number;
        }

        public boolean equals(Object other) {
            return other instanceof Key && ((Key) other).number == number;
        }

        public int hashCode() {
            return (number % 7) << 20;
        }

        public String toString() {
            return "k" + number;
        }
    }

    private static Object key(Random random, int kind) {
        int number = random.nextInt(60) - 30;
        if (random.nextInt(25) == 0) {
            return null;
        }
        return kind == 0 ? Integer.valueOf(number) : kind == 1 ? "s" + number : new Key(number);
    }

    private static List<Object> walked(PSet<Object> set) {
        List<Object> all = new ArrayList<Object>();
        for (PIterator<Object> walk = set.iterator(); walk.hasNext();) {
            all.add(walk.next());
        }
        return all;
    }

    private static void maps(int seed, int kind) {
        Random random = new Random(seed);
        Map<Object, Object> expected = new LinkedHashMap<Object, Object>();
        PMap<Object, Object> found = new PHashMap<Object, Object>();
        for (int i = 0; i < 500; i++) {
            Object key = key(random, kind);
            Object value = random.nextInt(9) == 0 ? null : Integer.valueOf(random.nextInt(9));
            switch (random.nextInt(8)) {
                case 0: same("get", expected.get(key), found.get(key)); break;
                case 1: same("containsKey", expected.containsKey(key), found.containsKey(key)); break;
                case 2:
                case 3: same("remove", expected.remove(key), found.remove(key)); break;
                case 4: if (random.nextInt(25) == 0) { expected.clear(); found.clear(); } break;
                default: same("put", expected.put(key, value), found.put(key, value));
            }
            same("size", expected.size(), found.size());
            same("isEmpty", expected.isEmpty(), found.isEmpty());
        }
        PSet<Object> keys = found.keySet();
        PSet<PMap.Entry<Object, Object>> entries = found.entrySet();
        same("keySet", new ArrayList<Object>(expected.keySet()), walked(keys));
        same("entrySet size", expected.size(), entries.size());
        List<Object> pairs = new ArrayList<Object>();
        for (PIterator<PMap.Entry<Object, Object>> walk = entries.iterator(); walk.hasNext();) {
            PMap.Entry<Object, Object> entry = walk.next();
            pairs.add(entry.getKey() + "=" + entry.getValue());
            same("entry is contained", true, entries.contains(entry));
        }
        List<Object> wanted = new ArrayList<Object>();
        for (Map.Entry<Object, Object> entry : expected.entrySet()) {
            wanted.add(entry.getKey() + "=" + entry.getValue());
        }
        same("entrySet", wanted, pairs);
        int size = expected.size();
        found.put("a new key", "and value");
        same("keySet is a copy", size, keys.size());
        same("entrySet is a copy", size, entries.size());
    }

    private static void sets(int seed, int kind) {
        Random random = new Random(seed);
        Set<Object> expected = new LinkedHashSet<Object>();
        PSet<Object> found = new PHashSet<Object>();
        for (int i = 0; i < 500; i++) {
            Object key = key(random, kind);
            switch (random.nextInt(6)) {
                case 0: same("contains", expected.contains(key), found.contains(key)); break;
                case 1:
                case 2: same("remove", expected.remove(key), found.remove(key)); break;
                case 3:
                    PList<Object> more = new PArrayList<Object>();
                    List<Object> others = new ArrayList<Object>();
                    for (int k = random.nextInt(4); k > 0; k--) {
                        Object other = key(random, kind);
                        more.add(other);
                        others.add(other);
                    }
                    same("addAll", expected.addAll(others), found.addAll(more));
                    break;
                default: same("add", expected.add(key), found.add(key));
            }
            same("size", expected.size(), found.size());
        }
        same("walk", new ArrayList<Object>(expected), walked(found));
        same("addAll of itself", false, found.addAll(found));
        found.clear();
        same("cleared", true, found.isEmpty());
        same("nothing to walk", new ArrayList<Object>(), walked(found));
    }

    private static void iterators() {
        PArrayList<Integer> list = new PArrayList<Integer>();
        list.add(1);
        PHashMap<Integer, Integer> map = new PHashMap<Integer, Integer>();
        map.put(1, 2);
        PHashSet<Integer> set = new PHashSet<Integer>();
        set.add(1);
        PIterator<?>[] all = {list.iterator(), map.keySet().iterator(), map.entrySet().iterator(), set.iterator()};
        for (PIterator<?> walk : all) {
            same("hasNext", true, walk.hasNext());
            walk.next();
            same("hasNext at the end", false, walk.hasNext());
            same("next at the end", "throws NoSuchElementException", outcome(() -> walk.next()));
            same("remove of an iterator", "throws UnsupportedOperationException", outcome(() -> {
                walk.remove();
                return null;
            }));
        }
        same("message of get", "Index: 1, Size: 1", message(() -> list.get(1)));
        same("a negative index", "throws ArrayIndexOutOfBoundsException", outcome(() -> list.get(-1)));
    }

    private static final String[] PACKAGES = {"java.lang.", "java.io.", "java.util."};

    private static Class<?> real(String name) throws ClassNotFoundException {
        for (String prefix : PACKAGES) {
            try {
                return Class.forName(prefix + name);
            } catch (ClassNotFoundException e) {
                continue;
            }
        }
        throw new ClassNotFoundException(name);
    }

    // Each member is public or private, each exception has Java's superclass and the two constructors.
    private static void members(String[] names) throws Exception {
        for (String name : names) {
            Class<?> found = Class.forName("prelude.P" + name);
            open(found);
            for (Class<?> inner : found.getDeclaredClasses()) {
                open(inner);
            }
            Class<?> real = real(name);
            same(name + " is an interface", real.isInterface(), found.isInterface());
            if (PThrowable.class.isAssignableFrom(found)) {
                if (found != PThrowable.class) {
                    same("superclass of " + name, "P" + real.getSuperclass().getSimpleName(), found.getSuperclass().getSimpleName());
                }
                Object empty = found.getConstructor().newInstance();
                Object told = found.getConstructor(PString.class).newInstance(pstring("told"));
                same("no message of " + name, null, string(((PThrowable) empty).p_getMessage()));
                same("message of " + name, "told", string(((PThrowable) told).p_getMessage()));
                same("toString of " + name, "prelude.P" + name, string(((PThrowable) empty).p_toString()));
                same("toString told of " + name, "prelude.P" + name + ": told", string(((PThrowable) told).p_toString()));
            }
        }
    }

    private static void open(Class<?> type) {
        for (Method method : type.getDeclaredMethods()) {
            if (!method.isSynthetic()) {
                same("openness of " + method, true, isOpen(method.getModifiers()));
            }
        }
        for (Field field : type.getDeclaredFields()) {
            same("openness of " + field, true, field.isSynthetic() || isOpen(field.getModifiers()));
        }
        for (Constructor<?> constructor : type.getDeclaredConstructors()) {
            same("openness of " + constructor, true, constructor.isSynthetic() || isOpen(constructor.getModifiers()));
        }
    }

    private static boolean isOpen(int modifiers) {
        return Modifier.isPublic(modifiers) || Modifier.isPrivate(modifiers);
    }

    // Ten times the elements take less than forty times the time.
    private static void costs() {
        for (int n : new int[] {2000, 20000}) {
            PArrayList<Integer> list = new PArrayList<Integer>();
            PHashMap<Integer, Integer> map = new PHashMap<Integer, Integer>();
            PStringBuilder builder = new PStringBuilder();
            for (int i = 0; i < n; i++) {
                list.add(i);
                map.put(i * 31, i);
                builder.append(pstring("word "));
            }
            long sum = 0;
            for (int i = 0; i < n; i++) {
                sum += list.get(i) + map.get(i * 31);
            }
            same("sum", (long) n * (n - 1), sum);
            same("built", 5 * n, builder.length());
        }
    }

    public static void main(String[] names) throws Exception {
        strings();
        boxes();
        numerals();
        builders();
        streams();
        objects();
        for (int seed = 0; seed < 20; seed++) {
            lists(seed);
            for (int kind = 0; kind < 3; kind++) {
                maps(seed, kind);
                sets(seed, kind);
            }
        }
        iterators();
        members(names);
        costs();
        System.out.println("prelude: " + comparisons + " comparisons, " + differences + " differences");
        if (differences > 0 || comparisons < 300) {
            System.exit(1);
        }
    }
}
