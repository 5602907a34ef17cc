class Object {
  Object() { }
  native int hashCode();
  native String className();
  String toString() { return className().concat("@").concat(String.valueOf(hashCode())); }
}
interface Comparable<Compared> { }
class String implements Comparable<String> {
  char[] chars;
  String(char[] cs) { chars = cs; }
  static String valueOf(boolean b) { if (b) { return "true"; } return "false"; }
  static String valueOf(char c) { char[] cs = new char[1]; cs[0] = c; return new String(cs); }
  static String valueOf(int n) { return valueOf((long) n); }
  static String valueOf(long n) {
    if (n == 0L) { return "0"; }
    char[] cs = new char[20];
    int at = 20;
    boolean below = n < 0L;
    while (n != 0L) {
      int d = (int) (n % 10L);
      if (d < 0) { d = -d; }
      at = at - 1;
      cs[at] = (char) (48 + d);
      n = n / 10L;
    }
    if (below) { at = at - 1; cs[at] = '-'; }
    char[] out = new char[20 - at];
    int i = 0;
    while (i < 20 - at) { out[i] = cs[at + i]; i = i + 1; }
    return new String(out);
  }
  static String valueOf(Object o) { if (o == null) { return "null"; } return o.toString(); }
  String toString() { return this; }
  int length() { return chars.length; }
  char charAt(int i) { return chars[i]; }
  String concat(String other) {
    char[] a = chars;
    char[] b = other.chars;
    char[] out = new char[a.length + b.length];
    int i = 0;
    while (i < a.length) { out[i] = a[i]; i = i + 1; }
    int j = 0;
    while (j < b.length) { out[i + j] = b[j]; j = j + 1; }
    return new String(out);
  }
}
class Throwable {
  String message;
  Throwable() { }
  Throwable(String m) { message = m; }
  native String thrownName();
  String getMessage() { return message; }
}
class Exception extends Throwable { Exception() { } Exception(String m) { super(m); } }
class Error extends Throwable { Error() { } Error(String m) { super(m); } }
class RuntimeException extends Exception { RuntimeException() { } RuntimeException(String m) { super(m); } }
class ArithmeticException extends RuntimeException { }
class ArrayStoreException extends RuntimeException { }
class ClassCastException extends RuntimeException { }
class NegativeArraySizeException extends RuntimeException { }
class NullPointerException extends RuntimeException { }
class IndexOutOfBoundsException extends RuntimeException { }
class ArrayIndexOutOfBoundsException extends IndexOutOfBoundsException { }
class LinkageError extends Error { }
class ExceptionInInitializerError extends LinkageError { }
class NoClassDefFoundError extends LinkageError { }
class Lib {
  static native void put(int b);
  static native int read();
  static native void exit(int code);
  static void print(String s) { int i = 0; while (i < s.chars.length) { put(s.chars[i]); i = i + 1; } }
  static void println(String s) { print(s); put(10); }
}
class Integer implements Comparable<Integer> {
  int value;
  Integer(int v) { value = v; }
  static Integer valueOf(int v) { return new Integer(v); }
  int intValue() { return value; }
  String toString() { return String.valueOf(value); }
}
class Long {
  long value;
  Long(long v) { value = v; }
  static Long valueOf(long v) { return new Long(v); }
  long longValue() { return value; }
  String toString() { return String.valueOf(value); }
}
class Boolean {
  boolean value;
  Boolean(boolean v) { value = v; }
  static Boolean valueOf(boolean v) { return new Boolean(v); }
  boolean booleanValue() { return value; }
  String toString() { return String.valueOf(value); }
}
class Character {
  char value;
  Character(char v) { value = v; }
  static Character valueOf(char v) { return new Character(v); }
  char charValue() { return value; }
  String toString() { return String.valueOf(value); }
}
