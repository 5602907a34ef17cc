# What javag writes with --out is read by javap and run by java, where they are there.
set -u
javag=$1
for tool in javap java; do
    command -v "$tool" >/dev/null || { echo "skipped: class files need $tool"; exit 0; }
done
work=$(mktemp -d) || exit 1
trap 'rm -rf "$work"' EXIT
cd "$work" || exit 1
cat > Main.java <<'JAVA'
class Main { public static void main(String[] args) {
    System.out.write(70 + 2); System.out.write(105); System.out.write(2147483647 + 1 + 32768 + 127); System.out.write(10);
} }
JAVA
"$javag" --out made Main.java || { echo "class files: javag failed"; exit 1; }
javap -v -p made/Main.class > listing 2>&1 || { echo "class files: javap failed"; cat listing; exit 1; }
grep -q 'major version: 51' listing || { echo "class files: not of major version 51"; exit 1; }
java -Xverify:all -cp made Main > shown 2> errors || { echo "class files: java failed"; cat errors; exit 1; }
"$javag" --run Main Main.java > told || { echo "class files: javag --run failed"; exit 1; }
# a real System.out.write keeps what isn't flushed, and the end of a line flushes: so the last byte is one
cmp -s shown told || { echo "class files: java and javag show different bytes"; exit 1; }
echo "class files: javap reads and java runs what javag writes"
