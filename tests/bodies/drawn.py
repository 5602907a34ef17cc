"""Small programs, drawn by lot, each with a few pieces on the types of expressions and statements; half of them with one piece that is meant to be refused.

A piece is statements of a method, a line each, or a class of its own. Holes in pieces: `{{TYPE}}` is a parameter of that type, or of one of a sort of types (`SORTS`);
`{WORDS|WORDS|..}` is one of these, where no space stands on both sides of the bar, and `¦` is a bar of the program's own; `#n` is a name of the piece's own; behind
`;` or `}` a bar with spaces round it ends a line. The classes that a piece names stand in `HELPERS`.

What a program is meant to be says nothing: `javac` judges it.
"""
import re

HELPERS = {
    "I": "interface I { int K = 3; }",
    "J": "interface J { int K = 4; int N = 1; }",
    "B": "class B implements I { int f; static int g; private int p; B() { } B(int a) { f = a; } int k(int x) { return x; } static String s(String x) { return x; } private void q() { } private static int z() { return 1; } }",
    "D": "class D extends B { String f; D() { super(1); } long k(long x) { return x; } }",
    "F": "final class F { int f; }",
    "G": "class G<X> { X v; X[] a; static String s; G() { } G(X x) { v = x; } X get() { return v; } void set(X x) { v = x; } <Y> Y pick(X x, Y y) { return y; } static <Y> G<Y> of(Y y) { return new G<>(y); } }",
    "H": "class H<X extends Number> extends G<X> { H() { } H(X x) { super(x); } Number num() { return get(); } }",
    "R": "class R extends G { }",
    "IJ": "class IJ implements I, J { }",
    "Abs": "abstract class Abs { abstract int go(); int went() { return 1; } }",
    "O": "class O { static int m(int a) { return 1; } static long m(long a) { return 1; } static Integer m(Integer a) { return 1; } static Object m(Object a) { return a; } static String m(int... a) { return null; }"
         " static int two(Integer a, Object b) { return 1; } static int two(Object a, Integer b) { return 1; } static int va(String s, Object... o) { return 1; } static int st(String s) { return 1; } static int st(Integer s) { return 1; } }",
    "E1": "class E1 extends RuntimeException { int c; }",
    "E2": "class E2 extends E1 { }",
    "E3": "class E3 extends RuntimeException { }",
    "P": "class P { private static class Q { int f; public int go() { return 1; } static int g; } static Q q = new Q(); private P() { } static class S { static int s = 1; int t; } }",
    "W": "class W { static <T> T id(T t) { return t; } static <T> T make() { return null; } static <T> T first(List<T> l) { return l.get(0); } static <T> void two(List<T> a, List<T> b) { } static <T extends Comparable<T>> T max(T a, T b) { return a; }"
         " static <T> T[] all(T... t) { return t; } static <T extends Number> T num(T t) { return t; } static <K, V> Map<K, V> map(K k, V v) { return null; } static <T> T pick(T a, T b) { return a; } static <T> List<T> list(T t) { return null; } static void none() { } }",
}

WHOLE = ["byte", "short", "char", "int", "Byte", "Short", "Character", "Integer"]
NUM = WHOLE + ["long", "Long"]
REFERENCES = ["String", "Object", "Number", "B", "D", "I", "F", "int[]", "String[]", "Integer[]", "List<Integer>", "List<String>", "List<?>", "List<? extends Number>", "List<? super Integer>", "List", "Comparable<Integer>",
              "Comparable<String>", "Comparable<?>", "T", "U", "V", "ArrayList<String>", "Map<String, Integer>", "G<?>", "G<String>", "H<Integer>"]
SORTS = {
    "whole": WHOLE,
    "num": NUM,
    "bool": ["boolean", "Boolean"],
    "prim": ["byte", "short", "char", "int", "long", "boolean"],
    "box": ["Byte", "Short", "Character", "Integer", "Long", "Boolean"],
    "ref": REFERENCES,
    "any": NUM + ["boolean", "Boolean"] * 2 + REFERENCES,
    "plain": NUM + ["boolean", "Boolean", "String", "Object", "U", "V", "Number"],
}

# statements that are meant to be taken
GOOD = """
Object #a = {{num}} {+|-|*|/|%} {{num}};
Object #a = {{num}} {+|-} {{num}} {*|/|%} {{num}};
boolean #a = {{num}} {<|>|<=|>=|==|!=} {{num}} {&|^|&&} {{num}} {<|==} {1|'c'|2L|-1};
Object #a = {{num}} {<<|>>|>>>} {{num}};
Object #a = {{num}} {&|^} {{num}};
boolean #a = {{bool}} {&|^|&&} {{bool}} {¦|==} {{bool}} {¦¦ false|!= true};
boolean #a = {!|!!}{{bool}} == {{bool}};
Object #a = {-|+|~|- -|-~}{{num}};
String #a = {{any}} + "x" + {{any}} + {null|1|'c'|true} + {{any}};
String #a = {1|'c'|null} + {{String}}; | #a += {{any}}; | #a += {null|'c'|1L};
{{whole}}++; | {++|--}{{num}};
{{prim:byte,short,char,int,long}} {+|-|*|/|<<|>>>|&}= {{num}};
{{Integer}} {+|-|*|^|<<}= {{prim:byte,short,char,int}};
{{Long}} {+|-|*|^}= {{num}};
{{bool}} {&|^}= {{bool}};
{{Object}} += {{String}}; | {{Comparable<String>}} += "x";
boolean #a = {{ref}} {==|!=} null && {{Object}} == {{ref}};
boolean #a = {{I}} == {{B}} | {{D}} != {{B}} | {{List<?>}} == {{List<String>}} | {{Number}} == {{Integer}};
int #a = {{boolean}} ? {{whole:byte,short,char,int,Integer}} : {{whole:byte,short,char,int,Integer}};
long #a = {{bool}} ? {{num:int,Long,long,Byte}} : {{num}};
byte #a = {{boolean}} ? {{byte}} : {5|-128|{{Byte}}};
char #a = {{boolean}} ? {{char}} : {65|'x'|{{Character}}};
short #a = {{boolean}} ? {{short}} : {{{byte}}|{{Byte}}|300};
Integer #a = {{boolean}} ? null : {{{int}}|{{Integer}}|5};
Object #a = {{boolean}} ? {{any}} : {{any}};
Number #a = {{boolean}} ? {{Integer}} : {{{Number}}|{{U}}|{{V}}};
List<? extends Number> #a = {{boolean}} ? {{List<Integer>}} : {{List<? extends Number>}};
Comparable<?> #a = {{boolean}} ? {{Integer}} : {{String}};
{{boolean}} = {{Object}} instanceof {String|Integer|B|int[]|List|List<?>|I} && {{I}} instanceof {D|B|I};
byte #a = {127|'a'|(byte) 300|1 << 3|-5|true ? 1 : 300}; | #a = {5|'b'|3 - 4};
Byte #a = {127|'a'}; | Character #b = {97|'a' + 1}; | Short #c = {(byte) 1|'x'|7};
final int #a = {5|'c'|1 + 2}; | byte #b = #a; | char #c = #a + 1;
Object #a = ({int|long|byte|char|short}) {{num:byte,short,char,int,long}};
int #a = (int) {{{Object}}|{{Number}}|{{U}}|{{V}}|{{Integer}}|{{Comparable<Integer>}}};
Object #a = ({String|Integer|B|List<?>|int[]|List|I}) {{Object}};
B #a = (B) {{{I}}|{{D}}|{{Object}}}; | I #b = (I) {{{B}}|{{Object}}};
List<String> #a = (List<String>) {{{List<?>}}|{{Object}}|{{List}}};
T #a = (T) {{Object}}; | U #b = (U) {{Number}};
Object #a = (Number) {{{int}}|5|{{Integer}}}; | Comparable<Integer> #b = (Comparable<Integer>) {{int}};
int #a = {{int[]}}[{{whole}}] + {{int[]}}.length; | {{int[]}}[{0|'a'|{{Byte}}}] {=|+=} {5|'c'|{{int}}};
int[] #a = {1, 'c', {{byte}}}, #b[] = {{}, #a, null}; | #b[0][#a[1]] = #b.length;
Object #a = new {int|byte|String|List<?>|B}[{{whole}}][{1|'a'}][];
String[] #a = {"x", {{String}}, null}; | Object[] #b = #a; | #a = new String[] {"a" + 1};
byte[] #a = {1, 'a', -128}; | char[] #b = new char[] {65, {{char}}}; | #a[0] += 5L;
for (int #a : {{{int[]}}|{{List<Integer>}}|{{Integer[]}}}) {{int}} += #a;
for ({Object|Number|Comparable<Integer>|int|long} #a : {{{List<Integer>}}|{{Integer[]}}}) { }
for (Number #a : {{List<? extends Number>}}) { } | for (Object #b : {{{List<?>}}|{{List}}|{{List<? super Integer>}}|{{String[]}}}) { }
for (Map.Entry<String, Integer> #a : {{Map<String, Integer>}}.entrySet()) {{int}} += #a.getValue();
switch ({{whole:byte,short,int,Byte,Short,Integer}}) { case 1: case 2 + 3: break; default: case -1: int #a = 1; }
switch ({{whole:char,Character}}) { case 'a': case 98: break; case (char) 99: { } }
#l: for (;;) { if ({{boolean}}) continue #l; break #l; }
#l: { if ({{boolean}}) break #l; {{int}}++; }
for (int #a = 0, #b = 1; #a < #b; #a++, --#b) { if (#a > 2) break; int #c = #a; }
try { {{int}}++; } catch ({ArithmeticException|NullPointerException | E1|E2 | E3} #e) { String #a = #e.getMessage(); throw #e; } finally { }
try { {{int}}++; } catch (E2 #e) { {{int}} = #e.c; } catch (E1 #e) { #e.c++; throw #e; }
if ({{bool}}) throw {{{boolean}} ? new E1() : new E2()|new E3()|null|W.pick(new E1(), new E3())};
int #a = {{B}}.f + {{B}}.k({{byte}}) + B.g + {{B}}.g + I.K + {{B}}.K; | String #b = B.s({{String}}) + {{D}}.f.length();
long #a = {{D}}.k({{{int}}|{{long}}}) + ((B) {{D}}).f + {{D}}.g;
String #a = {{G<String>}}.v + {{G<String>}}.get().length() + {{G<String>}}.pick("x", {{{int}}|'c'}) + G.s + G.of("y").v.length();
{{G<String>}}.v = {"x"|null|{{String}}}; | {{G<String>}}.set({{String}}); | {{G<String>}}.a[0] = {{G<String>}}.get();
Object #a = {{G<?>}}.v; | {{G<?>}}.set(null); | G<?> #b = G.of({{{G<?>}}.get()|{{any:Integer,String,T,Long}}});
int #a = {{H<Integer>}}.get() + {{H<Integer>}}.v; | Number #b = {{H<Integer>}}.num();
Object #a = new R().get(); | new R().set({{ref}}); | String #b = new R().s;
G<String> #a = new G<>({"x"|{{String}}|}); | G<Integer> #b = new G<Integer>({5|null|}); | H<? extends Number> #c = new H<>({{Integer}});
G #a = new G({{ref}}); | G<?> #b = #a; | G<Long> #c = #a;
List<Map<String, ? super Integer>> #a = new ArrayList<>(); | Map<String, List<T>> #b = (new HashMap<>());
Object #a = new {B()|B({{byte}})|D()|Object()|G<List<?>>()|IJ()};
Integer #a = W.id({{Integer}}) + W.id({{int}}); | String #b = W.make(); | int #c = W.make(); | String #d = (W.make());
Integer #a = W.first({{List<Integer>}}); | Number #b = W.first({{List<? extends Number>}}); | Object #c = W.first({{{List<?>}}|{{List}}});
W.two({{List<Integer>}}, {{List<Integer>}}); | Integer #a = W.max({{Integer}}, 5); | String #b = W.max({{String}}, "a");
Number[] #a = W.all({{Integer}}, {{Long}}); | Object[] #b = W.all(); | String[] #c = W.all("x"); | Integer[] #d = W.<Integer>all(1, 2);
U #a = W.num({{U}}); | int #b = W.num({{Byte}}); | Map<String, Integer> #c = W.map("x", 1);
Number #a = W.pick({{Integer}}, {{Long}}); | Comparable<?> #b = W.pick({{Integer}}, {{String}}); | List<?> #c = W.list({{any:int,String,T,Object}});
Object #a = O.m({{{byte}}|{{char}}|{{long}}|{{Integer}}|{{String}}|{{boolean}}}); | String #b = O.m({1, 2|});
int #a = O.m({{whole:byte,short,int,char}}); | long #b = O.m({{long}}); | Integer #c = O.m({{Integer}}); | Object #d = O.m({{{Byte}}|{{Long}}|{{Object}}});
int #a = O.va({{String}}) + O.va("x", {{any}}) + O.va(null, {{Integer[]}}) + O.va("a", 1, 'c', null);
{{List<Integer>}}.add({5|{{int}}|{{V}}|null}); | int #a = {{List<Integer>}}.get({{whole:int,byte,char}}) {+|*} 2; | {{List<? super Integer>}}.add({{int}});
int #a = {{String}}.length() + {{Integer}}.intValue() + {{U}}.intValue() + {{V}} + {{V}}.hashCode() + {{T}}.hashCode();
int #a = Math.max({{whole:byte,short,int,char}}, {{int}}) + java.lang.Math.abs({{int}}) + Integer.MAX_VALUE; | long #b = java.lang.Math.max({{long}}, {{int}});
int #a = P.S.s + new P.S().t; | Object #b = P.q;
int B = {{int}}; | B += 1; | int #a = B;
String #a = {{String}}; | { int #b = 1; } | { String #b = #a; } | long #b = #a.length();
boolean #a = W.id({{boolean}}) && W.id({{Boolean}}); | if (W.id({{boolean}})) { } | while (!W.id({{Boolean}})) break;
this.n += {{whole:byte,int,char}}; | n = A.sn++ + this.sn; | (n) = (sn);
Object #a = (({{ref}})); | ({{int}}) += ((3)); | (({{int[]}}))[(0)]++;
int #a = ({{boolean}} ? {{String}} : {{{Integer}}|{{B}}}).hashCode(); | int #b = ({{boolean}} ? {{int[]}} : null).length;
StringBuilder #a = new StringBuilder().append({{{int}}|{{char}}|{{String}}|{{long}}|{{boolean}}|{{ref}}}).append('x'); | System.out.println({{any}});
long #a = {{int}} = {{short}} = {{byte}}; | #a = {{int}} += {{long}}; | {{Object}} = {{Number}} = {{Integer}};
"""

# statements that are meant to be refused, with what stands before them
BAD = """
Object #a = {{num}} {+|-|*|/|%|<<|&|^} {{{boolean}}|{{Boolean}}|null|{{Object}}|{{Number}}|{{int[]}}};
Object #a = {{{boolean}}|{{T}}|{{U}}|null|{{B}}} {+|-|*|>>|&} {{num}};
Object #a = {null|{{Object}}|{{T}}|'c'|{{boolean}}} + {null|{{Object}}|{{int[]}}|{{Boolean}}};
boolean #a = {{{boolean}}|{{String}}|{{Object}}|{{Boolean}}|null} {<|>=} {{num}};
boolean #a = {{{Object}}|{{Number}}|{{T}}|{{U}}|{{String}}|{{Boolean}}|{{boolean}}} {==|!=} {{prim:byte,short,char,int,long}};
boolean #a = {{{Integer}} == {{Long}}|{{Byte}} == {{Short}}|{{Character}} != {{Integer}}|{{Boolean}} == {{Integer}}|{{String}} == {{Integer}}};
boolean #a = {{{F}} == {{I}}|{{String}} != {{I}}|{{B}} == {{F}}|{{List<String>}} == {{List<Integer>}}|{{int[]}} == {{String[]}}|{{int[]}} != {{I}}|{{G<String>}} == {{H<Integer>}}|{{U}} == {{String}}};
boolean #a = {{{int}} && {{bool}}|{{bool}} || {{Object}}|{{num}} & {{bool}}|{{boolean}} ^ {{num}}|!{{num}}|!{{Object}}};
Object #a = {-|+|~}{{{boolean}}|{{String}}|{{Boolean}}|{{U}}|{{Object}}|null};
Object #a = ~{{{boolean}}|{{Boolean}}}; | boolean #b = !{{num}};
{{String}}{++|--}; | {{boolean}}++;
{++|--}{{{Number}}|{{Object}}|{{boolean}}|{{String}}|{{U}}|{{Comparable<Integer>}}};
{{{Byte}}|{{Short}}|{{Character}}} {+|-|<<|&}= {{num}};
{{Integer}} {+|*|^}= {{num:long,Long}};
{{{int}}|{{char}}|{{Integer}}|{{boolean}}|{{int[]}}|{{List<String>}}|{{V}}} += {{String}};
{{String}} {-|*|&|<<}= {{any}};
{{num}} {+|&}= {{bool}}; | {{boolean}} {&|^}= {{int}};
{{{Object}}|{{Number}}|{{U}}|{{V}}} {+|-}= {{num}};
{{boolean}} = {{{int}}|{{Byte}}|{{boolean}}} instanceof {Integer|Object};
{{boolean}} = {{{Integer}} instanceof String|{{String}} instanceof I|{{F}} instanceof B|{{int[]}} instanceof I|{{List<String>}} instanceof Integer};
{{boolean}} = {{{Object}} instanceof List<String>|{{Object}} instanceof T|{{Object}} instanceof List<?>[] && {{Object}} instanceof T[]};
{byte|char|short} #a = {{{int}}|{{long}}|128000|-70000|1L|{{Integer}}|'a' + {{int}}};
byte #a = {{{short}}|{{char}}|128|200 - 1|{{boolean}} ? 1 : 2|true ? 1 : {{int}}|(short) 1 + {{byte}}};
char #a = {{{byte}}|{{short}}|-1|65536|{{int}}|(byte) -1|{{Byte}}|{{boolean}} ? {{char}} : -1|{{boolean}} ? {{char}} : {{int}}};
Long #a = {{{int}}|5|{{Integer}}|'c'|{{byte}}};
Integer #a = {'a'|(byte) 1|{{byte}}|{{char}}|5L|{{Short}}|{{Number}}|{{U}}};
Byte #a = {128|{{int}}|5L|{{short}}|{{Short}}}; | Character #b = {-1|{{short}}|{{int}}};
int #a = {{{long}}|{{Long}}|5L|{{boolean}}|{{String}}|null|{{Object}}|{{U}}|{{Number}}|{{int[]}}};
String #a = {{{Object}}|'c'|5|{{StringBuilder}}|{{Comparable<String>}}|{{T}}|true|{{boolean}} ? "a" : 1|{{boolean}} ? null : {{Object}}};
boolean #a = {0|{{int}}|null|{{Object}}|"true"|{{T}}};
List<{Number|Object|?|? extends Number|? super Number}> #a = {{{List<String>}}|{{Object}}}; | List<Number> #b = {{List<Integer>}};
List<Integer> #a = {{{List<?>}}|{{List<? extends Number>}}|{{List<? super Integer>}}|{{ArrayList<String>}}|{{boolean}} ? {{List<Integer>}} : {{List<?>}}};
List<String> #a = {{{boolean}} ? {{List<String>}} : new ArrayList<>()|W.list(5)|new ArrayList<Object>()|W.id(new ArrayList<>())|W.list(null)};
final int #a = {{int}}; | {byte|char|short} #b = #a;
final long #a = 5; | {byte|int|Integer} #b = #a;
Object #a = (int) {{{boolean}}|{{String}}|{{Long}}|{{B}}|null|new Object[1]};
Object #a = ({byte|short|char}) {{{Integer}}|{{Long}}|{{boolean}}|{{String}}};
Object #a = ({Byte|Long|Character|Boolean|String}) {{prim:int,short}};
Object #a = {(Long) {{Integer}}|(Integer) {{String}}|(B) {{F}}|(F) {{I}}|(I) {{F}}|(String) {{I}}|(D) {{String}}|(int[]) {{String[]}}|(Integer[]) {{String[]}}|(I) {{int[]}}|(int[]) {{I}}|(Boolean) {{Number}}};
Object #a = {(List<Integer>) {{List<String>}}|(List<String>) {{List<? extends Number>}}|(ArrayList<String>) {{List<Integer>}}|(H<Integer>) {{G<String>}}|(Comparable<Integer>) {{String}}|(Comparable<String>) {{Integer}}|(T) {{int}}|(U) {{String}}|(String) {{U}}};
Object #a = {{{int}}[0]|{{Object}}[1]|{{List<Integer>}}[0]|{{String}}[0]|{{int[]}}[0][0]|{{T}}[0]};
Object #a = {{int[]}}[{{{long}}|{{boolean}}|{{String}}|{{Long}}|null|{{Object}}|{{U}}}];
Object #a = new int[{{{long}}|{{boolean}}|"a"|null|{{Object}}}]; | Object #b = new String[1][{{long}}];
Object #a = new {T|U|List<String>|G<? extends Number>|Map<?, T>}[{{int}}]; | List<String>[] #b = {{}};
int[] #a = {1, {{{long}}|"x"|null|{{{int}}}|{}|{{int[]}}}}; | byte[] #b = {128};
int #a = {{{int}}}; | String #b = {};
{byte[] #a = {{int[]}}|long[] #a = {{int[]}}|Object[] #a = {{int[]}}|Integer[] #a = {{int[]}}|String[] #a = new Object[1]|int[] #a = new int[1][1]};
{{int[]}}.length {=|+=} 5; | {{int[]}}.size = 1;
{5|{{int}} + 1|{{B}}.k(1)|-{{int}}|this|new B()|({{boolean}} ? {{int}} : {{int}})|"x"} {=|+=} {1|{{int}}|null};
{{{int}}++++|++{{int}}--|++5|--{{B}}.k(2)|++(-{{int}})};
for ({String|byte|Long|int} #a : {{{List<Long>}}|{{List<?>}}|{{List}}|{{Object[]}}|{{long[]}}}) { }
for (Integer #a : {{{List<? super Integer>}}|{{List<? extends Number>}}|{{List}}|{{long[]}}}) { }
for (Object #a : {{{Object}}|{{int}}|{{String}}|{{Map<String, Integer>}}|{{T}}|{{B}}|null}) { }
for (int[] #a : {#a|{{int[]}}|{{List<?>}}}) { }
if ({{{int}}|{{Object}}|null|"x"|{{T}}|{{int}} = 1|W.none()}) { }
while ({{{Integer}}|{{String}}|{{boolean}} ? 1 : 2}) { break; }
do { } while ({1|{{Object}}|{{boolean}} ? {{Boolean}} : {{Object}}}); | for (; {{int}}; ) { }
int #a = {{{int}}|{{String}}|null} ? 1 : 2;
switch ({{{long}}|{{boolean}}|{{Object}}|{{Long}}|{{Number}}|{{T}}|{{B}}|null}) { default: }
switch ({{byte}}) { case 1: case {128|-129|1000|'\\u0100'|5L}: }
switch ({{char}}) { case 'a': case {-1|65536|"b"|true|null|97L}: }
switch ({{int}}) { case 1: case {{{int}}|n|1L|"x"|I.K / 0|new Integer(5)|W.id(5)|{{Integer}}|null|A.sn}: }
switch ({{int}}) { case 97: case {'a'|90 + 7|0x61|(byte) 97}: default: }
switch ({{Integer}}) { case {'a'|(byte) 1|null|5L|{{V}}}: }
switch ({{int}}) { default: case 1: default: }
{break|continue|break #x|continue #x};
#l: { {continue #l|continue|break #m}; }
#l: for (;;) { if ({{boolean}}) {continue #m|break #n}; break; }
#l: while ({{boolean}}) { #l: for (;;) { break #l; } }
switch ({{int}}) { case 1: {continue|break #m}; }
int #a = 1; | {int #a = 2;|{ long #a = 2; }|for (int #a = 0; ; ) { }|for (int #a : {{int[]}}) { }|try { } catch (E1 #a) { }|switch ({{int}}) { case 1: int #a = 1; }}
{int #a = 1, #b = 2, #a = 3;|for (int #a = 0, #a = 1; ; ) { }|switch ({{int}}) { case 1: int #a = 1; case 2: int #a = 2; }|for (int #a = 0; ; ) { int #a = 1; }|try { } catch (E1 #a) { int #a = 1; }}
return {{{int}}|null|"x"|{{T}}};
throw {{{Object}}|"x"|1|{{B}}|{{T}}|new Object()|{{boolean}} ? new E1() : "x"};
try { {{int}}++; } catch ({String|Object|B|E1 | E2|E2 | E1|E3 | E3|E1 | String|RuntimeException | E3} #e) { }
try { {{int}}++; } catch (E1 | E3 #e) { {E1 #a = #e|#e.c = 1|String #a = #e|#e.none()}; }
int #a = {nothing|#a2|{{int}} + nope|nothing.f|nothing.f()|nothing.more.f|no.where.f()|lang.Math.abs(1)};
{ int #a = 1; } | {#a = 2|int #b = #a};
int #a = {B|String|java.lang|Map.Entry|T|I};
Object #a = {{{B}}.nothing|{{B}}.nothing()|B.nothing|B.nothing()|{{int}}.f|{{int}}.f()|{{String}}.f|{{int[]}}.f|{{int[]}}.length()|{{T}}.f|{{T}}.f()|null.f|I.k|Integer.nothing.f|Map.Nothing.f|{{I}}.f};
{{{B}}.p = 1|{{B}}.q()|{{D}}.p = 1|{{D}}.q()|B.z()|new P()|P.q.f = 1|P.q.go()|P.Q.g = 1|int #a = P.q.f}; 
Object #a = {{{IJ}}.K|IJ.K|new IJ().K|IJ.K + 1};
Object #a = {B.f|B.k(1)|A.n|A.inst()|I.k()|P.S.t|D.f};
{{G<?>}}.v = {{{G<?>}}.v|1|{{Object}}}; | {{G<?>}}.set({{Object}});
{{{G<String>}}.v = 5|{{G<String>}}.set({{Object}})|{{H<Integer>}}.v = 5L|{{G<String>}}.a = new Object[1]|{{G<String>}}.a[0] = 'c'|int #a = {{G<String>}}.get()};
String #a = {new R().get()|new R().v|W.first({{List}})|new G("x").v|new G<>(5).v|{{G<?>}}.get()|G.of(5).v|W.id(5)|W.pick("x", 1)|{{G<String>}}.pick("x", 5)};
Object #a = {new Abs()|new I()|new T()|new List<String>()|new G<?>()|new G<? extends Number>()|new H<>("x")|new Comparable<>()|new B<>()|new Object<>()|new Number()|new Abs[{{long}}]};
Object #a = {new B("x")|new B(1, 2)|new B({{long}})|new D(1)|new G<String>(5)|new H<Integer>({{Long}})|new B(null)|new G<Long>({{int}})};
G<Number> #a = {new G<>(5)|new G<Integer>()|G.of(5)|W.make() == null ? null : new G<>(1)};
Object #a = {W.two({{List<Integer>}}, {{List<String>}})|W.max({{Object}}, {{Object}})|W.max(1, "x")|W.num("x")|W.num({{T}})|W.first({{int[]}})|W.first({{ArrayList<String>}}, 1)|W.<String>id(5)|W.<Integer, String>id(5)|W.<String>num(null)|W.max({{Number}}, {{Integer}})};
W.two({{{List<?>}}, {{List<?>}}|{{List<? extends Number>}}, {{List<Integer>}}|{{List<Integer>}}, {{List<Number>}}});
Object #a = {O.two(1, 2)|O.two({{Integer}}, {{Integer}})|O.st(null)|O.va(null, 1).f|O.st({{Object}})|O.st('c')|O.m()[0]|O.va(1)|O.va({{Object}}, 1)|O.two("x", "y")|O.m(null)};
Object #a = {W.none()|"x" + W.none()|W.id(W.none())|(W.none())|{{boolean}} ? W.none() : 1|-W.none()|W.none().f|W.none() == null|new Object[] {W.none()}};
{{List<Integer>}}.add({"x"|5L|'c'|{{Number}}|{{byte}}}); | {{List<? extends Number>}}.add({5|{{Number}}});
Object #a = {this.<int>id2(1)|this.<String>id2(1)|this.<String, Integer>id2(1)|W.<List<?>>id("x")};
int #a = {Math.max(1, "x")|Math.max({{boolean}}, 1)|Math.max(1L, 1)|Integer.parseInt(5)|"x".length(1)|{{String}}.charAt(1L)|Math.nothing(1)|new Math()|Integer.value};
{super.nothing()|super.nothing = 1|super.hashCode(1)|Object #a = super.n|this.nothing()|this.nothing++|inst("x", 1)|Object #b = inst("x").f};
long #a = {2147483648|0x1FFFFFFFF|-(2147483648)|9223372036854775808L|1 - 2147483648|0b111111111111111111111111111111111|040000000000};
"""

# whole classes: meant to be taken, and to be refused
GOOD_CLASSES = """
class #C { int a = 1; int b = a + this.c; { c = 2; (d) = 3; } int c = b, d = c; static int s = t(); static int t() { return u; } static int u = s; }
class #C { static final int K = {3|'c'|1 << 2}; final String S = "x" + K; byte b = K - 1; int m(int i) { switch (i) { case K: return 1; case #C.K + 1: return 2; } return b; } }
class #C { int f; #C(int a) { f = a; } #C() { this({1|'c'|g()|#C.g() + s}); } static int s; static int g() { return s; } #C(String t) { this(t.length() + new #C().f); } }
class #C extends {B|D|Object|G<String>|H<Integer>|E1|R|ArrayList<String>} { #C() { super(); } #C(int a) { } int h() { return super.hashCode() + hashCode() + this.hashCode(); } }
class #C extends B { #C(int a) { super({a|a + 1|B.g|s("x").length()}); f = a; g = f; } int m() { return super.k(f) + super.f + k({1|'c'}) + #C.g; } }
class #C extends Abs { int go() { return super.went() + went(); } static Abs make() { return new #C(); } }
class #C<X extends Comparable<X>> { X x; X m(X y) { return x.compareTo(y) > 0 ? x : y; } static <Y extends Comparable<Y>> #C<Y> of(Y y) { #C<Y> c = new #C<>(); c.x = y; return c; } int n() { return of(5).m(6) + #C.of("x").x.length(); } }
class #C { static class N { private int p; private static int q() { return 1; } int o() { return r() + s; } } private static int r() { return N.q() + new N().p; } private static int s = 2; }
class #C { int m() { return {1|'c'|(byte) 1}; } long n() { return m(); } Object o() { return m(); } Integer p() { return m(); } byte q() { return 5; } String r() { return W.make(); } <Y> Y s(Y y) { return y; } void t() { return; } List<String> u() { return new ArrayList<>(); } }
class #C<X extends B & J> { int m(X x) { return x.f + x.N + x.k(1) + x.hashCode(); } <Y extends X> int n(Y y) { I i = y; J j = y; return m2(y) + y.f; } static int m2(B b) { return b.f; } }
class #C<X extends List<? extends Number>> { Number m(X x) { for (Number n : x) return n; return x.get(0); } }
interface #I { int A = 1, B = A + 1; Object C = new int[] {A, B}; String D = "x" + A; } class #C implements #I { int m() { return A + #I.B + D.length(); } static int n() { return B; } }
class #C { static void m(Object o) { } static void m(String s) { } static void m(Integer... i) { } static void n() { m(null == null ? "x" : "y"); m(1); m(1, 2); m('c'); m(new Object()); m("x"); } }
class #C extends G<Integer> { int m() { return v + get() + super.v + this.get(); } void n() { set(5); v = 5; v++; v += 1; super.set(v); } }
class #C { { for (int i = 0; i < 3; i++) { if (i == 1) continue; break; } } static { int x = 1; x++; } #C() { return; } }
class #C { int f(int... a) { return a.length; } int g() { return f() + f(1) + f(1, 'c') + f(new int[] {1}) + f(null, null == null ? 1 : 2); } int f(Object a, Object b) { return 1; } }
"""

BAD_CLASSES = """
class #C { int a = {b|b + 1|a|a + 1|(b)|b++|b += 1}; int b = 1; }
class #C { { {a++|a += 1|int x = a|g(a)} ; } int a; void g(int x) { } static int s = {t|t + 1|s}; static int t = 1; }
class #C { int f; static int s = {f|this.f|m()|this.m()|super.hashCode()}; int m() { return 1; } }
class #C { int f; void i() { } static void m() { {f = 1|i()|this.f = 1|this.i()|super.hashCode()|int x = f + 1}; } }
class #C { int f; void i() { } static class N { int m() { {f = 1|i()|#C.f = 1|#C.i()}; return 1; } } }
class #C { int f; int i() { return f; } #C(int a) { } #C(Object o, int b) { } #C() { this({f|this.f|i()|this.i()|super.hashCode()|f = 1|new Object(), f}); } }
class #C { #C(int a) { this({'c'|a|"x"}); } #C(String s) { this({1|s.length()}); } }
class #C { #C() { this(1); } #C(int a) { this(1L); } #C(long a) { this({(int) a|'c'|}); } }
class #C extends {Q1|Abs2|Q3|Q1} { {|#C() { }|#C() { super(); }|#C(int a) { super("x", 1, a); }} } class Q1 { Q1(int a) { } } class Abs2 { private Abs2() { } } class Q3 { Q3(int... a) { } Q3(String... a) { } }
class #C extends Abs { int go() { return super.go(); } }
abstract class #C implements Comparable<String> { } class #CC extends #C { public int compareTo(String s) { return super.compareTo(s); } }
class #C { {int m() { return; }|void m() { return 1; }|#C() { return this; }|int m() { return "x"; }|char m(int a) { return a; }|int m() { return W.none(); }|byte m() { return 128; }|<Y> Y m(Object o) { return o; }|void m() { return m(); }|String m() { return new R().get(); }|List<String> m() { return W.list(1); }} }
class #C { {static|} { {return|break|continue|return 1}; } }
class #C<X extends B & J> { int m(X x) { return {x.K|x.nothing|x.p|x.q2()|x.k("x")}; } }
class #C<X> { {static X m(Object o) { return null; } static Object n() { return new X[1]; }|X m() { return new X(); }|Object m() { return new X[] {}; }|int m(X x) { return x.length(); }|boolean m(Object o) { return o instanceof X; }|X m() { return "x"; }|String m(X x) { return x; }|int m(X x) { return x + 1; }|X m(int i) { return i; }|X m(X x) { x += "a"; return x; }} }
class #C { private int f; private int g() { return 1; } static class N extends #C { int m() { return {f|this.f|super.g() + g()|new N().f|new N().g()}; } } }
class #C { private int f; private int g() { return 1; } static <Y extends #C> int m(Y y, G<? extends #C> z) { return {y.f|y.g()|z.v.f|z.get().g()}; } }
class #C { static void m(String s) { } static class N { void m(int i) { } void n() { m({"x"|1L|null}); } } }
class #C { void m(Integer a, Object b) { } void m(Object a, Integer b) { } void n(int... a) { } void n(Integer... a) { } void o(String s) { } void o(StringBuilder s) { } void p() { {m(1, 1)|n(1)|n()|o(null)|m(null, null)}; } }
class #C extends G<Integer> { void n() { {set("x")|v = "x"|v = 5L|super.v = 'c'|String s = get()|set(5L)|v += 5L}; } }
class #C { static class K { static int z; static class L { static int y; } static String L2; static class L2 { static int y; } } int m(String K) { return {K.z|K.L.y|#C.K.L2.y|java.lang.Nothing.f|#C.K.L.x|#C.L.y}; } }
interface #I { int A = {B|A|this|B + 1|"x"|1L|hashCode()}; int B = 1; }
class #C { byte b = {128|200|K|K + 120|'\\u0100'}; static final int K = 128; final int L = 5; int m(int i) { switch (i) { case {this.L|L / 0|K: case 128|new #C().L|m(1)}: } return 1; } }
class #C<X extends Number> { X x; {int m() { return x; }|void m() { x = 1; }|void m() { x = x + 1; }|void m() { x++; }|void m(Integer i) { x = i; }|Integer m() { return x; }|int m() { return -x; }|void m(Number n) { x = n; }|boolean m() { return x == 1; }} }
"""


def pieces(text):
    return [line for line in text.strip("\n").split("\n") if line.strip()]


GOOD, BAD, GOOD_CLASSES, BAD_CLASSES = (pieces(text) for text in (GOOD, BAD, GOOD_CLASSES, BAD_CLASSES))

HOLE = re.compile(r"\{\{([^{}]+)\}\}")
LINE = re.compile(r"(?<=;) \| |(?<=\}) \| (?!\{\{)")
NAME = re.compile(r"#([A-Za-z]+)")
WORD = re.compile(r"\b[A-Z]\w*\b")
HEAD = "class A<T, U extends Number, V extends Integer> {"
FIELDS = ["    int n;", "    static int sn;", "    int inst() { return 1; }", "    <Z> Z id2(Z z) { return z; }"]
# how many pieces a program has at least and at most, and how often one of them is a class, or the one that is meant to be refused is
PIECES = (2, 5)
CLASSES = 0.2
BAD_CLASS = 0.3


def group_end(text, start):
    """Behind the brace that closes the one at a place."""
    depth = 0
    for at in range(start, len(text)):
        depth += {"{": 1, "}": -1}.get(text[at], 0)
        if depth == 0:
            return at + 1
    raise ValueError(text)


def is_bar(text, at):
    """Whether a bar stands between two choices."""
    before, behind = text[at - 1], text[at + 1]
    return text[at] == "|" and "|" not in (before, behind) and not (before == " " and behind == " ")


def alternatives(inside):
    """What bars outside of inner braces part."""
    inside = "{" + inside + "}"
    found, depth, last = [], 0, 1
    for at, sign in enumerate(inside[:-1]):
        depth += {"{": 1, "}": -1}.get(sign, 0)
        if depth == 1 and at > 0 and is_bar(inside, at):
            found.append(inside[last:at])
            last = at + 1
    return found + [inside[last:-1]]


class Drawing:
    """One program: its lines, and the piece that is meant to be refused, if there is one."""

    def __init__(self, lot, is_bad):
        self.lot = lot
        self.is_bad = is_bad
        self.meant = None
        self.number = 0
        self.params = {}
        self.lines = self.program()

    # pieces

    def chosen(self, text):
        """A piece with one of each choice, from the outermost inwards."""
        at = 0
        while at < len(text):
            if text[at] == "{" and not (HOLE.match(text, at) and not text.startswith("{{{", at)):
                end = group_end(text, at)
                parts = alternatives(text[at + 1:end - 1])
                if len(parts) > 1:
                    text = text[:at] + self.lot.choice(parts) + text[end:]
                    continue
            elif text[at] == "{":
                at = HOLE.match(text, at).end()
                continue
            at += 1
        return text

    def param(self, hole):
        """The parameter for a hole."""
        sort, _, listed = hole.partition(":")
        types = listed.split(",") if listed else SORTS.get(sort, [sort])
        wanted = self.lot.choice(types)
        if wanted in self.params and (len(self.params[wanted]) > 1 or self.lot.random() < 0.7):
            return self.lot.choice(self.params[wanted])
        name = "p%d" % sum(map(len, self.params.values()))
        self.params.setdefault(wanted, []).append(name)
        return name

    def filled(self, piece):
        """A piece as lines."""
        self.number += 1
        number = self.number
        text = self.chosen(piece)
        text = HOLE.sub(lambda hole: self.param(hole.group(1)), text)
        text = NAME.sub(lambda name: "%s%d" % (name.group(1), number), text)
        return [line.replace("¦", "|") for line in LINE.split(text)]

    # programs

    def method(self, pieces):
        self.params = {}
        lines = [line for piece in pieces for line in self.filled(piece)]
        params = ", ".join("%s %s" % (kind, name) for kind, names in self.params.items() for name in names)
        self.number += 1
        return ["    void m%d(%s) {" % (self.number, params)] + ["        " + line for line in lines] + ["    }"]

    def outer_class(self, piece):
        return re.sub(r"([;{}]) (?=\S)", r"\1\n", self.filled(piece)[0]).split("\n")

    def program(self):
        lot = self.lot
        many = lot.randint(*PIECES)
        bad_class = self.is_bad and lot.random() < BAD_CLASS
        classes = [lot.choice(GOOD_CLASSES) for _ in range(many) if lot.random() < CLASSES]
        pieces = [lot.choice(GOOD) for _ in range(many)]
        if bad_class:
            self.meant = lot.choice(BAD_CLASSES)
            classes.insert(lot.randint(0, len(classes)), self.meant)
        elif self.is_bad:
            self.meant = lot.choice(BAD)
            pieces.insert(lot.randint(0, len(pieces)), self.meant)
        cut = lot.randint(0, len(pieces))
        body = [line for part in (pieces[:cut], pieces[cut:]) if part for line in self.method(part)]
        outer = [line for piece in classes for line in self.outer_class(piece)]
        lines = [HEAD] + FIELDS + body + ["}"] + outer
        return ["import java.util.*;"] + self.helpers(lines) + lines

    @staticmethod
    def helpers(lines):
        """The classes that are named, directly or not."""
        wanted, waiting = [], [" ".join(lines)]
        while waiting:
            for word in WORD.findall(waiting.pop()):
                if word in HELPERS and word not in wanted:
                    wanted.append(word)
                    waiting.append(HELPERS[word])
        return [HELPERS[word] for word in HELPERS if word in wanted]


def draw(lot, many):
    """So many programs, half of them with a piece that is meant to be refused."""
    return [Drawing(lot, at % 2 == 1) for at in range(many)]
