"""Class files that no compiler makes, and the endings that the machine's table gives them: where it allows nothing the run is stuck.

A valid case has output and ending of its own, by JVMS 5 and 6.5, and java has to give the same. Classes that are drawn by lot have those of java.
"""
from assemble import Assembly
from chance import drawn
from runs import MEMORY

OUT = "getstatic java/lang/System.out:Ljava/io/PrintStream;\n"
WRITE = "invokevirtual java/io/PrintStream.write:(I)V\n"
# Puts out the int on top of the stack as a character from '0' on, and a line end.
SHOW = "invokestatic Main.show:(I)V\n"
REFUSED = r".*: (Index|Opcode|Tag|Text) at \d+"


class Case:
    def __init__(self, name, classes, ending="stuck", output=b"", is_valid=False, has_prelude=True, memory=MEMORY):
        self.name, self.classes, self.ending, self.output = name, classes, ending, output
        self.is_valid, self.has_prelude, self.memory = is_valid, has_prelude, memory

    def files(self):
        return [(str(number) + "/" + one.name if self.is_doubled() else one.name, one.bytes()) for number, one in enumerate(self.classes)]

    def is_doubled(self):
        names = [one.name for one in self.classes]
        return len(set(names)) < len(names)

    def opcodes(self):
        return set().union(*(one.used for one in self.classes))


def main_class(code, **more):
    """The class Main, whose `show` puts out a number below ten."""
    one = Assembly("Main").constructor()
    one.method("show", "(I)V", f"{OUT}iload 0\nbipush 48\niadd\n{WRITE}{OUT}bipush 10\n{WRITE}return", stack=3, locals=1)
    return one.main(code, **more)


def stuck(name, code, *others, ending="stuck", **more):
    return Case(name, [main_class(code, **more), *others], ending)


def valid(name, code, shown, *others, ending="ended", **more):
    """A case whose output is that many numbers below ten, each on its line."""
    return Case(name, [main_class(code, **more), *others], ending, "".join(f"{n}\n" for n in shown).encode(), True)


def operands():
    """Operands of wrong types."""
    wrong = {
        "NullAndInt": "aconst_null\niconst_1\niadd", "LongAndInt": "lconst_1\niconst_1\niadd", "IntsAsLongs": "iconst_1\niconst_1\niconst_1\niconst_1\nladd",
        "NegatedNull": "aconst_null\nineg", "NegatedLong": "lconst_1\nineg", "NegatedInt": "iconst_1\nlneg", "ShiftByLong": "iconst_1\nlconst_1\nishl",
        "LongShiftByLong": "lconst_1\nlconst_1\nlshl", "CompareInts": "iconst_1\niconst_1\niconst_1\niconst_1\nlcmp", "NarrowInt": "iconst_1\nl2i", "WidenLong": "lconst_1\ni2l",
        "WidenNull": "aconst_null\ni2l", "ByteOfLong": "lconst_1\ni2b", "PopLong": "lconst_1\npop", "PopHalf": "lconst_1\niconst_1\npop2",
        "DupLong": "lconst_1\ndup", "DupUnderLong": "lconst_1\niconst_1\ndup_x1", "DupHalf": "lconst_1\niconst_1\ndup2", "SwapLong": "iconst_1\nlconst_1\nswap",
        "SwapUnderLong": "lconst_1\niconst_1\nswap", "DupTwoUnderHalf": "lconst_1\niconst_1\niconst_1\niconst_1\ndup2_x2",
        "IfOfNull": "aconst_null\nifeq end_\nend_:", "IfOfLong": "lconst_1\nifeq end_\nend_:", "NullOfInt": "iconst_0\nifnull end_\nend_:",
        "IntsAsReferences": "iconst_0\niconst_0\nif_acmpeq end_\nend_:", "ReferencesAsInts": "aconst_null\naconst_null\nif_icmpeq end_\nend_:",
        "SwitchOnLong": "lconst_1\nlookupswitch 1:end_ end_\nend_:", "SwitchOnNull": "aconst_null\nlookupswitch end_\nend_:",
        "CastInt": "iconst_1\ncheckcast Main", "InstanceOfLong": "lconst_1\ninstanceof Main", "ThrowInt": "iconst_1\nathrow", "LengthOfInt": "iconst_1\narraylength",
        "LengthOfObject": "new Main\narraylength", "LengthOfString": 'ldc "text"\narraylength', "AloadOfInt": "iconst_1\nistore 1\naload 1",
        "IloadOfNull": "aconst_null\nastore 1\niload 1", "IloadOfLong": "lconst_1\nlstore 1\niload 1", "LloadOfInt": "iconst_1\nistore 1\nlload 1",
        "IloadOfNothing": "iload 1", "AloadOfNothing": "aload 1", "LloadOfNothing": "lload 1", "SecondHalf": "lconst_1\nlstore 1\niload 2",
        "SecondHalfAsLong": "lconst_1\nlstore 1\nlload 2", "OverwrittenSecondHalf": "lconst_1\nlstore 1\niconst_1\nistore 2\nlload 1",
        "OverwrittenByLong": "lconst_1\nlstore 1\nlconst_0\nlstore 2\nlload 1", "OverwrittenFirstHalf": "lconst_1\nlstore 2\nlconst_0\nlstore 1\nlload 2",
        "IstoreOfNull": "aconst_null\nistore 1", "AstoreOfInt": "iconst_1\nastore 1", "LstoreOfInt": "iconst_1\nlstore 1", "IncrementOfNull": "aconst_null\nastore 1\niinc 1 1",
        "IncrementOfNothing": "iinc 1 1", "IncrementOfLong": "lconst_1\nlstore 1\niinc 1 1", "LengthNotAnInt": "lconst_1\nnewarray 10",
        "LengthIsNull": "aconst_null\nanewarray Main", "DimensionNotAnInt": "iconst_1\nlconst_1\nmultianewarray [[I 2",
        "IndexNotAnInt": "iconst_1\nnewarray 10\naconst_null\niaload", "ElementOfInt": "iconst_1\niconst_1\niaload",
        "ElementOfObject": "new Main\niconst_0\niaload", "IntsAsLongArray": "iconst_1\nnewarray 10\niconst_0\nlaload", "LongsAsIntArray": "iconst_1\nnewarray 11\niconst_0\niaload",
        "IntsAsBytes": "iconst_1\nnewarray 10\niconst_0\nbaload", "BytesAsChars": "iconst_1\nnewarray 8\niconst_0\ncaload", "CharsAsShorts": "iconst_1\nnewarray 5\niconst_0\nsaload",
        "IntsAsObjects": "iconst_1\nnewarray 10\niconst_0\naaload", "ObjectsAsInts": "iconst_1\nanewarray Main\niconst_0\niaload",
        "StoreNullInInts": "iconst_1\nnewarray 10\niconst_0\naconst_null\niastore", "StoreIntInObjects": "iconst_1\nanewarray Main\niconst_0\niconst_1\naastore",
        "StoreIntInLongs": "iconst_1\nnewarray 11\niconst_0\niconst_1\niconst_1\nlastore", "StoreInShortsAsChars": "iconst_1\nnewarray 9\niconst_0\niconst_1\ncastore",
        "StoreInIntsAsObjects": "iconst_1\nnewarray 10\niconst_0\naconst_null\naastore", "Underflow": "pop", "UnderflowOfTwo": "iconst_1\niadd", "UnderflowOfLong": "iconst_1\npop2",
        "FieldOfInt": "iconst_1\ngetfield Main.f:I", "CallOnInt": "iconst_1\ninvokevirtual java/lang/Object.hashCode:()I", "ArgumentMissing": "invokestatic Main.show:(I)V",
    }
    for name, code in wrong.items():
        yield stuck(name, code + "\nreturn")
    yield stuck("Overflow", "iconst_1\niconst_1\nreturn", stack=1)
    yield stuck("OverflowByLong", "lconst_1\nreturn", stack=1)
    yield stuck("OverflowByDup", "iconst_1\ndup\ndup\nreturn", stack=2)
    yield stuck("FallsOff", "iconst_1\npop")
    yield stuck("FallsOffBehindJump", "goto on\nback:\nreturn\non:\niconst_1\nifeq back")
    yield stuck("LocalOutside", "iconst_1\nistore 2\nreturn", locals=2, ending=f"stuck|{REFUSED}")
    yield stuck("LongOutside", "lconst_1\nlstore 1\nreturn", locals=2, ending=f"stuck|{REFUSED}")
    yield stuck("LoadOutside", "aload 9\nreturn", locals=2, ending=f"stuck|{REFUSED}")


def members():
    """Members and classes that aren't there, or are of another kind."""
    missing = {
        "NoStatic": "getstatic Main.none:I", "NoStaticOfThatType": "getstatic Main.there:J", "NoStaticToWrite": "iconst_1\nputstatic Main.none:I",
        "NoField": "new Main\ngetfield Main.none:I", "NoFieldToWrite": "new Main\niconst_1\nputfield Main.none:I", "NoFunction": "invokestatic Main.none:()V",
        "NoFunctionOfThatType": "iconst_1\ninvokestatic Main.show:(I)I", "NoMethod": "new Main\ninvokevirtual Main.none:()V", "NoSuper": "new Main\ninvokespecial Main.none:()V",
        "NoConstructor": "new Main\niconst_1\ninvokespecial Main.<init>:(I)V", "NoInterfaceMethod": "new Main\ninvokeinterface Face.none:()V",
        "NotImplemented": "new Main\ninvokeinterface Face.open:()V", "NoClassToMake": "new Missing", "NoClassOfStatic": "getstatic Missing.x:I",
        "NoClassOfFunction": "invokestatic Missing.f:()V", "StaticAsField": "new Main\ngetfield Main.there:I", "FieldAsStatic": "getstatic Main.own:I",
        "StaticAsMethod": "new Main\ninvokevirtual Main.still:()V", "MethodAsStatic": "invokestatic Main.moved:()V", "StaticAsSpecial": "new Main\ninvokespecial Main.still:()V", "Abstract": "new Half\ninvokevirtual Half.open:()V",
        "UnknownNative": "invokestatic Main.strange:()V", "WrongObject": "new Other\ngetfield Main.own:I",
        "WrongObjectToWrite": "new Other\niconst_1\nputfield Main.own:I", "FieldOfArray": "iconst_1\nnewarray 10\ngetfield Main.own:I",
        "MethodOfArray": "iconst_1\nnewarray 10\ninvokevirtual Main.moved:()V", "InterfaceMade": "new Face", "AbstractMade": "new Half",
    }
    for name, code in missing.items():
        main = main_class(code + "\nreturn").field("there", "I").field("own", "I", 1)
        main.method("still", "()V", "return").method("moved", "()V", "return", flags=1)
        main.method("strange", "()V", None, flags=0x109)
        face = Assembly("Face", flags=0x601).method("open", "()V", None, flags=0x401)
        half = Assembly("Half", flags=0x421).constructor().method("open", "()V", None, flags=0x401)
        other = Assembly("Other").constructor()
        yield Case(name, [main, face, half, other])
    yield Case("NoBody", [main_class("return").method("empty", "()V", None)], REFUSED)
    yield Case("NoMain", [Assembly("Main").constructor()], "no main")
    yield Case("NoSuchClass", [Assembly("Other").constructor()], "no main")
    yield Case("MainNotStatic", [Assembly("Main").main("return", flags=1)], "no main")
    yield Case("MainPrivate", [Assembly("Main").main("return", flags=10)], "no main")
    yield Case("MainWithoutCode", [Assembly("Main").main(None, flags=0x109)], "no main")
    yield Case("MainOfAnotherType", [Assembly("Main").method("main", "([Ljava/lang/Object;)V", "return")], "no main")
    yield Case("FirstOfAName", [main_class("iconst_1\n" + SHOW + "return"), main_class("iconst_2\n" + SHOW + "return")], "ended", b"1\n")


def worlds():
    """Runs without the library."""
    bare = Assembly("java/lang/Object", None).method("<init>", "()V", "return", flags=1, locals=1)
    yield Case("Bare", [bare, Assembly("Main").main("return")], "ended", has_prelude=False)
    yield Case("BareObject", [bare, Assembly("Main").main("new java/lang/Object\ninvokespecial java/lang/Object.<init>:()V\nreturn")], "ended", has_prelude=False)
    yield Case("NoStringClass", [bare, Assembly("Main").main('ldc "text"\npop\nreturn')], has_prelude=False)
    text = Assembly("java/lang/String").field("length", "I", 1)
    yield Case("StringWithoutText", [bare, text, Assembly("Main").main('ldc "text"\npop\nreturn')], has_prelude=False)
    yield Case("NoExceptionClass", [bare, Assembly("Main").main("iconst_1\niconst_0\nidiv\nreturn")], has_prelude=False)
    yield Case("NoNullPointerClass", [bare, Assembly("Main").main("aconst_null\narraylength\nreturn")], has_prelude=False)


def memory():
    """More than there is: one gigabyte for each case."""
    most = "ldc 2147483647\n"
    wanted = {name: f"{most}newarray {code}\npop\nreturn" for code, name in
              ((4, "MostBooleans"), (5, "MostChars"), (8, "MostBytes"), (9, "MostShorts"), (10, "MostInts"), (11, "MostLongs"))}
    wanted["MostObjects"] = f"{most}anewarray Main\npop\nreturn"
    wanted["MostOfMost"] = f"{most}{most}multianewarray [[J 2\npop\nreturn"
    wanted["ManyOfMany"] = "ldc 100000\nldc 100000\nmultianewarray [[I 2\npop\nreturn"
    wanted["EndlessCalls"] = "aload 0\ninvokestatic Main.main:([Ljava/lang/String;)V\nreturn"
    wanted["EndlessArrays"] = "again:\nsipush 10000\nnewarray 11\npop\ngoto again"
    wanted["EndlessObjects"] = "again:\nnew Main\npop\ngoto again"
    for name, code in wanted.items():
        yield Case(name, [main_class(code)], "out of memory", memory=1 << 30)
    deep = "iload 0\nifeq bottom\niload 0\niconst_1\nisub\ninvokestatic Main.deep:(I)I\niconst_1\niadd\nireturn\nbottom:\niconst_0\nireturn"
    for depth, name in ((10000, "Deep"), (1000000, "Deeper")):
        main = main_class(f"ldc {depth}\ninvokestatic Main.deep:(I)I\nldc {depth}\nisub\n{SHOW}return")
        yield Case(name, [main.method("deep", "(I)I", deep, stack=2, locals=1, frames=[("bottom", ["I"], [])])], "ended", b"0\n", depth == 10000)


def refused():
    """What is no class file."""
    for name, code in {"Nop": "nop", "Monitor": "aload 0\nmonitorenter", "Floating": "fconst_0", "ShortForm": "iload_0", "ConstantClass": "ldc class:Main",
                       "Unsorted": "iconst_1\nlookupswitch 5:end_ 1:end_ end_\nend_:"}.items():
        yield stuck(name, code + "\nreturn", ending=REFUSED)
    for name, code in {"FloatArray": "iconst_1\nnewarray 6", "NoArray": "iconst_1\nnewarray 3", "NoDimension": "multianewarray [[I 0",
                       "TooManyDimensions": "iconst_1\niconst_1\niconst_1\nmultianewarray [[I 3"}.items():
        yield stuck(name, code + "\nreturn", ending=f"stuck|{REFUSED}")


def stack():
    """Each form of the instructions on the stack's top."""
    pop_all = lambda n: SHOW * n
    forms = {
        "Swap": ("iconst_1\niconst_2\nswap", [1, 2]), "Dup": ("iconst_1\ndup", [1, 1]), "DupX1": ("iconst_1\niconst_2\ndup_x1", [2, 1, 2]),
        "DupX2": ("iconst_1\niconst_2\niconst_3\ndup_x2", [3, 2, 1, 3]), "Dup2": ("iconst_1\niconst_2\ndup2", [2, 1, 2, 1]),
        "Dup2X1": ("iconst_1\niconst_2\niconst_3\ndup2_x1", [3, 2, 1, 3, 2]), "Dup2X2": ("iconst_1\niconst_2\niconst_3\niconst_4\ndup2_x2", [4, 3, 2, 1, 4, 3]),
        "Pop2": ("iconst_1\niconst_2\niconst_3\npop2", [1]), "Pop": ("iconst_1\niconst_2\npop", [1]),
    }
    for name, (code, shown) in forms.items():
        yield valid(f"Stack{name}", f"{code}\n{pop_all(len(shown))}return", shown)
    low = "l2i\n" + SHOW
    longs = {
        "DupX2OverLong": ("ldc2_w 5L\niconst_3\ndup_x2", SHOW + low + SHOW, [3, 5, 3]), "Dup2OfLong": ("ldc2_w 5L\ndup2", low + low, [5, 5]),
        "Dup2X1OfLong": ("iconst_1\nldc2_w 5L\ndup2_x1", low + SHOW + low, [5, 1, 5]),
        "Dup2X2OfLongOverInts": ("iconst_1\niconst_2\nldc2_w 5L\ndup2_x2", low + SHOW * 2 + low, [5, 2, 1, 5]),
        "Dup2X2OfIntsOverLong": ("ldc2_w 5L\niconst_1\niconst_2\ndup2_x2", SHOW * 2 + low + SHOW * 2, [2, 1, 5, 2, 1]),
        "Dup2X2OfLongs": ("ldc2_w 5L\nldc2_w 6L\ndup2_x2", low * 3, [6, 5, 6]), "Pop2OfLong": ("iconst_1\nldc2_w 5L\npop2", SHOW, [1]),
    }
    for name, (code, end, shown) in longs.items():
        yield valid(f"Stack{name}", f"{code}\n{end}return", shown)
    yield valid("WideForms", "iconst_3\nwide istore 300\nwide iinc 300 -2\nwide iload 300\n" + SHOW + "ldc2_w 7L\nwide lstore 301\nwide lload 301\nl2i\n" + SHOW
                + "aload 0\nwide astore 1\nwide aload 1\narraylength\n" + SHOW + "iconst_2\nwide istore 2\nwide iload 2\n" + SHOW + "return", [1, 7, 0, 2], locals=303)
    yield valid("SecondOfTwoLongs", "ldc2_w 5L\nlstore 1\nldc2_w 6L\nlstore 2\nlload 2\nl2i\n" + SHOW + "return", [6])
    yield valid("BothConstants", 'ldc "a"\nldc_w "a"\nif_acmpeq same\niconst_0\n' + SHOW + "return\nsame:\niconst_1\n" + SHOW + "return", [1],
                frames=[("same", ["[Ljava/lang/String;"], [])])
    yield valid("EmptySwitch", "iconst_5\nlookupswitch other\nother:\niconst_2\n" + SHOW + "return", [2], frames=[("other", ["[Ljava/lang/String;"], [])])
    yield valid("SwitchOfEnds", "ldc -2147483648\nlookupswitch -2147483648:low 0:other 2147483647:other other\nother:\niconst_2\n" + SHOW + "return\nlow:\niconst_1\n"
                + SHOW + "return", [1], frames=[("other", ["[Ljava/lang/String;"], []), ("low", ["[Ljava/lang/String;"], [])])
    yield valid("TailOfNarrow", "ldc 200\ni2b\ni2c\nldc 65480\nisub\n" + SHOW + "iconst_4\nnewarray 8\ndup\niconst_0\nldc 511\nbastore\niconst_0\nbaload\nineg\n" + SHOW
                + "return", [0, 1])


def handlers():
    """Which rows of an exception table catch what is thrown where."""
    args, thrown = ["[Ljava/lang/String;"], "java/lang/Throwable"
    fail = "iconst_1\niconst_0\nidiv\npop\n"
    catch = "caught:\npop\niconst_1\n" + SHOW + "return\n"
    other = "other:\npop\niconst_2\n" + SHOW + "return\n"
    one, two = ("caught", args, [thrown]), ("other", args, [thrown])
    arithmetic = "threw java.lang.ArithmeticException"
    yield valid("CaughtInside", f"from:\n{fail}to:\nreturn\n{catch}", [1], handlers=[("from", "to", "caught", None)], frames=[one])
    yield valid("EndIsOutside", f"from:\niconst_1\niconst_0\nto:\nidiv\npop\nreturn\n{catch}", [], ending=arithmetic,
                handlers=[("from", "to", "caught", None)], frames=[one])
    yield valid("StartIsInside", f"iconst_1\niconst_0\nfrom:\nidiv\nto:\npop\nreturn\n{catch}", [1], handlers=[("from", "to", "caught", None)], frames=[one])
    yield valid("FirstRowCounts", f"from:\n{fail}to:\nreturn\n{catch}{other}", [1], handlers=[("from", "to", "caught", None), ("from", "to", "other", None)],
                frames=[one, two])
    yield valid("ClassesInOrder", f"from:\n{fail}to:\nreturn\n{catch}{other}", [2],
                handlers=[("from", "to", "caught", "java/lang/NullPointerException"), ("from", "to", "other", "java/lang/RuntimeException")],
                frames=[("caught", args, ["java/lang/NullPointerException"]), ("other", args, ["java/lang/RuntimeException"])])
    yield valid("HandlerInItsOwnRange", f"from:\n{fail}return\ncaught:\npop\niinc 1 1\niload 1\niconst_3\nif_icmpeq done\n{fail}to:\nreturn\ndone:\niload 1\n{SHOW}return"
                .replace("from:", "iconst_0\nistore 1\nfrom:"), [3], handlers=[("from", "to", "caught", "java/lang/ArithmeticException")],
                frames=[("caught", args + ["I"], ["java/lang/ArithmeticException"]), ("done", args + ["I"], [])])
    bad = Assembly("Bad").field("x", "I").method("<clinit>", "()V", "iconst_1\niconst_0\nidiv\nputstatic Bad.x:I\nreturn", flags=8).method("f", "()V", "return")
    yield valid("InitialisationAtTheStart", f"from:\ninvokestatic Bad.f:()V\nto:\nreturn\n{catch}", [1], bad,
                handlers=[("from", "to", "caught", "java/lang/ExceptionInInitializerError")], frames=[("caught", args, ["java/lang/ExceptionInInitializerError"])])
    yield stuck("CatchesAnAbsentClass", f"from:\n{fail}to:\nreturn\n{catch}", ending=f"stuck|{arithmetic}", handlers=[("from", "to", "caught", "Missing")])
    yield stuck("ThrowsNoThrowable", "new Main\nathrow")
    room = main_class("from:\ninvokestatic Main.fail:()V\nto:\nreturn\nat:\nreturn", stack=0, handlers=[("from", "to", "at", None)])
    yield Case("HandlerWithoutRoom", [room.method("fail", "()V", "aconst_null\nathrow")])
    first = Assembly("First").method("<clinit>", "(I)V", "iconst_1\niconst_0\nidiv\npop\nreturn", flags=8)
    first.field("x", "I").method("<clinit>", "()V", "iconst_4\nputstatic First.x:I\nreturn", flags=8)
    # JVMS 2.9: a method `<clinit>` of another descriptor is of no consequence
    yield Case("InitialiserByDescriptor", [main_class(f"getstatic First.x:I\n{SHOW}return"), first], "ended", b"4\n")
    empty = main_class("invokestatic Main.g:()I\npop\nreturn").method("g", "()I", "return")
    yield Case("NothingOutOfInt", [empty])
    yield Case("ValueOutOfVoid", [main_class("invokestatic Main.g:()V\nreturn").method("g", "()V", "iconst_1\nireturn")])
    yield Case("LongOutOfInt", [main_class("invokestatic Main.g:()I\nl2i\npop\nreturn").method("g", "()I", "lconst_1\nlreturn")])
    yield Case("IntOutOfReference", [main_class("invokestatic Main.g:()Ljava/lang/Object;\npop\nreturn").method("g", "()Ljava/lang/Object;", "iconst_1\nireturn")])
    yield valid("NullToAMissingClass", "aconst_null\ncheckcast Missing\ninstanceof Missing\n" + SHOW + "return", [0])


def resolution():
    """Where a member is found (JVMS 5.4.3)."""
    face = Assembly("Face", flags=0x601).field("x", "I", 0x19).method("<clinit>", "()V", "iconst_2\nputstatic Face.x:I\nreturn", flags=8)
    base = Assembly("Base").constructor().field("x", "I").method("<clinit>", "()V", "iconst_3\nputstatic Base.x:I\nreturn", flags=8)
    both = Assembly("Both", "Base", interfaces=("Face",)).constructor()
    yield valid("InterfacesBeforeTheSuperclass", f"getstatic Both.x:I\n{SHOW}return", [2], face, base, both)

    def family(top, middle):
        a = Assembly("A").constructor().method("f", "()I", top, flags=1)
        b = Assembly("B", "A").constructor()
        b = b.method("f", "()I", middle, flags=1) if middle else b
        c = Assembly("C", "B").constructor().method("f", "()I", "iconst_5\nireturn", flags=1)
        return a, b, c.method("up", "()I", "aload 0\ninvokespecial A.f:()I\nireturn", flags=1)
    make = "new C\ndup\ninvokespecial C.<init>:()V\n"
    yield valid("SuperIsTheNextClass", f"{make}invokevirtual C.up:()I\n{SHOW}return", [4], *family("iconst_3\nireturn", "iconst_4\nireturn"))
    yield valid("SuperIsFarther", f"{make}invokevirtual C.up:()I\n{SHOW}return", [3], *family("iconst_3\nireturn", None))
    yield valid("NamedByASubclass", f"{make}invokevirtual B.f:()I\n{SHOW}return", [5], *family("iconst_3\nireturn", None))
    low = Assembly("Low", "Base").constructor()
    yield valid("StaticBySubclass", f"iconst_4\nputstatic Low.x:I\ngetstatic Base.x:I\n{SHOW}return", [4], base, low)
    fielded = Assembly("Top").constructor().field("x", "I", 1)
    hidden = Assembly("Under", "Top").constructor().field("x", "J", 1)
    yield valid("FieldByTypeToo", f"new Under\ndup\ninvokespecial Under.<init>:()V\nastore 1\naload 1\niconst_4\nputfield Under.x:I\naload 1\nldc2_w 5L\nputfield Under.x:J\n"
                f"aload 1\ngetfield Top.x:I\n{SHOW}aload 1\ngetfield Under.x:J\nl2i\n{SHOW}return", [4, 5], fielded, hidden)
    yield valid("ResultTypeCounts", f"invokestatic Main.g:()I\n{SHOW}invokestatic Main.g:()J\nl2i\n{SHOW}return", [1, 2])


def sorts():
    """The sorts that a store asks, where the verifier doesn't: of the value also where the array is null, and of the value whose place it takes."""
    kinds = {"Int": ("I", "iconst_1"), "Long": ("J", "lconst_1"), "Reference": ("Ljava/lang/Object;", "aconst_null")}
    stores = {"iastore": "Int", "lastore": "Long", "aastore": "Reference", "bastore": "Int", "castore": "Int", "sastore": "Int"}
    for store, wanted in stores.items():
        for given, (_, value) in kinds.items():
            name, code = f"Null{store.capitalize()}Of{given}", f"aconst_null\niconst_0\n{value}\n{store}\nreturn"
            yield valid(name, code, [], ending="threw java.lang.NullPointerException") if given == wanted else stuck(name, code)
    make = "new Other\ndup\ninvokespecial Other.<init>:()V\n"
    for wanted, (descriptor, value) in kinds.items():
        for there, (other, _) in kinds.items():
            main = main_class(f"{make}{value}\nputfield Main.own:{descriptor}\nreturn").field("own", descriptor, 1)
            # no compiler puts into an object of a class that hasn't the field: its slot is asked, and not its class
            yield Case(f"Put{wanted}Over{there}", [main, Assembly("Other").constructor().field("x", other, 1)], "ended" if wanted == there else "stuck")


def chances():
    for seed in range(25):
        yield Case(f"Chance{seed}", [drawn(seed)], "ended", None, True)


def cases():
    found = [case for part in (operands, members, worlds, memory, refused, stack, handlers, resolution, sorts, chances) for case in part()]
    for case in found:
        if case.name == "ResultTypeCounts":
            case.classes[0].method("g", "()I", "iconst_1\nireturn").method("g", "()J", "ldc2_w 2L\nlreturn")
    return found
