/** Each exception that the machine makes is caught as its own class, as its superclass and as a Throwable, and has no trace of a constructor. */
class MachineExceptions {
    static class Failing { static int x = 1 / zero(); static int zero() { return 0; } }

    static void fail(int kind) {
        Object none = null;
        int[] numbers = new int[2];
        int zero = kind - kind;
        switch (kind) {
            case 0: Out.line(1 / zero); break;
            case 1: Out.line(1L % zero); break;
            case 2: Out.line(numbers[2]); break;
            case 3: Out.line(new int[zero - 1].length); break;
            case 4: none.equals(none); break;
            case 5: Out.line((String) (Object) numbers); break;
            case 6: Object[] texts = new String[1]; texts[0] = numbers; break;
            case 7: Out.line(Failing.x); break;
            case 8: Out.line(Failing.x); break;
            case 9: throw null;
            case 10: Integer box = null; Out.line(box); break;
            default: Out.line("nothing"); break;
        }
    }

    static void caught(int kind) {
        try {
            fail(kind);
        } catch (ArithmeticException e) { Out.line("Arithmetic");
        } catch (ArrayIndexOutOfBoundsException e) { Out.line("ArrayIndex");
        } catch (NegativeArraySizeException e) { Out.line("NegativeArraySize");
        } catch (NullPointerException e) { Out.line("NullPointer");
        } catch (ClassCastException e) { Out.line("ClassCast");
        } catch (ArrayStoreException e) { Out.line("ArrayStore");
        } catch (ExceptionInInitializerError e) { Out.line("InInitializer");
        } catch (NoClassDefFoundError e) { Out.line("NoClassDef");
        }
    }

    public static void main(String[] args) {
        for (int kind = 0; kind < 12; kind++) {
            if (kind == 7) { continue; }
            try {
                fail(kind);
            } catch (RuntimeException e) {
                Out.line(Out.kind(e));
            } catch (LinkageError e) {
                Out.line(Out.kind(e));
            }
        }
        for (int kind = 0; kind < 12; kind++) {
            caught(kind);
        }
        for (int kind = 0; kind < 12; kind++) {
            try {
                fail(kind);
            } catch (IndexOutOfBoundsException e) {
                Out.line("index");
            } catch (Throwable e) {
                Out.line(Out.kind(e));
            }
        }
    }
}
