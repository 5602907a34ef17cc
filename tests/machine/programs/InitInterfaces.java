/** An interface is initialised at the use of one of its own fields, and by no class that implements it. */
class InitInterfaces {
    static int say(String name) {
        Out.line(name);
        return name.length();
    }

    interface I { int I1 = say("I1"); int I2 = say("I2"); int I3 = 3; }
    interface J extends I { int J1 = say("J1"); }
    interface K { int K1 = say("K1"); }
    static class A implements J, K { static int a = say("A"); }
    static class B extends A { static int b = say("B"); }

    public static void main(String[] args) {
        new B();
        Out.line("made");
        Out.line(B.I3);
        Out.line(J.I3);
        Out.line(J.J1);
        Out.line("J done");
        Out.line(B.I2);
        Out.line(A.K1);
        Out.line(J.I1);
        K[] array = new K[1];
        array[0] = new A();
        Out.line(array[0].K1);
    }
}
