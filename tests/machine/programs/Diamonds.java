/** Interfaces in layers, each of which extends both of the layer below: as many ways upward as two to the number of layers. */
class Diamonds {
    public static void main(String[] args) {
        Object top = new Top();
        Out.line(top instanceof Down0);
        Out.line(top instanceof Across0);
        Out.line(top instanceof Aside);
        Down0 down = (Down0) top;
        Out.line(down == top);
        try {
            Aside aside = (Aside) top;
            Out.line(aside == null);
        } catch (ClassCastException e) {
            Out.line("no cast");
        }
        Object[] acrosses = new Across0[1];
        acrosses[0] = top;
        Object[] asides = new Aside[1];
        try {
            asides[0] = top;
        } catch (ArrayStoreException e) {
            Out.line("no store");
        }
        Out.line(acrosses instanceof Down0[]);
        Out.line(new Top[0] instanceof Down0[]);
    }
}

interface Aside {
}

interface Down0 {
}

interface Across0 {
}

interface Down1 extends Down0, Across0 {
}

interface Across1 extends Down0, Across0 {
}

interface Down2 extends Down1, Across1 {
}

interface Across2 extends Down1, Across1 {
}

interface Down3 extends Down2, Across2 {
}

interface Across3 extends Down2, Across2 {
}

interface Down4 extends Down3, Across3 {
}

interface Across4 extends Down3, Across3 {
}

interface Down5 extends Down4, Across4 {
}

interface Across5 extends Down4, Across4 {
}

interface Down6 extends Down5, Across5 {
}

interface Across6 extends Down5, Across5 {
}

interface Down7 extends Down6, Across6 {
}

interface Across7 extends Down6, Across6 {
}

interface Down8 extends Down7, Across7 {
}

interface Across8 extends Down7, Across7 {
}

interface Down9 extends Down8, Across8 {
}

interface Across9 extends Down8, Across8 {
}

interface Down10 extends Down9, Across9 {
}

interface Across10 extends Down9, Across9 {
}

interface Down11 extends Down10, Across10 {
}

interface Across11 extends Down10, Across10 {
}

interface Down12 extends Down11, Across11 {
}

interface Across12 extends Down11, Across11 {
}

interface Down13 extends Down12, Across12 {
}

interface Across13 extends Down12, Across12 {
}

class Top implements Down13, Across13 {
}
