/** A static field that is looked for above many layers of interfaces, each of which extends both of the layer below, before the superclass that has it. */
class FieldsAboveLayers {
    public static void main(String[] args) {
        Leaf.count = 1;
        for (int turn = 0; turn < 3; turn++) {
            Leaf.count += turn;
            Out.line(Leaf.count);
        }
        Out.line(Leaf.text());
        Leaf leaf = new Leaf();
        leaf.own = 7;
        leaf.own++;
        Out.line(leaf.own + Leaf.count);
        Out.line(Ground.count == Leaf.count);
    }
}

class Ground {
    static int count;
    int own;

    static String text() {
        return "from the ground";
    }
}

class Leaf extends Ground implements Left21, Right21 {
}

interface Left0 {
}

interface Right0 {
}

interface Left1 extends Left0, Right0 {
}

interface Right1 extends Left0, Right0 {
}

interface Left2 extends Left1, Right1 {
}

interface Right2 extends Left1, Right1 {
}

interface Left3 extends Left2, Right2 {
}

interface Right3 extends Left2, Right2 {
}

interface Left4 extends Left3, Right3 {
}

interface Right4 extends Left3, Right3 {
}

interface Left5 extends Left4, Right4 {
}

interface Right5 extends Left4, Right4 {
}

interface Left6 extends Left5, Right5 {
}

interface Right6 extends Left5, Right5 {
}

interface Left7 extends Left6, Right6 {
}

interface Right7 extends Left6, Right6 {
}

interface Left8 extends Left7, Right7 {
}

interface Right8 extends Left7, Right7 {
}

interface Left9 extends Left8, Right8 {
}

interface Right9 extends Left8, Right8 {
}

interface Left10 extends Left9, Right9 {
}

interface Right10 extends Left9, Right9 {
}

interface Left11 extends Left10, Right10 {
}

interface Right11 extends Left10, Right10 {
}

interface Left12 extends Left11, Right11 {
}

interface Right12 extends Left11, Right11 {
}

interface Left13 extends Left12, Right12 {
}

interface Right13 extends Left12, Right12 {
}

interface Left14 extends Left13, Right13 {
}

interface Right14 extends Left13, Right13 {
}

interface Left15 extends Left14, Right14 {
}

interface Right15 extends Left14, Right14 {
}

interface Left16 extends Left15, Right15 {
}

interface Right16 extends Left15, Right15 {
}

interface Left17 extends Left16, Right16 {
}

interface Right17 extends Left16, Right16 {
}

interface Left18 extends Left17, Right17 {
}

interface Right18 extends Left17, Right17 {
}

interface Left19 extends Left18, Right18 {
}

interface Right19 extends Left18, Right18 {
}

interface Left20 extends Left19, Right19 {
}

interface Right20 extends Left19, Right19 {
}

interface Left21 extends Left20, Right20 {
}

interface Right21 extends Left20, Right20 {
}
