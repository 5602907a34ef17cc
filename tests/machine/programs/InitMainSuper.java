/** The superclass of the class with main is initialised before it, and both before main. */
class InitMainSuper extends InitMainSuperBase {
    static { Out.line("class"); }
    static int y = x + 1;

    public static void main(String[] args) {
        Out.line("main");
        Out.line(y);
    }
}

class InitMainSuperBase extends InitMainSuperTop {
    static { Out.line("base"); }
}

class InitMainSuperTop {
    static { Out.line("top"); }
    static int x = 41;
}
