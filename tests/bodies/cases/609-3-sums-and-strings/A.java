class A {
    String m(Object o, char[] c, boolean b) {
        String s = o + "a" + c + b + null + 1L;
        s += null;
        s += 'c';
        o += "x";
        Comparable<String> t = "";
        t += s;
        return 1 + 'c' + s;
    }
}
