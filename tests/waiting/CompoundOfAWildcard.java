class Main {
    public static void main(String[] args) {
        Comparable<?> c = 1;
        c += "x";
        System.out.println(c);
        System.out.println((c += "y").hashCode() == "1xy".hashCode());
    }
}
