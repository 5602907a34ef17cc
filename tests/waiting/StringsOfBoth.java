class Main {
    static class Loud {
        public String toString() { System.out.println("loud"); return null; }
    }
    public static void main(String[] args) {
        String s = null;
        System.out.println(s + new Loud() + 'c' + 1 + true + 2L);
    }
}
