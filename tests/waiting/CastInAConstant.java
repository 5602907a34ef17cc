class Main {
    public static void main(String[] args) {
        String s = (String) "a";
        System.out.println(((String) "a" + "b") == "ab");
        System.out.println(s);
    }
}
