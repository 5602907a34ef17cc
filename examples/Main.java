class Main {
    public static void main(String[] args) {
        System.out.write(72);
        System.out.write(100 + 5);
        System.out.write(5 + 3 + 2);
    }
}
