/** 20 million turns of a loop of simple instructions. */
class Arithmetic {
    public static void main(String[] args) {
        int mixed = 1;
        long sum = 0;
        for (int n = 0; n < 20000000; n++) {
            mixed = mixed * 31 + n ^ mixed >>> 7;
            sum += mixed & 255;
        }
        System.out.println(mixed);
        System.out.println(sum);
    }
}
