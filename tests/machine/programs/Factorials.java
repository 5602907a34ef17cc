/** Large numbers as arrays of digits. */
class Factorials {
    static int[] times(int[] digits, int by) {
        int[] product = new int[digits.length + 3];
        long carry = 0;
        for (int at = 0; at < product.length; at++) {
            long sum = carry + (at < digits.length ? (long) digits[at] * by : 0);
            product[at] = (int) (sum % 10);
            carry = sum / 10;
        }
        return product;
    }

    public static void main(String[] args) {
        int[] digits = { 1 };
        for (int n = 2; n <= 60; n++) {
            digits = times(digits, n);
        }
        int at = digits.length - 1;
        while (digits[at] == 0) {
            at--;
        }
        for (; at >= 0; at--) {
            System.out.write('0' + digits[at]);
        }
        Out.line();
    }
}
