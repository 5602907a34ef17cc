/** The CRC-32 of some bytes, by a table. */
class Crc {
    private static final int[] TABLE = new int[256];

    static {
        for (int n = 0; n < 256; n++) {
            int value = n;
            for (int bit = 0; bit < 8; bit++) {
                value = (value & 1) != 0 ? value >>> 1 ^ 0xedb88320 : value >>> 1;
            }
            TABLE[n] = value;
        }
    }

    static int of(byte[] bytes) {
        int crc = -1;
        for (byte b : bytes) {
            crc = crc >>> 8 ^ TABLE[(crc ^ b) & 0xff];
        }
        return ~crc;
    }

    public static void main(String[] args) {
        byte[] digits = new byte[9];
        for (int n = 0; n < 9; n++) {
            digits[n] = (byte) ('1' + n);
        }
        Out.line(of(digits));
        byte[] many = new byte[5000];
        for (int n = 0; n < many.length; n++) {
            many[n] = (byte) (n * n);
        }
        Out.line(of(many));
        Out.line(of(new byte[0]));
    }
}
