// without: narrow B, narrow S, narrow C, narrow Z
class Main {
  public static void main(String[] args) {
    byte[] b = {300, -129}; short[] s = new short[1]; char[] c = {65601}; boolean[] z = {2, 3}; int[] n = {70000}; long[] l = {5000000000L};
    s[0] = 65537;
    System.out.println(b[0]); System.out.println(b[1]); System.out.println(s[0]); System.out.println(c[0]); System.out.println(z[0]); System.out.println(z[1]);
    System.out.println(n[0]); System.out.println(l[0]);
    b[0] = b[1] = 255;
    System.out.println(b[0]); System.out.println(b[1]);
    b[0] += 200;
    System.out.println(b[0]);
  }
}
