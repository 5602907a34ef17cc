/** Strings that are built, cut, compared, hashed and searched. */
class Strings {
    public static void main(String[] args) {
        int sum = 0;
        for (int n = 0; n < 20000; n++) {
            StringBuilder builder = new StringBuilder();
            for (int at = 0; at < 20; at++) {
                builder.append((char) ('a' + (n + at) % 26));
            }
            String text = builder.append(n).toString();
            String part = text.substring(3, 15).concat(text);
            sum = sum * 31 + part.hashCode() + text.compareTo(part) + part.indexOf("xyz");
            if (part.equals(text) || part.endsWith("77") && text.startsWith("a")) {
                sum++;
            }
        }
        System.out.println(sum);
    }
}
