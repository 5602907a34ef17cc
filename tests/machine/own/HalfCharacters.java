/** Halves of a character that are put out apart are two question marks. */
class HalfCharacters {
    public static void main(String[] args) {
        System.out.print('\ud83d');
        System.out.println('\ude00');
        System.out.print("\ud83d");
        System.out.println("\ude00");
        System.out.println("\ud83d\ude00");
    }
}
