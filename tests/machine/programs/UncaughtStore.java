class UncaughtStore {
    public static void main(String[] args) {
        Object[] all = new Integer[1];
        all[0] = "text";
    }
}
