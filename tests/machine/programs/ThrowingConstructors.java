class ThrowingConstructors {
    static ThrowingConstructors leaked;
    final int value;
    int late = 9;

    ThrowingConstructors(int value) {
        leaked = this;
        this.value = value;
        if (value < 0) {
            throw new IllegalArgumentException("negative");
        }
        late = 10;
    }

    public static void main(String[] args) {
        ThrowingConstructors made = new ThrowingConstructors(4);
        Out.line(made == leaked);
        Out.line(made.late);
        try {
            made = new ThrowingConstructors(-4);
        } catch (IllegalArgumentException e) {
            Out.line(e.getMessage());
        }
        Out.line(made.value);
        Out.line(leaked.value);
        Out.line(leaked.late);
        Out.line(made == leaked);
    }
}
