class A {
    void method(int number) {
        switch (number) {
            default: transient int other = 1;
        }
    }
}
