class A {
    final int f = 1;
    void m(int a) {
        switch (a) {
            case this.f:
        }
    }
}
