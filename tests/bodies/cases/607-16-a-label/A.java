class A {
    void m(byte b) {
        switch (b) {
            case 127:
                break;
            case 128:
                break;
        }
    }
}
