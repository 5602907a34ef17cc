class A {
    void m(String a) {
        switch (a) {
            case "a":
        }
    }
}
